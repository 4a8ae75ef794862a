"""The plants that tests/plant/run runs, as rows."""

import dataclasses
import random
import re


@dataclasses.dataclass(frozen=True)
class Row:
    """A plant. What must hold of every plant is in run and logs.py; the rest is said here."""

    name: str
    size: int
    options: tuple = ()
    ring: bool = False
    reply: int = 200  # how long a reply is waited for, in milliseconds
    long: bool = False  # by tests/plant/run --long only
    needs: tuple = ()  # commands; without one the row is skipped
    boards: dict = dataclasses.field(default_factory=dict)  # board -> what runs there: 'early', or an option of the board program, or a processor
    beside: str = ''  # what else runs: 'strangers' sends wrong frames
    is_lossy: bool = False  # frames are lost: a board may miss entries
    is_rough: bool = False  # so many that a board may be entered as late or crashed though it was neither killed nor stopped
    may_crash: frozenset = frozenset()  # boards that may be entered as crashed besides those killed
    must_crash: frozenset = frozenset()
    must_leave: frozenset = frozenset()  # since they were told
    must_be_late: frozenset = frozenset()
    must_say: tuple = ()  # patterns for what ./plant says
    entries: int = 0  # at least so many
    asks: bool = False  # whether a board must have missed entries, and got its line
    stays_on: bool = False  # whether all outputs must stay on

    def slower(self, times):
        """The same row with times that are longer: of replies, and of what lasts for so long. What happens at a moment happens at that moment."""
        if times == 1:
            return self

        def longer(text):
            return re.sub(r'(?<=[:+])(\d+)(ms|s)?$', lambda found: f'{int(found[1]) * times}{found[2] or ""}', text)

        options = [f'{int(value[:-2]) * times}ms' if name == '--pace' else longer(value) if name in ('--stop', '--out', '--hold') else value
                   for name, value in zip(['', *self.options], self.options)]
        if '--seconds' in options:
            place = options.index('--seconds') + 1
            options[place] = str(int(options[place]) * times)
        return dataclasses.replace(self, reply=self.reply * times, options=tuple(options),
                                   boards={board: longer(kind) for board, kind in self.boards.items()})


def killing(seed, size, count, at_once, first=0.3, last=1.2):
    """Which boards are killed, and when, drawn by a seed."""
    drawn = random.Random(seed)
    boards = drawn.sample(range(size), count)
    moment = drawn.uniform(first, last)
    options = []
    for board in boards:
        at = moment if at_once else drawn.uniform(first, last)
        options += ['--kill', f'{board}@{at:.3f}s']
    return tuple(options)


def killed_rows(sizes, long, seed):
    for size in sizes:
        for ring in (False, True):
            wiring = 'ring' if ring else 'cube'
            some = max(1, size // 4)
            yield Row(f'{size} on the {wiring}, {some} killed at once', size, killing(f'{seed} {size} {ring} once', size, some, True), ring=ring,
                      long=long)
            if long:
                count = min(size - 1, 5)
                yield Row(f'{size} on the {wiring}, {count} killed one by one', size, killing(f'{seed} {size} {ring} one', size, count, False),
                          ring=ring, long=True)


FIGURES = (4, 8, 16, 32)


def figures(size, ring):
    for seed in range(5):
        yield Row(f'figures {size} {ring} {seed}', size, killing(f'figures {size} {ring} {seed}', size, 1, True), ring=ring, reply=50)


QEMU = ('qemu-arm', 'arm-linux-gnueabihf-gcc', 'qemu-s390x', 's390x-linux-gnu-gcc')
ROWS = [
    *killed_rows((2, 4, 8, 16), False, 1),
    Row('5 on the cube, all but the last killed one by one', 5, killing(2, 5, 4, False)),
    Row('4 on the ring, all but the last killed at once', 4, killing(3, 4, 3, True), ring=True),
    Row('8 on the cube, a reply is late', 8, ('--late', '5@0.5s'), must_be_late=frozenset([5]), must_leave=frozenset([5])),
    Row('8 on the ring, a reply is late', 8, ('--late', '2@0.5s'), ring=True, must_be_late=frozenset([2]), must_leave=frozenset([2])),
    Row('4 on the ring, stopped for longer than its turn has', 4, ('--stop', '2@0.5s+1500ms'), ring=True, reply=100, may_crash=frozenset([2])),
    Row('6 on the cube, stopped between judging and sending, and its turn ends in time', 6, ('--rounds', '4'), reply=100,
        boards={3: '--pause 4:150'}),
    Row('6 on the cube, stopped between judging and sending, past the end of its turn', 6, ('--rounds', '8'), boards={3: '--pause 4:900'}, reply=100,
        must_crash=frozenset([3])),
    Row('6 on the cube, ends of turns at the edge of their time', 6, ('--hold', '3:210ms', '--rounds', '2'), reply=100, may_crash=frozenset([3])),
    Row('4 on the cube, the cable is out for a second', 4, ('--out', '0.5s+1s'), reply=50, is_lossy=True, is_rough=True,
        must_say=('the cable is out', 'nobody answers the bus master', 'boards are heard again')),
    Row('8 on the cube, the bus master is killed and started again, twice', 8, ('--restart', '0.4s', '--restart', '0.8s'), reply=100,
        must_say=('the bus master is killed, and started again',)),
    Row('8 on the cube, frames lost, twice and overtaking each other', 8,
        ('--loss', '3%', '--twice', '5%', '--delay', '1ms', '--jitter', '3ms', '--kill', '6@0.7s', '--seed', '5'), is_lossy=True, reply=100,
        asks=True),
    Row('6 on the ring, frames lost at all at once', 6, ('--lost-at-all', '5%', '--rounds', '12', '--seed', '6'), ring=True, reply=100,
        is_lossy=True),
    Row('4 on the ring, the bus master is killed and started again before its first entry', 4, ('--restart', '0.001s', '--rounds', '3'), ring=True,
        reply=100, entries=3),
    Row('4 on the cube, the bus master rests between turns for longer than outputs stay on', 4, ('--pace', '700ms', '--seconds', '3'), reply=50,
        stays_on=True, entries=3),
    Row('6 on the cube, with wrong frames of strangers', 6, ('--rounds', '60'), beside='strangers', reply=100, entries=1000),
    *(Row(f'{size} on the cube, board {board} has the early release\'s order', size, ('--rounds', '2'), boards={board: 'early'},
          must_crash=frozenset([board]), must_say=(f'board {board} does not keep the rules',)) for size, board in ((4, 1), (8, 5), (16, 6))),
    Row('8 on the cube, board 3 has the early release\'s order, and the bus master stops at a fault', 8, ('--stop-at-fault', '--rounds', '2'),
        boards={3: 'early'}, must_say=('board 3 does not keep the rules', 'the bus master stops')),

    *killed_rows((3, 5, 6, 7, 9, 12, 17, 24, 31, 32, 33, 48, 63, 64), True, 7),
    *(Row(f'{size} on the {"ring" if ring else "cube"}, all but the last killed {"at once" if at_once else "one by one"} (long)',
          size, killing(f'8 {size} {ring}', size, size - 1, at_once), ring=ring, long=True)
      for size in (4, 8, 16) for ring in (False, True) for at_once in (False, True)),
    *(Row(f'{size} on the cube, board {board} has the early release\'s order', size, ('--rounds', '2'), boards={board: 'early'}, long=True,
          must_crash=frozenset([board]), must_say=(f'board {board} does not keep the rules',))
      for size in (4, 8, 16) for board in range(size) if (size, board) not in ((4, 1), (8, 5), (16, 6))),
    *(Row(f'6 on the cube, ends of turns {ms} ms after the grant', 6, ('--hold', f'3:{ms}ms', '--rounds', '2'), reply=100, may_crash=frozenset([3]),
          long=True) for ms in range(196, 226, 3)),
    *(Row(f'6 on the cube, stopped before the end of turn {turn} for {ms} ms', 6, ('--rounds', '6'), boards={2: f'--pause {turn}:{ms}'}, reply=100,
          may_crash=frozenset([2]), long=True) for turn in range(1, 6) for ms in (150, 215, 260, 306, 309, 311, 315, 400)),
    *(Row(f'8 on the {"ring" if ring else "cube"}, {loss} % of the frames lost', 8,
          ('--loss', f'{loss}%', '--kill', '3@1s', '--seed', f'{loss}', '--seconds', '20'), ring=ring, reply=100, is_lossy=True,
          is_rough=loss > 5, long=True)
      for loss in (1, 5, 10, 20) for ring in (False, True)),
    Row('16 on the cube, 60 rounds: more entries than a recording holds', 16, ('--rounds', '60'), long=True, entries=4097),
    Row('4 on the cube, ARM and s390x beside x86-64', 4, ('--kill', '2@1.5s'), needs=QEMU, boards={0: 'arm', 1: 's390x', 2: 'arm'}, reply=400,
        long=True),
    Row('8 on the ring, ARM and s390x beside x86-64', 8, ('--kill', '3@1.5s'), ring=True, needs=QEMU,
        boards={0: 'arm', 1: 's390x', 3: 's390x', 4: 'arm', 6: 's390x'}, reply=400, long=True),
    Row('16 on the cube, ARM and s390x beside x86-64', 16, ('--kill', '9@2s', '--kill', '4@2s'), needs=QEMU,
        boards={0: 'arm', 1: 's390x', 4: 'arm', 5: 's390x', 9: 'arm', 14: 's390x'}, reply=400, long=True),
]

assert len({row.name for row in ROWS}) == len(ROWS), 'two rows have one name'
