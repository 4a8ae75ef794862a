"""The logs of a plant that ran, held against the simulator and the run program. Each check gives what is wrong, as lines of text."""

import dataclasses
import os
import re
import subprocess

import frames

HEAD = 6
NOBODY = 255
LIVE, CRASHED, TOLD, ALONE = 0, 1, 2, 3
TURN, LATE_TURN, CRASH = 1, 2, 3
LETTERS = {TURN: 'T', LATE_TURN: 'L', CRASH: 'C'}
MOST_RECORDED = 4096
NOT_LIVE = 5  # the kind of the fault
ENDS = ('FINISHED', 'EXCHANGE', 'LEFT', 'NO_REPLY', None, 'TOLD')  # by which a turn ends, by outcome; none ends with outcome 4


@dataclasses.dataclass
class Entry:
    """An entry that the bus master made, with its table after it."""

    at: int
    number: int
    kind: int
    station: int
    tested: int
    outcome: int
    closed: int
    status: int
    lamp: tuple
    wait: tuple
    table: bytes


@dataclasses.dataclass
class State:
    """What the simulator says after an entry."""

    sheet: tuple
    rounds: int
    lamp: tuple
    wait: tuple  # rounds, turns until known, turns from a crash
    granted: int
    table: bytes


class Table:
    def __init__(self, n, table):
        line = n + HEAD
        self.n = n
        self.lines = [table[k * line:(k + 1) * line] for k in range(n)]

    def status(self, k):
        return self.lines[k][0]

    def live(self):
        return [k for k in range(self.n) if self.status(k) == LIVE]

    def dead(self):
        return [k for k in range(self.n) if self.status(k) != LIVE]

    def all_known(self):
        return all(self.lines[i][HEAD + j] == 1 for i in self.live() for j in self.dead())


def read_master(folder):
    """The entries; and all other lines but those of words, as lists of fields."""
    entries, others = [], []
    with open(os.path.join(folder, 'master.log'), encoding='ascii') as file:
        for line in file:
            at, what, rest = line.rstrip('\n').split(' ', 2)
            if what == 'entry':
                *numbers, table = rest.split(' ')
                it = [int(number) for number in numbers]
                entries.append(Entry(int(at), *it[:7], tuple(it[7:9]), tuple(it[9:12]), bytes.fromhex(table)))
            elif what == 'again':
                del entries[int(rest):]
            elif at != 'outcome':
                others.append((int(at), what, rest))
    return entries, others


def read_board(folder, k):
    """The entries in force at a board with its line then, in the order in which they came."""
    records, outputs = [], []
    with open(os.path.join(folder, f'board-{k}.log'), encoding='ascii') as file:
        for line in file:
            if not line.endswith('\n'):
                break  # the board was killed as it wrote
            fields = line.split()
            if fields[0] == 'board':
                records.append((int(fields[1]), bytes.fromhex(fields[2]) if len(fields) > 2 else b''))
            else:
                outputs.append(fields[1])
    return records, outputs


def recording(n, entries):
    return ''.join([f'{n}\n', *(f'{LETTERS[entry.kind]} {entry.station}\n' for entry in entries)])


def simulated(program, wiring, text):
    """The state after each entry, from the fresh table on."""
    done = subprocess.run([program, wiring], input=text.encode(), capture_output=True, check=False)
    if done.returncode != 0:
        raise ValueError(done.stderr.decode())
    states = []
    for line in done.stdout.decode().splitlines():
        *numbers, table = line.split(' ')
        it = [int(number) for number in numbers]
        states.append(State(tuple(it[:4]), it[4], tuple(it[5:7]), tuple(it[7:10]), it[10], bytes.fromhex(table)))
    return states


@dataclasses.dataclass
class Run:
    """A plant that ran: its logs, and what the simulator says of its entries."""

    n: int
    wiring: str
    reply: int
    killed: set
    stopped: set
    entries: list
    others: list
    boards: dict
    outputs: dict
    states: list
    recorded: str
    frames: list = dataclasses.field(default_factory=list)
    wrong_boards: set = dataclasses.field(default_factory=set)  # that do not keep the rules

    def table(self, number):
        return Table(self.n, self.states[number].table)

    def line(self, number, k):
        length = self.n + HEAD
        return self.states[number].table[k * length:(k + 1) * length]

    def last(self):
        return self.table(len(self.entries))

    def pauses(self):
        """Which processes the computer did not let run, and the longest time of each, in milliseconds."""
        longest = {}
        for _, what, rest in self.others:
            if what == 'paused':
                lasting, who = rest.split(' ', 1)
                longest[who] = max(longest.get(who, 0), int(lasting))
        return longest


def read_run(folder, n, wiring, reply, text, simulator):
    entries, others = read_master(folder)
    boards, outputs = {}, {}
    for k in range(n):
        boards[k], outputs[k] = read_board(folder, k)
    with open(os.path.join(folder, 'recorded'), encoding='ascii') as file:
        recorded = file.read()
    killed = {int(rest) for _, what, rest in others if what == 'killed'}
    stopped = {int(k) for k in re.findall(r'board (\d+) is stopped', text)}
    return Run(n, wiring, reply, killed, stopped, entries, others, boards, outputs, simulated(simulator, wiring, recording(n, entries)),
               recorded, read_frames(folder))


def master_is_simulated(run):
    """Each entry of the bus master is what the simulator makes of it: table, run sheet, closing, lamp and wait; and it granted by rule Grant."""
    before = run.states[0]
    for entry, state in zip(run.entries, run.states[1:]):
        what = f'entry {entry.number}'
        sheet = (entry.station, entry.tested, entry.outcome, entry.status)
        for name, written, right in (('line of the run sheet', sheet, state.sheet), ('closing', entry.closed, state.rounds - before.rounds),
                                     ('doubt lamp', entry.lamp, state.lamp), ('wait', entry.wait, state.wait),
                                     ('table', entry.table.hex(), state.table.hex()), ('board granted', entry.station, before.granted)):
            if written != right:
                yield f'{what}: the {name} of the bus master is {written}, by the simulator {right}'
        before = state


def entries_are_numbered(run):
    numbers = [entry.number for entry in run.entries]
    if numbers != list(range(1, len(numbers) + 1)):
        yield f'the entries are numbered {numbers[:20]} ..'


def boards_hold_lines(run):
    """Each record of each board is the simulator's line of it after the entries in force at it, byte by byte; entries in force only grow."""
    for k, records in run.boards.items():
        before = -1
        for number, line in records:
            if number > len(run.entries):
                yield f'board {k} has {number} entries in force, the bus master made {len(run.entries)}'
                break
            if number < before:
                yield f'board {k} has {number} entries in force after {before}'
            if line != run.line(number, k):
                yield f'board {k} after entry {number}: {line.hex()}, by the simulator {run.line(number, k).hex()}'
            before = number


def boards_hear_closings(run):
    """After each closing each board that is live, and was neither killed nor stopped, has a record of just that entry."""
    has = {k: {number for number, _ in records} for k, records in run.boards.items()}
    for entry in run.entries:
        if entry.closed:
            for k in run.table(entry.number).live():
                if k not in run.killed and k not in run.stopped and entry.number not in has[k]:
                    yield f'board {k} has no line after entry {entry.number}, which closed a round'


def boards_hear_the_end(run):
    """In the end each live board knows all entries."""
    for k in run.last().live():
        if k not in run.killed and (not run.boards[k] or run.boards[k][-1][0] != len(run.entries)):
            yield f'board {k} knows {run.boards[k][-1][0] if run.boards[k] else 0} entries of {len(run.entries)} in the end'


def recording_is_run(run, watch):
    """The recording is that of the entries, and the run program makes of it what the bus master made."""
    if run.recorded != recording(run.n, run.entries[:MOST_RECORDED]):
        yield 'the recording is not that of the entries'
    done = subprocess.run([watch, *(['--ring'] if run.wiring == 'ring' else [])], input=run.recorded.encode(), capture_output=True, check=False)
    lines = ['station tested outcome status']
    some = run.entries[:MOST_RECORDED]
    lines += [f'{e.station} {"-" if e.tested == NOBODY else e.tested} {e.outcome} {e.status}' for e in some]
    tests = sum(entry.tested != NOBODY for entry in some)
    lines += [f'rounds {sum(entry.closed for entry in some)} tests {tests} refused 0 at {len(some)}', '']
    if done.stdout.decode() != '\n'.join(lines):
        yield f'the run program makes another run sheet of the recording: {done.stdout.decode()[-200:]}'


def only_late_boards_leave(run):
    """A board that left since it was told had a reply that came late, or was dead: an entry without a reply of it, before it left."""
    last = run.last()
    for k in range(run.n):
        if last.status(k) == TOLD and not any(entry.kind == LATE_TURN and entry.tested == k for entry in run.entries):
            yield f'board {k} left, and no reply of it was late'


def late_boards(run):
    return {entry.tested for entry in run.entries if entry.kind == LATE_TURN}


def read_frames(folder):
    """The identifier and length of each frame that went over the cable."""
    with open(os.path.join(folder, 'frames.log'), encoding='ascii') as file:
        rows = [line.split() for line in file]
    return [(int(identifier, 16), int(length)) for _, _, identifier, length in rows]


def frames_have_their_length(run):
    """Each frame on the cable is of a kind and length that node.h says."""
    right = frames.lengths(run.n)
    for kind, length in sorted({(identifier >> 24, length) for identifier, length in run.frames}):
        if right.get(kind) != length:
            yield f'a frame of kind {kind} has {length} bytes, and by node.h {right.get(kind)}'


def entries_are_ends(run):
    """A turn is entered with an outcome only if its board sent an end of that turn that says so."""
    sent = {identifier for identifier, _ in run.frames}
    for entry in run.entries:
        if entry.kind != CRASH:
            tested = 0 if entry.tested == NOBODY else entry.tested
            if frames.identifier(frames.KINDS[ENDS[entry.outcome]], entry.station, tested, entry.number) not in sent:
                yield f'entry {entry.number}: board {entry.station} sent no end of that turn with outcome {entry.outcome}'


def nothing_is_late_without_cause(run):
    """Only a board that was killed or stopped before is entered as late or crashed."""
    for entry in run.entries:
        named = entry.tested if entry.kind == LATE_TURN else entry.station if entry.kind == CRASH else None
        was_killed = any(what == 'killed' and int(rest) == named and at <= entry.at for at, what, rest in run.others)
        if named is not None and not was_killed and named not in run.stopped:
            what = 'late' if entry.kind == LATE_TURN else 'crashed'
            yield f'entry {entry.number}: board {named} is {what}, and was neither killed nor stopped'


def only_wrong_boards_are_named(run):
    """The bus master names no board that keeps the rules. One that was dead when it replied is named so."""
    for _, what, rest in run.others:
        if what == 'fault':
            kind, board = [int(field) for field in rest.split()][:2]
            was_dead = any(entry.station == board and entry.status != LIVE for entry in run.entries)
            if board not in run.wrong_boards and not (kind == NOT_LIVE and was_dead):
                yield f'board {board} is named as one that does not keep the rules, with fault {kind}'


def killed_are_known(run):
    """In the end each board that was killed is dead, and all live ones know it. Where nobody is left, the bus master can enter nothing."""
    left = [k for k in run.last().live() if k not in run.killed]
    if left and any(run.last().status(k) == LIVE for k in run.killed):
        yield f'killed were {sorted(run.killed)}, and live in the end are {run.last().live()}'
    if left and not run.last().all_known():
        yield 'not all dead boards are known in the end'


@dataclasses.dataclass
class Known:
    """How many times a bound of the wait was reached, and the most of each that was needed."""

    applied: int = 0
    closings: int = 0
    most_closings: int = 0
    milliseconds: float = 0  # from the last kill on
    most_milliseconds: float = 0
    turns: int = 0  # from the last entry of a crash on
    most_turns: int = 0
    rounds: int = 0
    most_rounds: int = 0


def known_in_time(run, known):
    """The bounds of the wait. From a start of a round with the lamp out, without a crash or a late turn from there on: all know once so many rounds
    are closed, or so many turns taken. And from a crash so many turns."""
    disturbing = [entry.number for entry in run.entries if entry.kind != TURN]
    starts = [0] + [entry.number for entry in run.entries if entry.closed]
    rounds_at = [0]
    for entry in run.entries:
        rounds_at.append(rounds_at[-1] + entry.closed)
    is_known = [run.table(number).all_known() for number in range(len(run.states))]
    lives = [len(run.table(number).live()) for number in range(len(run.states))]

    def check(since, number, end, rounds, turns, what):
        for later in range(number + 1, end):
            if lives[later] < 2:
                return
            closed = rounds_at[later] - rounds_at[number]
            reached = (rounds is not None and closed >= rounds) or later - number >= turns
            if is_known[later] and not is_known[number] and all(is_known[later:end]) and not any(is_known[number:later]):
                known.closings = max(known.closings, closed)
                known.most_closings = max(known.most_closings, rounds or 0)
            if reached:
                known.applied += 1
                if not is_known[later]:
                    yield (f'{what} {number}: not all are known after {closed} rounds closed and {later - number} turns; '
                           f'the wait is {rounds} rounds, {turns} turns')
                return

    for start in starts:
        end = next((number for number in disturbing if number > start), len(run.states))
        if run.states[start].lamp == (NOBODY, NOBODY):
            rounds, turns, _ = run.states[start].wait
            yield from check(start, start, end, rounds, turns, 'from entry')
    for entry in run.entries:
        if entry.kind != CRASH:
            continue
        start = max(number for number in starts if number < entry.number)
        end = next((number for number in disturbing if number > entry.number), len(run.states))
        late = any(it.kind == LATE_TURN and start < it.number < entry.number for it in run.entries)
        if run.states[start].lamp == (NOBODY, NOBODY) and not late:
            yield from check(start, entry.number, end, None, run.states[entry.number].wait[2], 'from the crash at entry')


def known_in_milliseconds(run, known):
    """From the kill of the last board killed until all know: in milliseconds, beside the turns of the wait times T, and the time that entering
    a crash takes."""
    if not run.killed:
        return
    crashes = [entry for entry in run.entries if entry.kind == CRASH]
    if not crashes:
        return
    first = next((entry for entry in run.entries if entry.number >= crashes[-1].number and run.table(entry.number).all_known()), None)
    if first is None:
        return
    took = first.at - max(at for at, what, _ in run.others if what == 'killed')
    crash = 3 * run.reply + 10  # G + P
    most = run.states[crashes[-1].number].wait[2] * run.reply + len(crashes) * crash
    known.milliseconds, known.most_milliseconds = took, most
    wait = run.states[crashes[-1].number].wait
    known.turns, known.most_turns = first.number - crashes[-1].number, wait[2]
    known.rounds, known.most_rounds = run.states[first.number].rounds - run.states[crashes[-1].number].rounds, wait[0] + 1
    if took > most:
        yield f'known {took} ms after the last kill, and {most} ms of the wait'


def silent_are_off(run):
    """The outputs of a board are off in the end where its line is not live."""
    for k, states in run.outputs.items():
        if states and states[-1] == 'on' and k not in run.killed and run.boards[k][-1][1][0] != LIVE:
            yield f'the outputs of board {k} are on, and it is not live'


def outputs_were_on(run):
    """The outputs of each board were on at some time."""
    for k, states in run.outputs.items():
        if 'on' not in states and run.boards[k] and k not in run.killed:
            yield f'the outputs of board {k} were never on'
