"""Logs that are made up: of a sound plant, on which no check may speak, and with one thing wrong, on which its check must."""

import copy
import dataclasses
import inspect

import frames
import logs

ENTRIES = 45
KILLED, LATE = 2, 1  # boards


def sound(simulator, late):
    """Four boards on the cube, of which one is killed, or in place of that one is late once and then left."""
    n, wiring = 4, 'cube'
    words = []
    states = logs.simulated(simulator, wiring, f'{n}\n')
    while len(words) < ENTRIES:
        granted = states[-1].granted
        words.append(f'C {granted}\n' if not late and granted == KILLED else f'T {granted}\n')
        states = logs.simulated(simulator, wiring, f'{n}\n' + ''.join(words))
        if late and states[-1].sheet[1] == LATE and not any(word[0] == 'L' for word in words):
            words[-1] = f'L {granted}\n'
            states = logs.simulated(simulator, wiring, f'{n}\n' + ''.join(words))
    letters = {letter: kind for kind, letter in logs.LETTERS.items()}
    entries = [logs.Entry(10 * number, number, letters[word[0]], *state.sheet[:3], state.rounds - before.rounds, state.sheet[3], state.lamp,
                          state.wait, state.table)
               for number, (word, before, state) in enumerate(zip(words, states, states[1:]), 1)]
    length = n + logs.HEAD
    boards = {k: [(number, state.table[k * length:(k + 1) * length]) for number, state in enumerate(states)] for k in range(n)}
    outputs = {k: ['on'] if states[-1].table[k * length] == logs.LIVE else ['on', 'off'] for k in range(n)}
    killed = set() if late else {KILLED}
    return logs.Run(n, wiring, 50, killed, {LATE} if late else set(), entries, [] if late else [(5, 'killed', str(KILLED))], boards, outputs, states,
                    logs.recording(n, entries), [*((kind << 24, length) for kind, length in frames.lengths(n).items()), *ends(n, entries)])


def ends(n, entries):
    """The frames by which the turns ended."""
    for it in entries:
        if it.kind != logs.CRASH:
            kind = logs.ENDS[it.outcome]
            tested = 0 if it.tested == logs.NOBODY else it.tested
            yield frames.identifier(frames.KINDS[kind], it.station, tested, it.number), frames.length(kind, n)


def never_known(run, known_again):
    """The table of the simulator, made such that the killed board is never known."""
    for state in run.states:
        table = bytearray(state.table)
        for i in range(run.n):
            if i != KILLED:
                table[i * (run.n + logs.HEAD) + logs.HEAD + KILLED] = known_again
        state.table = bytes(table)


def to(field, change):
    def spoil(run):
        setattr(run, field, change(getattr(run, field)))
    return spoil


def entry(number, **fields):
    def spoil(run):
        run.entries[number - 1] = dataclasses.replace(run.entries[number - 1], **fields)
    return spoil


def record(k, number, line=None):
    """Changes the record after that entry; without a line it is gone."""
    def spoil(run):
        run.boards[k] = [(e, line(it) if line and e == number else it) for e, it in run.boards[k] if line or e != number]
    return spoil


def first_closing(run):
    return next(entry.number for entry in run.entries if entry.closed)


def fault(kind, board):
    return to('others', lambda others: [*others, (1, 'fault', f'{kind} {board} 1 2 1 1')])


# What is wrong, in which of the two plants, and the check that must speak.
WRONG = [
    ('a byte of the table', False, lambda run: entry(7, table=bytes([run.entries[6].table[0] ^ 1]) + run.entries[6].table[1:])(run),
     'master_is_simulated'),
    ('the outcome', False, entry(7, outcome=9), 'master_is_simulated'),
    ('the closing', False, entry(7, closed=1), 'master_is_simulated'),
    ('the lamp', False, entry(7, lamp=(1, 2)), 'master_is_simulated'),
    ('the wait', False, entry(7, wait=(1, 1, 1)), 'master_is_simulated'),
    ('an entry is left out', False, to('entries', lambda entries: entries[:4] + entries[5:]), 'entries_are_numbered'),
    ('a byte of a line', False, record(3, 9, lambda line: bytes([line[0], line[1] ^ 1]) + line[2:]), 'boards_hold_lines'),
    ('an entry that was not made', False, lambda run: run.boards[0].append((ENTRIES + 1, b'')), 'boards_hold_lines'),
    ('an older entry', False, lambda run: run.boards[0].append(run.boards[0][3]), 'boards_hold_lines'),
    ('a closing that is not heard', False, lambda run: record(0, first_closing(run))(run), 'boards_hear_closings'),
    ('the end that is not heard', False, record(0, ENTRIES), 'boards_hear_the_end'),
    ('a line of the recording', False, to('recorded', lambda text: text.replace('T 1', 'T 0', 1)), 'recording_is_run'),
    ('an outcome beside the run program\'s', False, entry(3, outcome=9), 'recording_is_run'),
    ('a late reply that is none', True, lambda run: [entry(it.number, kind=logs.TURN)(run) for it in run.entries if it.kind == logs.LATE_TURN],
     'only_late_boards_leave'),
    ('the kind of a frame', False, to('frames', lambda some: [*some, (max(frames.KINDS.values()) + 1 << 24, 0)]), 'frames_have_their_length'),
    ('the length of a frame', False, to('frames', lambda some: [*some, (frames.KINDS['TEST'] << 24, 1)]), 'frames_have_their_length'),
    ('an end that was not sent', False, to('frames', lambda some: some[:-1]), 'entries_are_ends'),
    ('a late turn entered as in time', True, lambda run: [entry(it.number, kind=logs.TURN, outcome=1)(run) for it in run.entries
                                                          if it.kind == logs.LATE_TURN], 'entries_are_ends'),
    ('a late board that was not stopped', True, to('stopped', lambda _: set()), 'nothing_is_late_without_cause'),
    ('a crash before the kill', False, to('others', lambda _: [(10 ** 6, 'killed', str(KILLED))]), 'nothing_is_late_without_cause'),
    ('a crash without a kill', False, to('others', lambda _: []), 'nothing_is_late_without_cause'),
    ('a sound board that is named', False, fault(1, 0), 'only_wrong_boards_are_named'),
    ('a live board that is named as dead', False, fault(logs.NOT_LIVE, 0), 'only_wrong_boards_are_named'),
    ('a killed board that is live', True, to('killed', lambda _: {0}), 'killed_are_known'),
    ('a killed board that is not known', False, lambda run: never_known(run, 0), 'killed_are_known'),
    ('a dead board that is not known in time', False, lambda run: never_known(run, 0), 'known_in_time'),
    ('a dead board that is known late', False,
     lambda run: [entry(it.number, at=it.at + 10 ** 6)(run) for it in run.entries[1:]], 'known_in_milliseconds'),
    ('outputs of a dead board', True, to('outputs', lambda outputs: {**outputs, LATE: ['on']}), 'silent_are_off'),
    ('outputs that were never on', False, to('outputs', lambda outputs: {**outputs, 0: []}), 'outputs_were_on'),
]
MORE = {'known_in_time': lambda *_: [logs.Known()], 'known_in_milliseconds': lambda *_: [logs.Known()], 'recording_is_run': lambda watch: [watch]}


def says(name, run, watch):
    return list(getattr(logs, name)(run, *MORE.get(name, lambda _: [])(watch)))


def speechless(simulator, watch):
    """Checks that do not speak on what is wrong, or speak on sound logs."""
    plants = {late: sound(simulator, late) for late in (False, True)}
    names = [name for name, it in inspect.getmembers(logs, inspect.isgeneratorfunction)]
    for name in names:
        if not any(name == check for *_, check in WRONG):
            yield f'no made-up log is wrong for {name}'
        for run in plants.values():
            for line in says(name, run, watch):
                yield f'{name} speaks on sound logs: {line}'
    for what, late, spoil, name in WRONG:
        run = copy.deepcopy(plants[late])
        spoil(run)
        if not says(name, run, watch):
            yield f'{name} does not notice: {what}'
