#!/usr/bin/env python3
"""Programs that people run, on a full disk, on one that does not sync, with a reader that is gone, and with little memory: they end with a status
that is not 0, or with the whole of what they print. Of watch, sheet and convert tests/programs has disk and reader.

Usage: tests/reliability/rooms.py SIMULATOR MADE    where the simulator's programs are; where tests/reliability/run makes the others
"""

import dataclasses
import os
import resource
import sys

sys.dont_write_bytecode = True
ROOT = os.path.dirname(os.path.dirname(os.path.dirname(os.path.abspath(__file__))))
sys.path.insert(0, os.path.join(ROOT, 'tests/programs'))
from case import HOW, Case, Link, call  # noqa: E402
from words import program, sample  # noqa: E402

SIMULATOR, MADE = map(os.path.abspath, sys.argv[1:])
MEMORY = [2 ** k for k in range(20, 29)]  # bytes of addresses
HOW |= {most: lambda most=most: dict(preexec_fn=lambda: resource.setrlimit(resource.RLIMIT_AS, (most, most))) for most in MEMORY}
NO_ROOM, NO_SYNC = b'No space left on device', b'Input/output error'

# What a way in which a program is called must come to: of its status, output, words and files, and of the whole of what it prints.
RIGHT = {
    'fails': lambda status, out, err, files, whole: status != 0,
    'says': lambda status, out, err, files, whole: status != 0 and NO_ROOM in err,
    'ends': lambda status, out, err, files, whole: (status, err) == (0, b''),
    # What cannot even be begun is ended by a signal, and nobody is there to say so.
    'prints all': lambda status, out, err, files, whole: out == whole if status == 0 else err or status < 0,
    'saved': lambda status, out, err, files, whole: status != 0 and NO_SYNC in err and 'master.saved' in files and b' 1 entry;' in out,
    'not saved': lambda status, out, err, files, whole: status != 0 and NO_SYNC in err and 'master.saved' not in files,
}
PROVED = dict.fromkeys(MEMORY, 'prints all')
SIMULATED = {'full disk': 'says', 'reader gone': 'fails'} | PROVED
IN_C = {'full disk': 'fails', 'reader gone': 'fails'} | PROVED
OF_PLANT = {'full disk': 'says', 'reader gone': 'ends'}

RUN, OLD = sample('late-press.txt'), sample('eight-boards-4-out-edition-1.saved')
PLANT = f'{ROOT}/plant 2 --rounds 1 --brief'
SYNCING = f'env VCUBE_PLANT={MADE}/syncing FAILS=%d {PLANT} --keep . --record run'
COMMANDS = [  # its input, its files that have no room, and what each way of calling it must come to
    *[(f'{SIMULATOR}/{words}', RUN, [], SIMULATED) for words in ('simulate', 'simulate --ring', 'simulate_sheet 8 4', 'simulate_saved')],
    (f'{SIMULATOR}/simulate_convert', OLD, [], SIMULATED),
    (f'{ROOT}/samples/slowest 8', b'', [], SIMULATED),
    *[(f'{MADE}/{name}', b'', [], IN_C) for name in ('plant', 'granter', 'panel', 'season', 'boards')],
    *[(words, RUN, [], PROVED) for words in (program('watch'), program('watch') + ' --ring', program('sheet') + ' 64')],
    (program('convert'), OLD, [], PROVED),
    *[(words, b'', [], OF_PLANT) for words in (f'{ROOT}/plant --help', PLANT, f'{MADE}/node/hub', f'{MADE}/node/master udp:1 cube 4')],
    *[(f'{PLANT} --keep . --record run --port port', b'', [full], {'': 'says'})
      for full in ('frames.log', 'board-1.log', 'master.log', 'master.saved.new', 'run', 'port')],
    # At the start; of the record, of the new file, and of the folder once it has the new name.
    *[(SYNCING % fails, b'', ['other'], {'': right}) for fails, right in enumerate(('not saved', 'not saved', 'not saved', 'saved'), 1)],
]


def main():
    wrong, count = [], 0
    for words, text, full, ways in COMMANDS:
        command, *arguments = words.split()
        case = Case(words, command, arguments, text, before={name: Link('/dev/full') for name in full})
        whole = b''
        if MEMORY[0] in ways:
            status, whole, _, _ = call([command], case)
            assert status == 0 and whole, words
        for how, right in ways.items():
            answer = call([command], dataclasses.replace(case, how=how))
            count += 1
            wrong += [] if RIGHT[right](*answer, whole) else [f'{words}, {how or full}: {answer[:3]}']
    print(*wrong, f'rooms: {count} calls without room or with little memory, {len(wrong)} of them wrong', sep='\n')
    return 1 if wrong else 0


if __name__ == '__main__':
    sys.exit(main())
