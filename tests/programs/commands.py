"""The commands of the root: wrong calls, and what those that prove and build first do about it.

The latter are called in a small repository: two libraries and a program, and a stand-in for rt, by which a crate is proved if it has no file
`broken`. Its program is its source, a script.
"""

import os
import re
import shutil
import subprocess
import tempfile

from case import Case, call, difference
from words import ROOT, program, sample

COPIED = ['watch', 'sheet', 'convert', 'Makefile', 'packaging/library.mk', 'include/vcube.h']
RT = '''#!/bin/sh
[ "$1" = version ] && echo 'rt 1' && exit
[ -e broken ] && echo 'fn half: no proof' && exit 1
[ -e src/main.rt ] || exit 0
mkdir -p out && cp src/main.rt out/"${PWD##*/}" && chmod +x out/"${PWD##*/}"
'''
PROGRAM = '''#!/bin/sh
[ "$1" = wrong ] && exit 2
[ "$1" = --help ] || echo "$@" && cat
'''
PROVES_LOW = 'proving low (1 of 3) ..\nlow proved (N s)\n'
PROVES_BETWEEN = 'proving between (2 of 3) ..\nbetween proved (N s)\n'
PROVES_IT = 'proving NAME (3 of 3) ..\nNAME proved (N s)\n'
FAILS = 'proving low (1 of 3) ..\nfn half: no proof\nlow is not proved\n'
NO_RT = 'NAME: rt, the command of the Rattle toolchain, is not found\n'

# One after the other, for each of ./watch, ./sheet and ./convert, which stands for NAME: what is done to the repository before (shell); the
# folder, the command and its arguments; the status, standard output and standard error. The input is `input` and a line feed.
STEPS = [
    ('', '.', './NAME 8 4', 0, '8 4\ninput\n', PROVES_LOW + PROVES_BETWEEN + PROVES_IT),
    ('', '.', './NAME 8 4', 0, '8 4\ninput\n', ''),
    ('', 'crates', '../NAME 8 4', 0, '8 4\ninput\n', ''),
    ('ln -s ../NAME crates/link', '.', 'crates/link', 0, '\ninput\n', ''),
    ('', '.', './NAME wrong', 2, '', ''),
    ('rm target/bin/NAME', '.', './NAME 8', 0, '8\ninput\n', PROVES_IT),
    ('echo >>crates/between/src/lib.rt', '.', './NAME 8', 0, '8\ninput\n', PROVES_BETWEEN + PROVES_IT),
    ('touch crates/low/broken; echo >>crates/low/src/lib.rt', '.', './NAME 8 4', 1, '', FAILS),
    ('', '.', './NAME 8 4', 1, '', FAILS),
    ('rm crates/low/broken', '.', './NAME 8 4 2>/dev/full', 0, '8 4\ninput\n', ''),
    ('', '.', './NAME wrong <&- 2>&-', 2, '', ''),
    ('mv bin/rt rt', '.', './NAME 8 4', 2, '', NO_RT),
]
# And for ./watch: a file, and the folder of the repository, whose names are not UTF-8. The latter's program is the proved one, and nothing is made.
OF_WATCH = [
    (r'mv rt bin/rt; echo 4 >"$(printf "\377")"', '.', r'./NAME "$(printf "\377")"', 0, '\n4\n', ''),
    (r'echo 4 >"$(printf "\364\220\200\200")"', '.', r'./NAME "$(printf "\364\220\200\200")"', 0, '\n4\n', ''),
    (r'echo 4 >"$(printf -- "-\377")"', '.', r'./NAME "$(printf -- "-\377")" | tail -n 1', 0, 'input\n', ''),
    (r'at=$(printf "in\377"); mkdir -p "$at/target/bin"; cp NAME "$at"; ln -s "$PROVED" "$at/target/bin/NAME"; ln -s "$(command -v true)" bin/make',
     '.', r'"$(printf "in\377")/NAME" --help | head -n 1', 0, 'Usage: ./watch [--ring] [FILE]\n', ''),
]

# In this repository, where they have nothing to do: the command, the status, standard output and standard error, or how these begin (..)
CALLS = [
    ('make help', 0, 'make all: ..', ''),
    ('make -s nothing', 2, '', "make: *** No rule to make target 'nothing'.  Stop.\n"),
    ('./test --help', 0, 'Usage: ./test [STEP ..]..', ''),
    ('./test nothing', 2, '', './test: no such step: nothing (./test --list prints them)\n'),
    ('./page --help', 0, 'Usage: ./page ..', ''),
    ('./page nothing', 2, '', 'page: no such argument: nothing (./page --help)\n'),
    ('./page -o', 2, '', 'page: -o needs a file (./page --help)\n'),
    ('samples/slowest --help', 0, 'Usage: samples/slowest SIZE..', ''),
    ('samples/slowest', 2, '', 'Usage: samples/slowest SIZE..'),
    ('samples/slowest -h', 0, 'Usage: samples/slowest SIZE..', ''),
    ('samples/slowest 3 4', 2, '', 'Usage: samples/slowest SIZE..'),
    *[(f'samples/slowest {size}', 2, '', f'slowest: there is no plant of size {size} (samples/slowest --help says what there is)\n')
      for size in ('2', '65', '03', '640', 'x', '*', '--all')],
    ('samples/slowest 3', 0, '3\nC 2\nT 1\nT 1\nT 0\nT 0\nT 0\nT 0\nT 0\nT 0\nT 1\nT 1\n', ''),
]


def cases():
    for command, status, out, err in CALLS:
        yield Case(command, 'commands', tuple(command.split()), b'', expected(out), expected(err), status)
    for name in COPIED[:3]:
        yield Case(name, 'commands')


def expected(text):
    return re.compile(re.escape(text[:-2].encode()) + rb'(?s:.*)') if text.endswith('..') else text.encode()


def check(case):
    """Of a call what is wrong; of a name without arguments what is wrong in the small repository."""
    if case.arguments:
        return difference(case, case.name, call(['env', '-C', ROOT, 'LC_ALL=C'], case))
    with tempfile.TemporaryDirectory() as small:
        lay_out(case.name, small)
        return ''.join(take(case.name, small, step) for step in STEPS + (OF_WATCH if case.name == 'watch' else []))


def lay_out(name, small):
    for command in COPIED:
        os.makedirs(os.path.join(small, os.path.dirname(command)), exist_ok=True)
        shutil.copy(os.path.join(ROOT, command), os.path.join(small, command))
    files = {'bin/rt': RT, f'crates/{name}/src/main.rt': PROGRAM, 'crates/low/src/lib.rt': '\n', 'crates/between/src/lib.rt': '\n',
             'crates.txt': f'low: # used by both others\nbetween: low\n{name}: between low\n'}
    for path, text in files.items():
        path = os.path.join(small, path)
        os.makedirs(os.path.dirname(path), exist_ok=True)
        with open(path, 'w', encoding='ascii') as file:
            file.write(text)
    os.chmod(os.path.join(small, 'bin/rt'), 0o755)


def take(name, small, step):
    """One step; what is wrong."""
    change, folder, command, *rest = [text.replace('NAME', name) if isinstance(text, str) else text for text in step]
    without_rt = [path for path in os.environ['PATH'].split(':') if not os.path.exists(os.path.join(path, 'rt'))]
    env = os.environ | {'LC_ALL': 'C', 'PATH': ':'.join([os.path.join(small, 'bin'), *without_rt])}
    subprocess.run(['sh', '-c', change], cwd=small, env=os.environ | {'PROVED': program(name)}, check=True)
    done = subprocess.run(['sh', '-c', command], cwd=os.path.join(small, folder), env=env, input=b'input\n', capture_output=True, check=False)
    err = re.sub(rb'make: \*\*\* .*\n', b'', re.sub(rb'\(\d+ s\)', b'(N s)', done.stderr))  # without make's own words
    found = done.returncode, done.stdout, err, {}
    return difference(Case('', '', status=rest[0], out=rest[1].encode(), err=rest[2].encode()), f'{change}; {command}', found)
