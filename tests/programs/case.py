"""One call of a program: what it is given, and what must come of it."""

import contextlib
import dataclasses
import os
import pty
import re
import resource
import signal
import socket
import subprocess
import tempfile
import time

LIMIT = 20  # seconds that one call may take
FOLDER, SOCKET = object(), object()  # what may stand in the place of a file's bytes


@dataclasses.dataclass(frozen=True)
class Link:
    """A symbolic link in the place of a file's bytes."""

    to: str


@dataclasses.dataclass(frozen=True)
class Case:
    """Of `out` and `err` each is the bytes that must be written, or a pattern for them, or None for anything."""

    name: str
    program: str
    arguments: tuple = ()
    input: bytes = b''
    out: object = b''
    err: object = b''
    status: int = 0
    before: dict = dataclasses.field(default_factory=dict)  # the files in a folder of its own, if it needs one
    after: dict = None  # those that must be there afterwards; None for the same
    how: str = ''  # what is unusual about its surroundings: a name of HOW
    simulated: bool = False  # whether the simulator answers it too


def refuse_room():
    """No file may get a byte."""
    signal.signal(signal.SIGXFSZ, signal.SIG_IGN)
    resource.setrlimit(resource.RLIMIT_FSIZE, (0, 0))


def full():
    return open('/dev/full', 'wb')


def without_reader():
    read, write = os.pipe()
    os.close(read)
    return os.fdopen(write, 'wb')


def terminal():
    """A terminal at which somebody types a size and ends the input."""
    master, slave = pty.openpty()
    os.write(master, b'8\n\x04')
    return os.fdopen(slave, 'rb')


HOW = {
    '': dict,
    'full disk': lambda: dict(stdout=full()),
    'reader gone': lambda: dict(stdout=without_reader()),
    'reader gone, SIGPIPE ignored': lambda: dict(stdout=without_reader(), restore_signals=False),
    'no standard error': lambda: dict(stderr=full()),
    'no standard input': lambda: dict(preexec_fn=lambda: os.close(0)),
    'a folder as input': lambda: dict(stdin=os.open('/', os.O_RDONLY)),
    'no room on the disk': lambda: dict(preexec_fn=refuse_room),
    'a terminal': lambda: dict(stdin=terminal()),
    'endless input': lambda: dict(stdin=subprocess.Popen(['yes', '8'], stdout=subprocess.PIPE).stdout),
    'pieces': dict,
}


def write_in_pieces(process, text):
    """Behind the first byte, in the middle and before the last byte the next piece waits."""
    cuts = [0, min(len(text), 1), len(text) // 2, max(len(text) - 1, 0), len(text)]
    cuts.sort()
    try:
        for begin, end in zip(cuts, cuts[1:]):
            process.stdin.write(text[begin:end])
            process.stdin.flush()
            time.sleep(0.002)
    except BrokenPipeError:
        pass  # a program need not read on when it knows what to print


def lay_out(folder, files):
    for name, content in files.items():
        path = os.path.join(folder, name)
        if content is FOLDER:
            os.mkdir(path)
        elif content is SOCKET:
            socket.socket(socket.AF_UNIX).bind(path)
        elif isinstance(content, Link):
            os.symlink(content.to, path)
        else:
            with open(path, 'wb') as file:
                file.write(content)


def look_at(path):
    if os.path.islink(path):
        return Link(os.readlink(path))
    if os.path.isdir(path):
        return FOLDER
    if not os.path.isfile(path):
        return SOCKET
    with open(path, 'rb') as file:
        return file.read()


def call(command, case):
    """What comes of the command with the case's arguments: status, standard output, standard error, files."""
    with tempfile.TemporaryDirectory() if case.before else contextlib.nullcontext('/') as folder:
        lay_out(folder, case.before)
        unusual = HOW[case.how]()
        pipes = dict(stdin=subprocess.PIPE, stdout=subprocess.PIPE, stderr=subprocess.PIPE, cwd=folder) | unusual
        process = subprocess.Popen([*command, *case.arguments], **pipes)
        for stream in unusual.values():
            if hasattr(stream, 'close'):
                stream.close()
        try:
            if case.how == 'pieces':
                write_in_pieces(process, case.input)
            out, err = process.communicate(case.input if process.stdin and case.how != 'pieces' else None, timeout=LIMIT)
        except subprocess.TimeoutExpired:
            process.kill()
            process.communicate()
            return f'no end within {LIMIT} s', b'', b'', {}
        files = {name: look_at(os.path.join(folder, name)) for name in os.listdir(folder)} if case.before else {}
        return process.returncode, out or b'', err or b'', files


def fits(expected, found):
    if expected is None:
        return True
    return expected.fullmatch(found) is not None if isinstance(expected, re.Pattern) else expected == found


def difference(case, by, found):
    """What is not as the case has it; an empty text if there is nothing."""
    expected = case.status, case.out, case.err, case.before if case.after is None else case.after
    names = 'status', 'standard output', 'standard error', 'files'
    wrong = [(name, want, got) for name, want, got in zip(names, expected, found) if not fits(want, got)]
    return ''.join(f'  {name} of {by}: {near(want, got)}\n    must be: {near(got, want)}\n' for name, want, got in wrong)


def near(other, text):
    """A text as it is shown: of a long one what is near the first byte that the other has not."""
    if not isinstance(text, bytes) or not isinstance(other, bytes) or len(text) < 400:
        return shown(text)
    at = next((at for at, (one, two) in enumerate(zip(text, other)) if one != two), min(len(text), len(other)))
    return f'.. {text[max(at - 100, 0):at + 100]!r} .. (from byte {max(at - 100, 0)} of {len(text)})'


def shown(what):
    what = what.pattern if isinstance(what, re.Pattern) else what
    text = repr(what)
    return text if len(text) <= 600 else f'{text[:400]} .. {text[-150:]} ({len(what)} in all)'
