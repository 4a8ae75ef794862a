"""Calls of ./plant: its arguments, and how it ends."""

import concurrent.futures
import os
import re
import signal
import subprocess
import tempfile
import time

# Arguments, status, how standard output begins or what it matches, standard error or what that matches.
WRONG = [
    ('--help', 0, 'Usage: ./plant SIZE [OPTION ..]\n', ''),
    ('', 2, '', 'plant: how many boards? (./plant --help)\n'),
    ('1', 2, '', 'plant: a number from 2 to 64 is expected, not 1\n'),
    ('65', 2, '', 'plant: a number from 2 to 64 is expected, not 65\n'),
    ('8 8', 2, '', 'plant: no such argument: 8 (./plant --help)\n'),
    ('8 --nothing', 2, '', 'plant: no such argument: --nothing (./plant --help)\n'),
    ('8 --reply', 2, '', 'plant: --reply needs a value (./plant --help)\n'),
    ('8 --reply 5', 2, '', 'plant: a time is a number and ms or s, as 5ms, not 5\n'),
    ('8 --reply 0ms', 2, '', 'plant: a reply is waited for 1 ms or more\n'),
    ('8 --kill 8@2s', 2, '', 'plant: there is no board 8: boards are numbered from 0 to 7\n'),
    ('8 --kill 2s', 2, '', 'plant: --kill is given as 4@2s, not as 2s\n'),
    ('8 --kill 1@2s+3s', 2, '', 'plant: --kill is given as 4@2s, not as 1@2s+3s\n'),
    ('8 --kill 1@2@3s', 2, '', 'plant: --kill is given as 4@2s, not as 1@2@3s\n'),
    ('8 --stop 1@2s', 2, '', 'plant: --stop is given as 5@3s+90ms, not as 1@2s\n'),
    ('8 --out 1s', 2, '', 'plant: --out is given as 3s+1s, not as 1s\n'),
    ('8 --loss 101%', 2, '', 'plant: a share is a number up to 100 and %, as 5%, not 101%\n'),
    ('8 --loss 5', 2, '', 'plant: a share is a number up to 100 and %, as 5%, not 5\n'),
    ('8 --rounds 0', 2, '', 'plant: a number from 1 to 1000000000 is expected, not 0\n'),
    ('8 --hold 4', 2, '', 'plant: --hold is given as 4:90ms, not as 4\n'),
    ('4 --hold 70:90ms', 2, '', 'plant: there is no board 70: boards are numbered from 0 to 3\n'),
    ('4 --kill 1@1s --kill 1@2s', 2, '', 'plant: board 1 is killed before: nothing can be done to it after that\n'),
    ('8 --can vcan0 --loss 5%', 2, '', 'plant: no frame can be lost, twice or late by an option on a CAN interface\n'),
    ('2 --rounds 1 --reply 600ms >/dev/full', 1, '', 'plant: [Errno 28] No space left on device\n'),
    ('4 --reply 600ms | grep -m 1 tests >&2', 0, '', re.compile(r' +\d\.\d{3} s  board 0 tests 1: exchanged\n')),
    ('4 --reply 600ms --rounds 2 --brief', 0, re.compile(r'(?s).*\b\d+ rounds closed, \d+ entries; live: 0, 1, 2 and 3\n'), ''),
    ('2 --reply 600ms --rounds 1 --brief --pace 400ms', 0, re.compile(r'(?s).*\b1 round closed, 4 entries; live: 0 and 1\n'), ''),
    # A folder that was kept before: the bus master begins anew.
    ('4 --reply 600ms --rounds 9 --brief --keep $TMPDIR/kept >/dev/null && ./plant 4 --reply 600ms --rounds 1 --restart 0.001s --brief '
     '--keep $TMPDIR/kept && grep -m 1 -o " entry [0-9]*" $TMPDIR/kept/master.log && rm -r $TMPDIR/kept', 0,
     re.compile(r'(?s).*\brounds? closed, \d+ entries; live: 0, 1, 2 and 3\n entry 1\n'), ''),
    ('2 --reply 600ms --board 1=false', 1, '', 'plant: board 1 does not start\n'),
    ('2 --reply 600ms --record /nothing/there', 1, '',
     'master: /nothing/there: No such file or directory\nplant: the master ended by itself, with status 1\n'),
]


ENDS = ('Ctrl-C', 'the terminal ends', 'SIGHUP', 'SIGTERM', 'a board ends', 'a board is stopped by others')


def wrong_call(plant, row, members, folder):
    arguments, status, out, err = row
    process = subprocess.Popen(['bash', '-c', f'set -o pipefail; cd {os.path.dirname(plant)}; ./plant {arguments}'],
                               env={**os.environ, 'TMPDIR': folder}, stdin=subprocess.DEVNULL, stdout=subprocess.PIPE,
                               stderr=subprocess.PIPE, start_new_session=True)
    said = [piece.decode() for piece in process.communicate(timeout=60)]
    is_right = out.fullmatch(said[0]) if isinstance(out, re.Pattern) else said[0].startswith(out) and (out or not said[0])
    if process.returncode != status or not is_right:
        yield f'./plant {arguments}: status {process.returncode}, not {status}; it writes {said[0]!r}'
    if not (err.fullmatch(said[1]) if isinstance(err, re.Pattern) else err == said[1]):
        yield f'./plant {arguments}: it says {said[1]!r}'
    yield from none_left(arguments, process.pid, members)


def none_left(what, session, members):
    until = time.monotonic() + 5
    while members(session) and time.monotonic() < until:
        time.sleep(0.05)
    if members(session):
        yield f'./plant {what}: processes are left'


def ended(plant, how, members, folder):
    """A plant that runs without an end: by Ctrl-C and by the end of the terminal, which go to all processes; by a kill; by the death of a board. One
    of whose boards the computer does not let run says so first."""
    # A board that is stopped for 1.2 s tells it, as frames come every half second at least, and makes no reply late.
    reply = '2s' if how == 'a board is stopped by others' else '600ms'
    process = subprocess.Popen([plant, '4', '--reply', reply], env={**os.environ, 'TMPDIR': folder}, stdin=subprocess.DEVNULL,
                               stdout=subprocess.PIPE, stderr=subprocess.PIPE, start_new_session=True)
    process.stdout.readline()
    if how == 'Ctrl-C':
        os.killpg(process.pid, signal.SIGINT)
    elif how == 'the terminal ends':
        os.killpg(process.pid, signal.SIGHUP)
    elif how == 'SIGHUP':
        process.send_signal(signal.SIGHUP)
    elif how == 'SIGTERM':
        process.terminate()
    elif how == 'SIGKILL':
        process.kill()
    else:
        board = next(pid for pid in members(process.pid) if command_of(pid)[-6:-4] == ['4', '2'])
        os.kill(board, signal.SIGKILL if how == 'a board ends' else signal.SIGSTOP)
    if how == 'a board is stopped by others':
        time.sleep(1.2)
        os.kill(board, signal.SIGCONT)
        time.sleep(0.5)
        process.terminate()
    try:
        out, err = (piece.decode() for piece in process.communicate(timeout=60))
    except subprocess.TimeoutExpired:
        process.kill()
        process.communicate()
        yield f'{how}: it does not end'
        return
    status = {'SIGKILL': -signal.SIGKILL, 'a board ends': 1}.get(how, 0)
    if process.returncode != status:
        yield f'{how}: status {process.returncode}, not {status}: {err}'
    if status == 0 and not re.search(r'rounds? closed, \d+ entr(y|ies); live: 0, 1, 2 and 3\n$', out):
        yield f'{how}: it ends with {out[-100:]!r}'
    if how == 'a board is stopped by others' and not re.search(r' could not run for \d+ ms\. .* take a longer --reply\n', out):
        yield f'{how}: it does not say so: {out[-400:]!r}'
    if how == 'a board ends' and err != 'plant: board 2 ended by itself, with status -9\n':
        yield f'{how}: it says {err!r}'
    yield from none_left(how, process.pid, members)


def command_of(pid):
    with open(f'/proc/{pid}/cmdline', 'rb') as file:
        return [word.decode() for word in file.read().split(b'\0')[:-1]]


def entries_saved(file):
    """How many, by the head of what the bus master saved."""
    if not os.path.exists(file):
        return 0
    with open(file, 'rb') as saved:
        return int.from_bytes(saved.read(8)[4:], 'big')


def read_late(made, folder):
    """A bus master whose output nobody reads for a while waits, and writes whole lines, also if it is told to end meanwhile: just the entries that it
    saved are printed."""
    saved, processes = os.path.join(folder, 'read-late'), []

    def begin(name, *words):
        processes.append(subprocess.Popen([os.path.join(made, name), *words], stdin=subprocess.DEVNULL, stdout=subprocess.PIPE))
        return processes[-1]

    try:
        cable = f'udp:{begin("hub").stdout.readline().decode().strip()}'
        for k in range(8):
            begin('board', cable, 'cube', '8', str(k), '--reply', '600').stdout.readline()
        master = begin('master', cable, 'cube', '8', '--reply', '600', '--save', saved)
        before, until = -1, time.monotonic() + 30
        while (before == 0 or before != entries_saved(saved)) and time.monotonic() < until:
            before = entries_saved(saved)
            time.sleep(0.5)
        master.terminate()
        time.sleep(0.2)
        lines = master.communicate(timeout=30)[0].decode().split('\n')
        entries = [line.split(' ') for line in lines if ' entry ' in line]
        if [fields[2] for fields in entries] != [str(number + 1) for number in range(entries_saved(saved))]:
            yield f'of {entries_saved(saved)} entries the bus master prints {len(entries)}'
        for fields in entries:
            if len(fields) != 15 or len(fields[-1]) != 2 * 8 * (8 + 6):
                yield f'the bus master prints a line that is not whole: {" ".join(fields)}'
        os.remove(saved)
    finally:
        for process in processes:
            process.kill()
            process.communicate()


def check(plant, members):
    """How many calls there are, and what is wrong."""
    wrong = []
    with tempfile.TemporaryDirectory() as folder, concurrent.futures.ThreadPoolExecutor(3) as pool:
        for its in [*pool.map(lambda row: list(wrong_call(plant, row, members, folder)), WRONG),
                    *pool.map(lambda how: list(ended(plant, how, members, folder)), ENDS)]:
            wrong += its
        wrong += read_late(os.environ['VCUBE_PLANT'], folder)
        if os.listdir(folder):
            wrong.append(f'files are left: {os.listdir(folder)}')
        wrong += ended(plant, 'SIGKILL', members, folder)
    return len(WRONG) + len(ENDS) + 2, wrong
