"""The sheet program: odd arguments, and how it is called. What must be written follows from its usage and docs/RULES.md, by hand."""

import re

from case import Case
from words import document, sample, usage, WRITE_FAILS

LONG = 100_000  # longer than any buffer
NO_SIZE = 'a size is needed, from 2 to 64'
NOT_A_SIZE = 'argument 1 is not a size from 2 to 64'
NOT_A_BOARD = 'argument {} is not a board from 0 to {}'
NAMED_AGAIN = 'argument {} repeats a board'
FEW_LIVE = 'at least two boards must be live'
BESIDE_SIZES = '--sizes takes no other argument'
NOT_TEXT = 'an argument is not text in UTF-8'
PAGE = document('docs/COMMISSIONING.md')  # what it shows must be what is printed
EIGHT_BUT_4 = re.sub('^    ', '', re.search(r'^    8 boards, dead: 4\n(    .*\n|\n)+', PAGE, re.M).group().rstrip('\n') + '\n', flags=re.M)
ALL_SIZES = sample('sizes.md').decode()
TWO = (  # by hand: each tests the other, also where that is dead; two rounds, each of a live board's test and its last turn
    '2 boards, dead: none\nOne more dead board is known everywhere after at most 2 rounds, 4 grants\n\n'
    'board  whom it tests, in order  tests a round  most with one more dead\n'
    '    0  1                                    1                        1\n'
    '    1  0                                    1                        1\n\n'
    'board  whom it does not test (who stands ahead)\n    0  -\n    1  -\n')
UNDER_A_BUS_MASTER = {  # by hand: with 2^d boards, 4 at least, (n - 1)(d + 2) - 1 grants
    4: '2 rounds, 11 grants', 8: '2 rounds, 34 grants', 16: '2 rounds, 89 grants', 32: '2 rounds, 216 grants', 64: '2 rounds, 503 grants'}
BOARDS = ' '.join(str(board) for board in range(64))  # all of 64

# The line on standard error, and arguments that get it, with a space between
WRONG = [
    (NOT_A_SIZE, ['0', '1', '00', '01', '000', '001', '65', '065', '66', '99', '100', '128', '255', '256', '258', '264', '320', '514', '999',
                  '0008', '0064', '1000', '00000008', '4294967298', '18446744073709551618', '+8', 'x', 'a', '8x', 'x8', '0x8', '8.0', '8,4',
                  '1e1', '1/', '1:', '/8', ':8', '-', 'sizes', '65 4', '65 99', '1 0', 'x x', '065 64 64', '+8 4']),
    (BESIDE_SIZES, ['--sizes 8', '--sizes --sizes', '--sizes 8 4', '--sizes x', '8 --sizes', '8 4 --sizes', 'x --sizes 4']),
    (NOT_A_BOARD.format(2, 1), ['2 2', '2 02', '02 2', '2 3', '2 2 0']),
    (NOT_A_BOARD.format(3, 1), ['2 0 2', '2 1 x']),
    (NOT_A_BOARD.format(4, 1), ['2 0 1 2']),
    (NOT_A_BOARD.format(2, 2), ['3 3']),
    (NOT_A_BOARD.format(2, 7), ['8 8', '8 08', '8 9', '8 10', '8 63', '8 64', '8 99', '8 004', '8 000', '8 100', '8 256', '8 260', '8 +4',
                                '8 x', '8 4x', '8 0x4', '8 4,', '8 4,5', '8 4.', '8 1/', '8 1:', '8 -', '8 8 8', '8 x 9', '8 9 4 4',
                                '08 08', '008 8', '8 4294967300']),
    (NOT_A_BOARD.format(3, 7), ['8 4 8', '8 0 x', '8 4 004', '8 7 8 7', '8 4 99', '8 4 a', '8 4 a[0]']),
    (NOT_A_BOARD.format(4, 7), ['8 4 5 x', '8 5 4 9 4']),
    (NOT_A_BOARD.format(9, 7), ['8 0 1 2 3 4 5 6 8']),
    (NOT_A_BOARD.format(4, 9), ['10 8 9 10']),
    (NOT_A_BOARD.format(2, 10), ['11 11', '11 15', '11 16']),
    (NOT_A_BOARD.format(2, 62), ['63 63']),
    (NOT_A_BOARD.format(2, 63), ['64 64', '64 99', '64 100', '64 063', '64 256', '064 64', '64' + ' x' * 5000]),
    (NOT_A_BOARD.format(66, 63), [f'64 {BOARDS} 64', f'64 {BOARDS}' + ' 64' * 5000]),
    (NAMED_AGAIN.format(3), ['8 4 4', '8 4 04', '8 04 4', '8 0 00', '8 00 0', '8 7 7 x', '8 4 4 4', '2 0 0', '2 1 01', '64 63 63', '64 9 09',
                             '8 4 04 x']),
    (NAMED_AGAIN.format(4), ['8 4 5 4', '8 5 4 04 9', '2 0 1 0', '2 1 0 00 2', '9 08 2 8']),
    (NAMED_AGAIN.format(9), ['8 0 1 2 3 4 5 6 6', '8 6 5 4 3 2 1 0 06']),
    (NAMED_AGAIN.format(10), ['8 0 1 2 3 4 5 6 7 7']),
    (NAMED_AGAIN.format(66), [f'64 {BOARDS} 0', f'64 {BOARDS} 63 64', f'64 {BOARDS}' + ' 63' * 5000]),
    (FEW_LIVE, ['2 0', '2 1', '2 01', '002 00', '2 0 1', '2 1 0', '3 0 1', '003 0 1', '3 2 0', '3 0 1 2', '8 0 1 2 3 4 5 6', '8 7 6 5 4 3 2 1',
                '8 0 1 2 3 4 5 6 7', f'64 {BOARDS[:-3]}', f'64 {BOARDS}']),
]

# The same of arguments that are no words with a space between
WRONG_BYTES = [
    (NOT_A_SIZE, [[b''], [b' '], [b' 8'], [b'8 '], [b'8 4'], [b'8\n'], [b'\n8'], [b'8\t'], [b'8\r'], [b'\x01'], [b'\xc3\xa9'],
                  ['\u0668'.encode()], ['\uff18'.encode()], [b'', b'8'], [b' ', b'4'], [b' --sizes'], [b'0' * LONG + b'8'], [b'8' * LONG]]),
    (BESIDE_SIZES, [[b'--sizes', b''], [b'--sizes', b'8' * LONG]]),
    (NOT_TEXT, [[b'\xb8'], [b'\xff'], [b'8\x80'], [b'--size\xf3'], [b'--sizes', b'\xff'], [b'8', b'\xb4'], [b'8', b'\xff'], [b'8', b'4\x80'],
                [b'x', b'\xff']]),
    (NOT_A_BOARD.format(2, 7), [[b'8', b''], [b'8', b' '], [b'8', b' 4'], [b'8', b'4 '], [b'8', b'4 5'], [b'8', b'4\n'], [b'8', b'4\t'],
                                [b'8', '\u0664'.encode()], [b'8', b'', b'4'], [b'8', b'0' * LONG + b'8'], [b'8', b'8' * LONG]]),
    (NOT_A_BOARD.format(3, 7), [[b'8', b'4', b''], [b'8', b'4', b'', b'4'], [b'8', b'4', b'5 6']]),
]

# Right arguments, and how standard output begins; the simulator says how it goes on. Those with nobody or one board dead are listed below.
RIGHT = [
    ('2', TWO),
    ('02', TWO),
    ('002', TWO),
    ('03 02', '3 boards, dead: 2\n'),
    ('08', '8 boards, dead: none\n'),
    ('008', '8 boards, dead: none\n'),
    ('8 00', '8 boards, dead: 0\n'),
    ('8 4', EIGHT_BUT_4),
    ('8 04', EIGHT_BUT_4),
    ('008 04', EIGHT_BUT_4),
    ('008 07', '8 boards, dead: 7\n'),
    ('8 5 4', '8 boards, dead: 4 5\n'),
    ('8 4 05', '8 boards, dead: 4 5\n'),
    ('8 0 1 2 3 4 5', '8 boards, dead: 0 1 2 3 4 5\n'),
    ('8 7 6 5 4 3 2', '8 boards, dead: 2 3 4 5 6 7\n'),
    ('11 10 9', '11 boards, dead: 9 10\n'),
    ('064', '64 boards, dead: none\n'),
    ('064 9', '64 boards, dead: 9\n'),
    ('64 10 9', '64 boards, dead: 9 10\n'),
    ('064 08 63', '64 boards, dead: 8 63\n'),
    (f'64 {BOARDS[:-6]}', f'64 boards, dead: {BOARDS[:-6]}\n'),
    ('--sizes', ALL_SIZES),
]

# How it is called: its arguments, the status, standard output, standard error
CLAP = re.compile(rb'error: (?s:.*)Usage: \./sheet SIZE(?s:.*)')  # clap's own words
CALLS = [
    (['--help'], 0, re.compile(rb'(?=Usage: \./sheet SIZE)(.{1,90}\n|\n)+'), b''),
    (['-h'], 0, usage('sheet'), b''),
    (['--help', '8'], 0, usage('sheet'), b''),
    (['8', '4', '--help'], 0, usage('sheet'), b''),
    ([], 2, b'', f'sheet: {NO_SIZE}\n'.encode() + usage('sheet')),
    (['--'], 2, b'', f'sheet: {NO_SIZE}\n'.encode() + usage('sheet')),
    (['--', '8', '4'], 0, EIGHT_BUT_4.encode(), b''),
    *[([*before, word], 2, b'', CLAP) for before in ([], ['8', '4']) for word in ('-8', '--size', '--Sizes', '--sizes ')],
    (['--sizes=8'], 2, b'', CLAP),
]

# The same with unusual surroundings, which come first
UNUSUAL = [
    ('full disk', ['64'], 1, None, WRITE_FAILS),
    ('full disk', ['--help'], 1, None, WRITE_FAILS),
    *[(gone, words, 0, None, b'') for gone in ('reader gone', 'reader gone, SIGPIPE ignored') for words in (['64'], ['--help'])],
    *[('no standard error', words, 2, b'', None) for words in ([], ['65'], ['-8'])],
]


def front(n, *dead):
    """The lines before the empty one: with nobody dead, at some sizes, there is one on the bus master, else none."""
    bus_master = '' if dead or n not in UNDER_A_BUS_MASTER else f'Under a bus master, one board at a time: after at most {UNDER_A_BUS_MASTER[n]}\n'
    return re.compile(f'{n} boards, dead: {dead[0] if dead else "none"}\nOne more dead board is known everywhere after at most .* grants\n'
                      f'{bus_master}\n(?s:.*)'.encode())


def listed():
    """Each size with nobody dead, and with each single board dead."""
    for n in range(2, 65):
        yield [n]
        for dead in range(n if n > 2 else 0):
            yield [n, dead]


def begins(text):
    return re.compile(re.escape(text.encode()) + rb'(?s:.*)')


def cases():
    for line, arguments in WRONG:
        for words in arguments:
            yield Case('arguments', 'sheet', tuple(words.split(' ')), err=f'sheet: {line}\n'.encode(), status=2, simulated=True)
    for line, arguments in WRONG_BYTES:
        for words in arguments:
            yield Case('arguments', 'sheet', tuple(words), err=f'sheet: {line}\n'.encode(), status=2, simulated=True)
    for words, start in RIGHT:
        yield Case('arguments', 'sheet', tuple(words.split(' ')), out=begins(start), simulated=True)
    for numbers in listed():
        yield Case('one or nobody dead', 'sheet', tuple(str(number) for number in numbers), out=front(*numbers), simulated=True)
    for words, status, out, err in CALLS:
        yield Case('call', 'sheet', tuple(words), out=out, err=err, status=status)
    for how, words, status, out, err in UNUSUAL:
        yield Case(how, 'sheet', tuple(words), out=out, err=err, status=status, how=how)
