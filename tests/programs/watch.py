"""The run program: odd inputs, and how it is called. What must be written follows from docs/RULES.md, by hand."""

import re

from case import FOLDER, SOCKET, Case
from words import sample, usage, refusal, WRITE_FAILS, read_fails

# What is expected where a line is wrong
SIZE = 'the size (one to three digits)'
ENTRY = 'an entry (T, L or C, a space, one or two digits)'
KIND = 'T, L or C'
SPACE = 'a space'
DIGIT = 'a digit'
END = 'the end of the line'
NO_MORE = 'the end of the input (4,096 entries at most)'
# What is found there
NOTHING = 'an empty input'
EMPTY = 'an empty line'
MARK = 'a byte order mark'
TAB = 'a tab'
RETURN = 'a carriage return'
LOWER = 'a lower case letter'
MANY = 'a digit too many'
ONE_MORE = 'a 4,097th entry'

LONG = 100_000  # longer than any buffer
MOST_SHOWN = 40  # bytes of a line
ESCAPES = {9: r'\t', 13: r'\r', 34: r'\"', 39: r"\'", 92: r'\\'}
ROUND = b'T 0\nT 0\nT 1\nT 1\n'  # a round of two boards
LONG_ROUND = b'T 00\nT 00\nT 01\nT 01\n'
ROUND_LINES = '0 1 1 0/0 - 0 0/1 0 1 0/1 - 0 0/'
MOST, LONGEST = ROUND * 1024, LONG_ROUND * 1024

# What is found, what is expected there, and inputs whose last line cannot be read so; with an input the number of that line, where it is another.
UNREAD = [
    (NOTHING, SIZE, [b'']),
    (EMPTY, SIZE, [b'\n', (b'\n\n', 1), (b'\nT 0\n', 1), (b'\n8\nT 0\n', 1)]),
    (MANY, END, [b'0008\n', b'0008', b'8\nT 001\n', b'8\nT 100\n', b'64\nT 100\n', b'64\nT 256\n', b'2\nT 0\nT 0\nT 0\nT 001',
        (b'0' * LONG + b'8\nT 0\n', 1), b'0' * LONG, (b'8\nT ' + b'0' * LONG + b'\nT 0\n', 2), b'8\nT ' + b'0' * LONG,
        b'8\n' + b'T 0\n' * 3000 + b'T ' + b'0' * LONG + b'\n']),
    ('the character +', SIZE, [b'+8\n']),
    ('the character -', SIZE, [b'-8\n']),
    (SPACE, SIZE, [b' 8\n']),
    (TAB, SIZE, [b'\t8\n']),
    (SPACE, END, [b'8 \n', b'8 T\n', b'8\nT 1 \n', b'8\nT 10 \n', b'8\nT 1 ', b'8\nT 1 2\n', b'8\nT 0 and then board one takes its turn too\n',
        b'8\nT 0 and then board one takes its turn to\n', b'8\nT 0' + b' ' * LONG + b'\n']),
    (TAB, END, [b'8\t\n', b'8\nT 1\t\n', b'8\nT 0\t\n']),
    (RETURN, END, [b'8\r\n', (b'8\r\nT 0\r\n', 1), b'8\r', b'8\nT 1\r\n', b'8\nT 0\r\n', b'8\nT 1\r', b'8\nT 1\rT 2\n']),
    ('the byte 00 (hexadecimal)', END, [b'8\0\n', b'8\nT 1\0\n', b'8' + b'\0' * LONG]),
    ('the byte 00 (hexadecimal)', SIZE, [b'\0', b'\x008\n']),
    ('the byte b8 (hexadecimal)', SIZE, [b'\xb8\n']),
    (MARK, SIZE, [b'\xef\xbb\xbf8\n', (b'\xff\xfe8\0\n\0', 1), b'\xfe\xff\x008']),
    ('the byte ef (hexadecimal)', SIZE, [b'\xef\xbb8\n']),
    ('the character /', END, [b'1/\n', b'8\nT 1/\n']),
    ('the character :', END, [b'1:\n', b'8\nT 1:\n']),
    ('the character T', SIZE, [b'T\n', b'T 0\n']),
    (LOWER, SIZE, [b'eight\n']),
    (EMPTY, ENTRY, [b'8\n\n', b'8\nT 0\n\n', (b'8\nT 0\n\nT 1\n', 3), (b'8\n\nT 1\n', 2), b'999\n\n', (b'8' + b'\n' * LONG, 2),
        b'064\n' + b'T 00\n' * 4096 + b'\n', b'2\n' + MOST + b'\n']),
    (DIGIT, KIND, [b'8\n8\n', b'8\n5\n', b'8\n1 1\n', b'8\n' + b'T 0\n' * 3000 + b'0' * LONG]),
    (RETURN, KIND, [(b'8\n\r\nT 1\n', 2), b'8\n\r\n']),
    (TAB, SPACE, [b'8\nT\t1\n', b'8\nT\t0\n']),
    (SPACE, DIGIT, [b'8\nT  1\n', b'8\nC  1\n', b'2\nC 0\nT 0\nT  1\n']),
    (DIGIT, SPACE, [b'8\nT1\n', b'8\nL1\n']),
    (SPACE, KIND, [b'8\n T 1\n', b'8\n \n']),
    (END, SPACE, [b'8\nT\n', b'8\nT']),
    (END, DIGIT, [b'8\nT \n', b'8\nT ']),
    (LOWER, KIND, [b'8\nt 1\n', b'8\nl 1\n', b'8\nc 1\n', b'8\nT 0\nt 1', (b'8\nT 1\nx\nT 2\ny\n', 3), b'0\nT 0\nt 0\n',
        b'2\n' + MOST[:-4] + b't 1\n', (b'2\n' + MOST[:-4] + b't 1\nT 0\n', 4097), b'2\n' + MOST + b't 0\n']),
    ('the character S', KIND, [b'8\nS 1\n']),
    ('the character X', KIND, [b'8\nX 1\n', b'2\nT 5\nX\n']),
    ('the character #', KIND, [b'8\n# two turns\n']),
    ('the character T', SPACE, [b'8\nTT 1\n']),
    (LOWER, SPACE, [b'8\nTurn 1', b'8\nTx0\n']),
    ('the character \\', SPACE, [b'8\nT\\t1\n']),
    ('the character +', DIGIT, [b'8\nT +1\n']),
    ('the character -', DIGIT, [b'8\nT -1\n']),
    (LOWER, DIGIT, [b'8\nT x\n', (b'8\nT 1\nT x\nT 2\n', 3), b'1\nT x\n']),
    (LOWER, END, [b'8\nT 1x\n', b'8\nT 1a\n']),
    ('the character ,', END, [b'8\nT 1,\n']),
    ("the character '", DIGIT, [b'8\nT \'"1\n']),
    ('the byte 0c (hexadecimal)', END, [b'8\nT 1\x0c\n']),
    ('the character `', KIND, [b'8\n`~\n']),
    ('the character ~', KIND, [b'8\n~1\n']),
    ('the character {', KIND, [b'8\n{1\n']),
    ('the byte 7f (hexadecimal)', END, [b'8\nT 1\x7f\n']),
    ('the byte d4 (hexadecimal)', KIND, [b'8\n\xd4 1\n']),
    ('the byte a0 (hexadecimal)', SPACE, [b'8\nT\xa01\n']),
    ('the byte b1 (hexadecimal)', DIGIT, [b'8\nT \xb1\n']),
    ('the byte 8a (hexadecimal)', END, [b'8\nT 1\x8aT 2\n']),
    ('the byte ff (hexadecimal)', KIND, [b'8\n\xff\n']),
    (MARK, KIND, [b'8\n\xff\xfe\n']),
    ('the byte ff (hexadecimal)', END, [b'8\nT 1\xff']),
    ('the byte 00 (hexadecimal)', SPACE, [b'8\nT\x001\n']),
    ('the byte 00 (hexadecimal)', DIGIT, [b'8\nT \0\n']),
    ('the byte 00 (hexadecimal)', KIND, [b'8\n\0\n', b'8\nT 1\n\0', b'8\n' + b'\0' * LONG, b'002\n' + LONGEST + b'\0']),
    ('the byte 1b (hexadecimal)', KIND, [b'8\n\x1b[2J\x7f\xc3\xa9\n']),
    (ONE_MORE, NO_MORE, [b'2\n' + MOST + b'T 0\n', b'2\n' + MOST + b'T 0', b'1\n' + MOST + b'T 0\n', b'002\n' + LONGEST + b'T 00\n',
        b'064\n' + b'T 00\n' * 4096 + b'T 0', (b'2\n' + MOST + b'T 0\nT 0\n', 4098), (b'2\n' + MOST + b'T 0\nx\n', 4098),
        (b'2\n' + b'T 0\n' * LONG, 4098), ((b'064\n' + b'T 00\n' * 2_000_000)[:10_000_000], 4098)]),
]

# input; the lines of the run sheet, each with / behind it; the last line; if that says a refusal, the line of the input that is shown
READ = [
    (b'8', '', 'rounds 0 tests 0 refused 0 at 0', ''),
    (b'08\n', '', 'rounds 0 tests 0 refused 0 at 0', ''),
    (b'008\n', '', 'rounds 0 tests 0 refused 0 at 0', ''),
    (b'008', '', 'rounds 0 tests 0 refused 0 at 0', ''),
    (b'000\n', '', 'rounds 0 tests 0 refused 1 at 0', 'line 1: 000'),
    (b'001', '', 'rounds 0 tests 0 refused 1 at 0', 'line 1: 001'),
    (b'999', '', 'rounds 0 tests 0 refused 1 at 0', 'line 1: 999'),
    (b'1\nT 0\nT 99\n', '', 'rounds 0 tests 0 refused 1 at 0', 'line 1: 1'),
    (b'65\nT 64\nT 0\n', '', 'rounds 0 tests 0 refused 1 at 0', 'line 1: 65'),
    (b'65\nT 0\n', '', 'rounds 0 tests 0 refused 1 at 0', 'line 1: 65'),
    (b'258\nT 0\nT 1\n', '', 'rounds 0 tests 0 refused 1 at 0', 'line 1: 258'),
    (b'64\nT 64\n', '', 'rounds 0 tests 0 refused 9 at 0', 'line 2: T 64'),
    (b'64\nT 99\n', '', 'rounds 0 tests 0 refused 9 at 0', 'line 2: T 99'),
    (b'2\nL 64\n', '', 'rounds 0 tests 0 refused 9 at 0', 'line 2: L 64'),
    (b'2\nC 99\n', '', 'rounds 0 tests 0 refused 9 at 0', 'line 2: C 99'),
    (b'8\nT 8\nT 0\n', '', 'rounds 0 tests 0 refused 9 at 0', 'line 2: T 8'),
    (b'8\nT 08\n', '', 'rounds 0 tests 0 refused 9 at 0', 'line 2: T 08'),
    (b'3\nT 3\nT 0\n', '', 'rounds 0 tests 0 refused 9 at 0', 'line 2: T 3'),
    (b'11\nC 10\nC 11\n', '10 - 4 1/', 'rounds 0 tests 0 refused 9 at 1', 'line 3: C 11'),
    (b'011\nT 10\nC 11\n', '10 8 1 0/', 'rounds 0 tests 1 refused 9 at 1', 'line 3: C 11'),
    (b'11\nL 15\n', '', 'rounds 0 tests 0 refused 9 at 0', 'line 2: L 15'),
    (b'63\nT 62\nT 63\n', '62 60 1 0/', 'rounds 0 tests 1 refused 9 at 1', 'line 3: T 63'),
    (b'8\nT 05\n', '5 4 1 0/', 'rounds 0 tests 1 refused 0 at 1', ''),
    (b'064\nT 63', '63 62 1 0/', 'rounds 0 tests 1 refused 0 at 1', ''),
    (b'8\nC 04\nL 04', '4 - 4 1/', 'rounds 0 tests 0 refused 10 at 1', 'line 3: L 04'),
    (b'2\nC 0\nC 0\nT 99\n', '0 - 4 1/', 'rounds 0 tests 0 refused 10 at 1', 'line 3: C 0'),
    # a plant of two
    (b'2\nT 0\nT 0\nT 1\nT 1\nC 1\nT 0\nT 0\n', f'{ROUND_LINES}1 - 4 1/0 1 3 3/', 'rounds 1 tests 3 refused 10 at 6', 'line 8: T 0'),
    (b'2\nT 0\nT 0\nT 1\nT 1\nC 1\nT 0\nT 0', f'{ROUND_LINES}1 - 4 1/0 1 3 3/', 'rounds 1 tests 3 refused 10 at 6', 'line 8: T 0'),
    (b'2\nT 0\nT 0\nT 1\nT 1\nC 1\nT 0\nT 1\n', f'{ROUND_LINES}1 - 4 1/0 1 3 3/', 'rounds 1 tests 3 refused 10 at 6', 'line 8: T 1'),
    (b'2\nL 0\n', '0 1 3 3/', 'rounds 0 tests 1 refused 0 at 1', ''),
    (b'2\nL 0\nT 1\nT 1\n', '0 1 3 3/1 0 3 3/', 'rounds 0 tests 2 refused 10 at 2', 'line 4: T 1'),
    (b'2\nT 0\nT 0\nT 0\nT 1\n', '0 1 1 0/0 - 0 0/', 'rounds 0 tests 1 refused 11 at 2', 'line 4: T 0'),
    (b'2\nT 0\nT 0\nL 0\n', '0 1 1 0/0 - 0 0/', 'rounds 0 tests 1 refused 11 at 2', 'line 4: L 0'),
    (b'2\nT 1\nT 1\nL 1\nT 0\n', '1 0 1 0/1 - 0 0/', 'rounds 0 tests 1 refused 11 at 2', 'line 4: L 1'),
    (b'2\nT 0\nT 0\nC 1\n', '0 1 1 0/0 - 0 0/1 - 4 1/', 'rounds 1 tests 1 refused 0 at 3', ''),
    (b'2\nT 0\nT 0\nC 0\n', '0 1 1 0/0 - 0 0/0 - 4 1/', 'rounds 0 tests 1 refused 0 at 3', ''),
    # the worked run of RULES; rounds of four and of three
    (b'4\nL 0\nT 0\nT 0\nT 1\n', '0 1 3 0/0 2 1 0/0 3 1 0/1 0 2 2/', 'rounds 0 tests 4 refused 0 at 4', ''),
    (b'4\nT 0\nT 0\nT 0\nT 1\nT 1\nT 1\nT 2\nT 2\nT 2\nT 3\nT 3\nT 3\n',
     '0 1 1 0/0 2 1 0/0 - 0 0/1 0 1 0/1 3 1 0/1 - 0 0/2 3 1 0/2 0 1 0/2 - 0 0/3 2 1 0/3 1 1 0/3 - 0 0/', 'rounds 1 tests 8 refused 0 at 12', ''),
    (b'3\nT 0\nT 0\nT 0\nT 1\nT 1\nT 2\nT 2\nT 2\n',
     '0 1 1 0/0 2 1 0/0 - 0 0/1 0 1 0/1 - 0 0/2 0 1 0/2 1 1 0/2 - 0 0/', 'rounds 1 tests 5 refused 0 at 8', ''),
    (b'3\nL 0\nL 0\nL 0\n', '0 1 3 0/0 2 3 3/', 'rounds 0 tests 2 refused 10 at 2', 'line 4: L 0'),
    # a suspected board is told by the next test of it; each suspects the other; a round closes without one that was told
    (b'4\nT 1\nT 1\nT 1\nT 2\nT 2\nT 2\nT 3\nT 3\nT 3\nL 0\nT 0\nT 0\nT 0\nT 0\nT 1\n',
     '1 0 1 0/1 3 1 0/1 - 0 0/2 3 1 0/2 0 1 0/2 - 0 0/3 2 1 0/3 1 1 0/3 - 0 0/0 1 3 0/0 2 1 0/0 3 1 0/0 - 0 0/0 1 5 0/',
     'rounds 1 tests 10 refused 10 at 14', 'line 16: T 1'),
    (b'4\nT 1\nT 1\nT 1\nT 2\nT 2\nT 2\nT 3\nT 3\nT 3\nL 0\nT 0\nT 0\nT 0\nL 1\nT 0\nT 0\n',
     '1 0 1 0/1 3 1 0/1 - 0 0/2 3 1 0/2 0 1 0/2 - 0 0/3 2 1 0/3 1 1 0/3 - 0 0/0 1 3 0/0 2 1 0/0 3 1 0/0 - 0 0/1 0 3 0/0 1 2 2/',
     'rounds 1 tests 11 refused 10 at 15', 'line 17: T 0'),
    (b'4\nL 0\nT 0\nT 0\nT 0\nT 3\nT 3\nT 3\nT 2\nT 2\nT 2\nT 2\nT 1\n',
     '0 1 3 0/0 2 1 0/0 3 1 0/0 - 0 0/3 2 1 0/3 1 5 0/3 - 0 0/2 3 1 0/2 0 1 0/2 - 0 0/2 3 1 0/',
     'rounds 1 tests 8 refused 10 at 11', 'line 13: T 1'),
    # of three, told by one that never missed its reply; its reply late; told behind its pass, then tested again
    (b'3\nL 0\nT 0\nT 2\nT 2\nT 1\n', '0 1 3 0/0 2 1 0/2 0 1 0/2 1 5 0/', 'rounds 0 tests 4 refused 10 at 4', 'line 6: T 1'),
    (b'3\nL 0\nT 0\nT 2\nL 2\nT 1\n', '0 1 3 0/0 2 1 0/2 0 1 0/2 1 3 0/1 0 2 2/', 'rounds 0 tests 5 refused 0 at 5', ''),
    (b'3\nT 1\nT 1\nL 0\nT 0\nT 2\nT 2\nT 0\nT 2\nT 2\nT 2\nC 1\n',
     '1 0 1 0/1 - 0 0/0 1 3 0/0 2 1 0/2 0 1 0/2 1 5 0/0 - 0 0/2 - 0 0/2 0 1 0/2 1 3 0/',
     'rounds 1 tests 7 refused 10 at 10', 'line 12: C 1'),
    # passes where numbers are absent
    (b'5\nT 4\nT 4\nT 4\nT 4\nT 4\nT 4\n',
     '4 0 1 0/4 1 1 0/4 2 1 0/4 3 1 0/4 - 0 0/', 'rounds 0 tests 4 refused 11 at 5', 'line 7: T 4'),
    (b'11\nT 10\nT 10\nT 10\nT 10\nT 10\nT 10\nT 10\nL 10\n',
     '10 8 1 0/10 9 1 0/10 2 1 0/10 3 1 0/10 6 1 0/10 7 1 0/10 - 0 0/', 'rounds 0 tests 6 refused 11 at 7', 'line 9: L 10'),
    # 4,096 entries, which is the most
    (b'2\n' + MOST, ROUND_LINES * 1024, 'rounds 1024 tests 2048 refused 0 at 4096', ''),
    (b'2\n' + MOST[:-1], ROUND_LINES * 1024, 'rounds 1024 tests 2048 refused 0 at 4096', ''),
    (b'002\n' + LONGEST, ROUND_LINES * 1024, 'rounds 1024 tests 2048 refused 0 at 4096', ''),
    (b'1\n' + MOST, '', 'rounds 0 tests 0 refused 1 at 0', 'line 1: 1'),
    (b'064\n' + b'T 00\n' * 4096, '0 1 1 0/0 2 1 0/0 4 1 0/0 8 1 0/0 16 1 0/0 32 1 0/0 - 0 0/',
     'rounds 0 tests 6 refused 11 at 7', 'line 9: T 00'),
]

# Each size, and larger ones: a byte would cut 258 and 514 to 2, 267 to 11, 320 to 64
READ += [(b'%d\n' % n, '', f'rounds 0 tests 0 refused {0 if 2 <= n <= 64 else 1} at 0', '' if 2 <= n <= 64 else f'line 1: {n}')
         for n in [*range(67), 99, 100, 127, 128, 129, 254, 255, 256, 257, 258, 267, 320, 514, 999]]

# The same, with --ring
READ_ON_RING = [
    (b'4\nC 1\nT 0\nT 0\nT 0\nT 2\nT 2\nT 3\nT 3\n',
     '1 - 4 1/0 1 3 0/0 2 1 0/0 - 0 0/2 3 1 0/2 - 0 0/3 0 1 0/3 - 0 0/', 'rounds 1 tests 4 refused 0 at 8', ''),
    (b'4\nT 0\nT 0\nT 1\nT 1\nT 2\nT 2\nT 3\nT 3\n',
     '0 1 1 0/0 - 0 0/1 2 1 0/1 - 0 0/2 3 1 0/2 - 0 0/3 0 1 0/3 - 0 0/', 'rounds 1 tests 4 refused 0 at 8', ''),
    (b'11\nT 10\nT 10\nT 10\n', '10 0 1 0/10 - 0 0/', 'rounds 0 tests 1 refused 11 at 2', 'line 4: T 10'),
    (b'3\nL 0\nL 0\nL 0\n', '0 1 3 0/0 2 3 3/', 'rounds 0 tests 2 refused 10 at 2', 'line 4: L 0'),
    (b'3\nL 0\nT 0\nT 0\nT 1\nT 2\nT 2\n',
     '0 1 3 0/0 2 1 0/0 - 0 0/1 2 2 2/2 0 1 0/2 - 0 0/', 'rounds 1 tests 4 refused 0 at 6', ''),
    (b'4\nT 1\nT 1\nT 2\nT 2\nT 3\nT 3\nL 0\nT 0\nT 0\nT 0\nT 0\nT 0\nT 1\n',
     '1 2 1 0/1 - 0 0/2 3 1 0/2 - 0 0/3 0 1 0/3 - 0 0/0 1 3 0/0 2 1 0/0 - 0 0/0 1 5 0/0 2 1 0/0 - 0 0/',
     'rounds 1 tests 7 refused 10 at 12', 'line 14: T 1'),
    (b'65\nT 64\nT 0\n', '', 'rounds 0 tests 0 refused 1 at 0', 'line 1: 65'),
    (b'3\nT 3\nT 0\n', '', 'rounds 0 tests 0 refused 9 at 0', 'line 2: T 3'),
]

RING, CUBE = (b'--ring',), ()
LATE, TWO = sample('late-reply.txt'), sample('two-boards.txt')
FOUR, FOUR_ON_RING = sample('four-boards.txt'), sample('four-boards-ring.expected')
REFUSED = f'refused 10 at 6: {refusal(10)}; line 8: T 0\n'.encode()
HERE = {'late.txt': LATE, 'two.txt': TWO, 'four.txt': FOUR, 'folder': FOLDER, 'socket': SOCKET}
UNKNOWN = 'watch: unknown option: {} (see ./watch --help)\n'
HINT = b'reading standard input: a size, then a line per entry; Ctrl-D ends it\n'
NO_LINE = b'station tested outcome status\nrounds 0 tests 0 refused 0 at 0\n'

# How it is called: its arguments, its input or '', the status, standard output, standard error
CALLS = [
    (['--help'], b'', 0, re.compile(rb'(?=Usage: \./watch \[)(.{1,79}\n|\n)+'), b''),
    (['-h'], b'', 0, usage('watch'), b''),
    (['late.txt'], b'', 0, sample('late-reply.expected'), b''),
    ([], LATE, 0, sample('late-reply.expected'), b''),
    (['two.txt'], b'', 0, sample('../crates/watch/stdout'), REFUSED),
    ([], TWO, 0, sample('../crates/watch/stdout'), REFUSED),
    (['--ring', 'four.txt'], b'', 0, FOUR_ON_RING, b''),
    (['four.txt', '--ring'], b'', 0, FOUR_ON_RING, b''),
    (['--ring', 'four.txt', '--ring'], b'', 0, FOUR_ON_RING, b''),
    (['--ring'], FOUR, 0, FOUR_ON_RING, b''),
    (['--ring', '--help'], b'', 0, usage('watch'), b''),
    (['missing'], b'', 2, b'', b'watch: no such file: missing\n'),
    (['folder'], b'', 2, b'', b'watch: a folder, not a file: folder\n'),
    (['socket'], b'', 2, b'', b'watch: cannot be read: socket\n'),
    (['--quick'], b'', 2, b'', UNKNOWN.format('--quick').encode()),
    (['--ring', '--quick'], b'', 2, b'', UNKNOWN.format('--quick').encode()),
    (['--rings'], b'', 2, b'', UNKNOWN.format('--rings').encode()),
    ([b'\xff'], b'', 2, b'', b'watch: an argument is not text in UTF-8\n'),
    (['two.txt', 'four.txt'], b'', 2, b'', b'watch: more than one argument\n' + usage('watch')),
    (['--rings', 'four.txt'], b'', 2, b'', b'watch: more than one argument\n' + usage('watch')),
    (['/proc/self/mem'], b'', 1, b'', read_fails('Input/output error (os error 5)')),
]

# The same with unusual surroundings, which come first
UNUSUAL = [
    ('full disk', ['late.txt'], 1, None, WRITE_FAILS),
    ('full disk', ['two.txt'], 1, None, WRITE_FAILS),
    ('full disk', ['--help'], 1, None, WRITE_FAILS),
    *[(gone, words, 0, None, err) for gone in ('reader gone', 'reader gone, SIGPIPE ignored')
      for words, err in [(['late.txt'], b''), (['two.txt'], REFUSED), (['--help'], b'')]],
    ('no standard error', ['--quick'], 2, b'', None),
    ('no standard error', ['two.txt', 'four.txt'], 2, b'', None),
    ('no standard error', ['two.txt'], 0, sample('../crates/watch/stdout'), None),
    ('no standard input', [], 1, b'', read_fails('Bad file descriptor (os error 9)')),
    ('a folder as input', [], 1, b'', read_fails('Is a directory (os error 21)')),
    ('endless input', [], 0, b'unread 2\n', f'unread 2: {DIGIT} where {KIND} is expected; line 2: 8\n'.encode()),
    ('a terminal', [], 0, NO_LINE, HINT),
]


def unread():
    """Each input of UNREAD; the number of its line that cannot be read; and what is said of it."""
    for found, expected, inputs in UNREAD:
        for one in inputs:
            text, number = one if isinstance(one, tuple) else (one, len(one.removesuffix(b'\n').split(b'\n')))
            line = text.split(b'\n')[number - 1]
            shown = ''.join(ESCAPES.get(byte, chr(byte) if 32 <= byte < 127 else f'\\x{byte:02x}') for byte in line[:MOST_SHOWN])
            shown += '..' if len(line) > MOST_SHOWN else ''
            yield text, number, f'{found} where {expected} is expected' + (f'; line {number}: {shown}' if shown else '')


def read(wiring, row):
    text, lines, last, shown = row
    out = f'station tested outcome status\n{lines}{last}\n'.replace('/', '\n')
    number, taken = re.search(r'refused (\d+) at (\d+)', last).groups()
    err = '' if number == '0' else f'refused {number} at {taken}: {refusal(int(number))}; {shown}\n'
    return wiring, text, out, err


def cases():
    inputs = [(wiring, text, f'unread {line}\n', f'unread {line}: {said}\n') for wiring in (CUBE, RING) for text, line, said in unread()]
    inputs += [read(CUBE, row) for row in READ] + [read(RING, row) for row in READ_ON_RING]
    for wiring, text, out, err in inputs:
        yield Case('input', 'watch', wiring, text, out.encode(), err.encode(), simulated=True)
        yield Case('input in pieces', 'watch', wiring, text, out.encode(), err.encode(), how='pieces')
    for words, text, status, out, err in CALLS:
        yield Case('call', 'watch', tuple(words), text, out, err, status, HERE)
    for how, words, status, out, err in UNUSUAL:
        yield Case(how, 'watch', tuple(words), b'', out, err, status, HERE, how=how)
