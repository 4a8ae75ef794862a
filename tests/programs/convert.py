"""The converter of stored files: odd files, and how it is called. What must be written follows from docs/RULES.md, by hand."""

import re

from case import FOLDER, SOCKET, Case, Link
from words import refusal, sample, usage, WRITE_FAILS, read_fails

# Fields of a plant of two. Line 1 is that of a board that was told to leave.
TWO = b'\x01\x00\x01\x02'
TALLY = b'\x02\x00\x08\x00\x00\x00\x00\x00\x00\x00\x01'
LINE_0 = b'\x03\x00\x07\x00\x00\x02\x00\x01\x00\x00'
LINE_1 = b'\x03\x00\x07\x01\x02\x01\x00\x00\x01\x00'
FIRST = TWO + TALLY + LINE_0 + LINE_1
OPENING = b'\x04\x00\x01\x02'
SIX_0 = b'\x03\x00\x09\x00\x00\x02\x00\x01\xff\x00\x00\x00'
SIX_1 = b'\x03\x00\x09\x01\x02\x01\x00\x00\xfe\x00\x01\x00'
SECOND = OPENING + TWO + TALLY + SIX_0 + SIX_1

# Files that are refused: the file, the refusal, the byte at which it shows. --check says that they are damaged so.
REFUSED = [
    # 18: the field that goes past the end, or the beginning of a head
    (FIRST + b'\x03', 18, 35),
    (TWO + TALLY + LINE_0 + b'\x03\x00\x07\x01\x02', 18, 25),
    (b'\x09\xff\xff', 18, 0),
    (b'a letter to the works', 18, 0),
    # 22: the first unknown tag
    (TWO + b'\x05\x00\x00' + TALLY + b'\x00\x00\x00' + LINE_0 + LINE_1, 22, 4),
    (FIRST + b'\x09\x00\x01\x00', 22, 35),
    # 19: the second one, one of a wrong length, or the end where one is missing
    (b'', 19, 0),
    (TWO + LINE_0 + LINE_1, 19, 24),
    (FIRST + TWO, 19, 35),
    (FIRST + TALLY, 19, 35),
    (b'\x01\x00\x02\x00\x02' + TALLY + LINE_0 + LINE_1, 19, 0),
    (TWO + b'\x02\x00\x01\x00' + LINE_0 + LINE_1, 19, 4),
    # 1: the size
    (TALLY + b'\x01\x00\x01\x41', 1, 11),
    (TALLY + b'\x01\x00\x01\x01', 1, 11),
    # 20: a line of a wrong length, of no board, of one that was there, or the end where one is missing
    (TWO + TALLY + LINE_0, 20, 25),
    (FIRST + LINE_0, 20, 35),
    (TWO + TALLY + LINE_0 + b'\x03\x00\x07\x02\x02\x01\x00\x00\x01\x00', 20, 25),
    (TWO + TALLY + b'\x03\x00\x00' + LINE_0 + LINE_1, 20, 15),
    # 3: the line; 4: that of the first live board
    (TWO + TALLY + LINE_0 + b'\x03\x00\x07\x01\x04\x01\x00\x00\x01\x00', 3, 25),
    (TWO + TALLY + LINE_1 + b'\x03\x00\x07\x00\x00\x02\x01\x01\x00\x00', 4, 25),
]

# Files that begin as edition 2: the file; the refusal and the byte by which --check says that they are damaged, and those of converting
DAMAGED_SECOND = [
    (OPENING + TWO + TALLY + SIX_1 + SIX_0, 22, 31, 22, 0),
    (b'\x04\x00\x01\x03' + TWO + TALLY + SIX_0 + SIX_1, 21, 0, 22, 0),
    (OPENING + TWO + TALLY + SIX_0, 20, 31, 22, 0),
    (SECOND + b'\x04', 18, 43, 18, 43),
]

# Files that are not converted though they are not damaged, and what --check says of them
OTHER = [
    (SECOND, 22, 0, 'edition 2', 0),
    (TWO + TALLY + SIX_0 + SIX_1, 20, 15, 'saved by version 0.9 or 0.10: for edition 2 put the bytes 4 0 1 2 in front', 1),
]
IS = 'the file is: {}\n'
TOO_LONG = 'longer than any saved plant, which has 4,755 bytes at most\n'

# Files of edition 1, and what they become
EIGHT, EIGHT_SECOND = sample('eight-boards-4-out-edition-1.saved'), sample('eight-boards-4-out.saved')
EIGHT_CONVERTED = EIGHT_SECOND[:100] + b'\0' + EIGHT_SECOND[101:]  # byte 5 of board 4, which edition 1 has not
CONVERTED = [
    (FIRST, SECOND),
    (LINE_1 + TALLY + LINE_0 + TWO, SECOND),
    (EIGHT, EIGHT_CONVERTED),
]

WRONG_NUMBER = b'convert: expected two file names, or --check and one\n'
UNKNOWN = 'convert: unknown option: {} (see ./convert --help)\n'
THERE = b'Error: new already exists (--force replaces it)\n'
NO_FILE = 'Error: {} exists and is not a regular file\n'
UNWRITTEN = 'Error: {} cannot be written\n\nCaused by:\n    {}\n'
BESIDE = b'Error: the new file cannot be written beside it\n\nCaused by:\n    File exists (os error 17)\n'
HINT = b'reading a stored file from standard input\n'

# How it is called in a folder with `old`, a file of edition 1, and other files: its arguments; those that are there before, and what they
# are afterwards (None: the same); the status; standard output; standard error
CALLS = [
    (['--help'], {}, None, 0, re.compile(rb'(?=Usage: \./convert \[)(.{1,79}\n|\n)+'), b''),
    (['-h'], {}, None, 0, usage('convert'), b''),
    (['missing', 'new'], {}, None, 2, b'', b'convert: no such file: missing\n'),
    (['--check', 'missing'], {}, None, 2, b'', b'convert: no such file: missing\n'),
    (['folder', 'new'], {'folder': FOLDER}, None, 2, b'', b'convert: a folder, not a file: folder\n'),
    (['socket', 'new'], {'socket': SOCKET}, None, 2, b'', b'convert: cannot be read: socket\n'),
    (['--quick'], {}, None, 2, b'', UNKNOWN.format('--quick').encode()),
    ([b'\xff'], {}, None, 2, b'', b'convert: an argument is not text in UTF-8\n'),
    *[(words.split(), {}, None, 2, b'', WRONG_NUMBER + usage('convert'))
      for words in ('old', 'old new new2', '--check', '--check old old', '--force', '--force old', '--force old a b', '--check --force old')],
    # written, and where something is there already
    (['old', 'new'], {}, {'new': EIGHT_CONVERTED}, 0, b'', b''),
    (['old', 'new'], {'new': b'kept\n'}, None, 1, b'', THERE),
    (['--force', 'old', 'new'], {'new': b'kept\n'}, {'new': EIGHT_CONVERTED}, 0, b'', b''),
    (['--force', 'old', 'new'], {}, {'new': EIGHT_CONVERTED}, 0, b'', b''),
    (['new', 'new'], {'new': EIGHT}, None, 1, b'', THERE),
    (['--force', 'new', 'new'], {'new': EIGHT}, {'new': EIGHT_CONVERTED}, 0, b'', b''),
    (['--force', 'second', 'new'], {'second': SECOND, 'new': b'kept\n'}, None, 1, b'',
     f'refused 22 at byte 0: {refusal(22)}\n{IS.format("edition 2")}'.encode()),
    (['--force', 'old', 'new'], {'new': FOLDER}, None, 1, b'', NO_FILE.format('new').encode()),
    (['--force', 'old', 'new'], {'new': Link('other'), 'other': b'kept\n'}, None, 1, b'', NO_FILE.format('new').encode()),
    (['--force', 'old', '/dev/full'], {}, None, 1, b'', NO_FILE.format('/dev/full').encode()),
    # what cannot be written leaves no file
    (['old', 'missing/new'], {}, None, 1, b'', UNWRITTEN.format('missing/new', 'No such file or directory (os error 2)').encode()),
    (['--force', 'old', 'new'], {'new': b'kept\n', 'new.part': b'kept too\n'}, None, 1, b'', BESIDE),
    (['/proc/self/mem', 'new'], {}, None, 1, b'', read_fails('Input/output error (os error 5)')),
    # ten megabytes
    (['long', 'new'], {'long': b'T 00\n' * 2_000_000}, None, 1, b'', TOO_LONG.encode()),
    (['--check', 'long'], {'long': b'T 00\n' * 2_000_000}, None, 1, f'damaged: {TOO_LONG}'.encode(), b''),
]

# The same with unusual surroundings, which come first, and `old` on standard input
UNUSUAL = [
    ('full disk', [], {}, 1, None, WRITE_FAILS),
    ('full disk', ['--help'], {}, 1, None, WRITE_FAILS),
    ('full disk', ['--check', 'old'], {}, 1, None, WRITE_FAILS),
    *[(gone, words, {}, 0, None, b'') for gone in ('reader gone', 'reader gone, SIGPIPE ignored') for words in (['--help'], ['--check', 'old'])],
    # a converted file that its reader does not read is not written
    *[(gone, [], {}, 1, None, WRITE_FAILS.replace(b'No space left on device (os error 28)', b'Broken pipe (os error 32)'))
      for gone in ('reader gone', 'reader gone, SIGPIPE ignored')],
    ('no room on the disk', ['old', 'new'], {}, 1, b'', UNWRITTEN.format('new', 'File too large (os error 27)').encode()),
    ('no room on the disk', ['--force', 'old', 'new'], {'new': b'kept\n'}, 1, b'',
     BESIDE.replace(b'File exists (os error 17)', b'File too large (os error 27)')),
    ('no standard error', ['--quick'], {}, 2, b'', None),
    ('no standard error', ['second', 'new'], {'second': SECOND}, 1, b'', None),
    ('no standard input', [], {}, 1, b'', read_fails('Bad file descriptor (os error 9)')),
    ('a folder as input', [], {}, 1, b'', read_fails('Is a directory (os error 21)')),
    ('endless input', [], {}, 1, b'', TOO_LONG.encode()),
    ('a terminal', [], {}, 1, b'', HINT + f'refused 18 at byte 0: {refusal(18)}\n'.encode()),
]


def of_file(file, number, place, checked, check_status, more=''):
    """A file that is refused: by its name, on standard input, and by --check."""
    err = f'refused {number} at byte {place}: {refusal(number)}\n{more}'.encode()
    yield Case('file', 'convert', ('old', 'new'), b'', b'', err, 1, {'old': file})
    yield Case('file', 'convert', (), file, b'', err, 1, simulated=True)
    yield Case('file', 'convert', ('--check', 'old'), b'', f'{checked}\n'.encode(), b'', check_status, {'old': file})


def cases():
    for file, number, place in REFUSED:
        yield from of_file(file, number, place, f'damaged: refused {number} at byte {place}: {refusal(number)}', 1)
    for file, number, place, converting, at in DAMAGED_SECOND:
        yield from of_file(file, converting, at, f'damaged: refused {number} at byte {place}: {refusal(number)}', 1)
    for file, number, place, what, status in OTHER:
        yield from of_file(file, number, place, what, status, IS.format(what))
    for file, converted in CONVERTED:
        yield Case('file', 'convert', (), file, converted, simulated=True)
        yield Case('file in pieces', 'convert', (), file, converted, how='pieces')
        for checked, what in ((file, b'edition 1\n'), (converted, b'edition 2\n')):
            yield Case('file', 'convert', ('--check', 'old'), out=what, before={'old': checked})
    for words, before, after, status, out, err in CALLS:
        before = {'old': EIGHT} | before
        yield Case('call', 'convert', tuple(words), b'', out, err, status, before, before | (after or {}))
    for how, words, before, status, out, err in UNUSUAL:
        yield Case(how, 'convert', tuple(words), EIGHT, out, err, status, {'old': EIGHT} | before, how=how)
