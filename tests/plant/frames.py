"""Frames of the cable: their kinds and lengths are read from bindings/node/node.h. And frames of strangers, that no part of the plant sends."""

import os
import random
import re
import socket

ROOT = os.path.dirname(os.path.dirname(os.path.dirname(os.path.abspath(__file__))))
with open(os.path.join(ROOT, 'bindings/node/node.h'), encoding='ascii') as file:
    HEADER = file.read()

KINDS = {name: int(number) for name, number in re.findall(r'VCUBE_FRAME_([A-Z_]+) = (\d+)', HEADER)}
# The table of the header's comment: name -> sender and what the data is, a line that goes on joined.
_TABLE = re.search(r'\n \*   kind +from -> to .*?\n \*\n', HEADER, re.DOTALL)[0].replace('\n *                                         ', ' ')
ROWS = {name: (sender, data) for name, sender, data in re.findall(r'\n \*   ([A-Z_]+) +(\w+) -> .*? (?:e \+ 1|e) {2,}(.*)', _TABLE)}
if not KINDS or KINDS.keys() != ROWS.keys():
    raise ValueError('the kinds of frames in node.h are not those of the table in its comment')


def length(name, n):
    """How many bytes of data a frame of the kind has."""
    data = ROWS[name][1]
    if data.startswith('none'):
        return 0
    if data.endswith('packed'):
        return (n + 7) // 8
    if data == 'as GRANT; nobody has the turn':
        return length('GRANT', n)
    parts = data.split('. ')[0].split('; ')
    return sum(4 if 'in four bytes' in part else 1 for part in parts)


def lengths(n):
    return {kind: length(name, n) for name, kind in KINDS.items()}


def identifier(kind, sender, receiver, number):
    return kind << 24 | sender << 18 | receiver << 12 | number & 0xfff


def frame(kind, sender, receiver, number, data):
    return identifier(kind, sender, receiver, number).to_bytes(4, 'big') + bytes([len(data)]) + data


def data_of(drawn, name, n, number):
    """As a sender of that kind might have it: a number is that of the identifier, and a note is of a turn with an exchange or without a reply."""
    data = drawn.randbytes(length(name, n))
    whole = (number % 2 ** 32).to_bytes(4, 'big')
    if name in ('ENTERED', 'GRANT'):
        return whole + bytes([drawn.choice([16 + 1, 16 + 3]), *drawn.sample(range(n), 2)])
    return whole + data[4:] if name == 'LINE_HEAD' else data


def from_nobody(drawn, n, number):
    name = drawn.choice(sorted(KINDS))
    return frame(KINDS[name], drawn.randrange(n, 64), drawn.randrange(n), number, data_of(drawn, name, n, number))


def foreign_row(drawn, n, number):
    name = drawn.choice(['REPLY', 'EXCHANGE', 'LINE_ROW'])
    return frame(KINDS[name], drawn.randrange(n, 64), drawn.randrange(n), number, drawn.randbytes(length(name, n)))


def of_no_kind(drawn, n, number):
    kind = drawn.choice([kind for kind in range(32) if kind not in KINDS.values()])
    return frame(kind, drawn.randrange(n), drawn.randrange(n), number, drawn.randbytes(drawn.randrange(9)))


def of_wrong_length(drawn, n, number):
    """In the name of a board or of the bus master, but as that kind never is. Half of them are notes, and half have a byte more or less."""
    name = drawn.choice(sorted(KINDS) if drawn.random() < 0.5 else ['ENTERED', 'GRANT'])
    near = [length(name, n) - 1, length(name, n) + 1] if drawn.random() < 0.5 else range(9)
    wrong = drawn.choice([count for count in near if 0 <= count <= 8 and count != length(name, n)])
    sender = 0 if ROWS[name][0] == 'master' else drawn.randrange(n)
    data = data_of(drawn, name, n, number) + drawn.randbytes(8)
    return frame(KINDS[name], sender, drawn.randrange(n), number, data[:wrong])


def cut_off(drawn, n, number):
    whole = frame(KINDS['REPLY'], drawn.randrange(n), drawn.randrange(n), number, drawn.randbytes(length('REPLY', n)))
    return (whole + drawn.randbytes(60))[:drawn.choice([1, 2, 3, 4, 5, len(whole) - 1, 14, 20, 60])]


def of_other_length(drawn, n, number):
    """Its length is not that of its data."""
    whole = frame(drawn.choice(sorted(KINDS.values())), drawn.randrange(n), drawn.randrange(n), number, drawn.randbytes(drawn.randrange(9)))
    return whole[:4] + bytes([drawn.choice([count for count in range(256) if count != len(whole) - 5])]) + whole[5:]


WRONG = (from_nobody, foreign_row, of_no_kind, of_wrong_length, cut_off, of_other_length)
MOMENTS = 5  # the open turn, two before it and two after it


def send_strangers(port, n, is_over, sent):
    """Joins the cable, so that it hears which turn is open, and sends a wrong frame every few milliseconds, each kind of them with each number near
    the open turn's. None tells a lie in a board's or the bus master's name: that is not in the fault model."""
    drawn = random.Random(1)
    number = 0
    with socket.socket(socket.AF_INET, socket.SOCK_DGRAM) as cable:
        cable.connect(('127.0.0.1', port))
        cable.send(b'')
        cable.setblocking(False)
        while not is_over.wait(0.004):
            try:
                while True:
                    heard = cable.recv(64)
                    if len(heard) >= 9 and heard[0] & 31 == KINDS['GRANT']:
                        number = int.from_bytes(heard[5:9], 'big')
            except OSError:
                pass
            make = WRONG[len(sent) // MOMENTS % len(WRONG)]
            near = number + len(sent) % MOMENTS - 2
            try:
                cable.send(make(drawn, n, near))
            except OSError:
                return
            sent.append(make)
