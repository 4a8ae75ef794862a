"""Random inputs of the programs. Each is a list of parts, which one behind the other are the input, or of arguments."""

MOST = 4096  # entries of an input
POWERS = [2, 4, 8, 16, 32, 64]
# Bytes that make a line unreadable or, in some places, do not
BYTES = b'\n\n\n\r\t  \0TLCtlc0123456789+-/:\x0b\x80\xff'


def lines_of(printed):
    """The lines of a run sheet that was printed, as numbers; None for -."""
    lines = printed.decode().splitlines()[1:-1]
    return [[None if word == '-' else int(word) for word in line.split()] for line in lines]


class Plant:
    """What the lines of a run sheet tell of a plant of n: who is live and has not finished, what each suspects, the closed rounds."""

    def __init__(self, n):
        self.live, self.finished, self.rounds = set(range(n)), set(), 0
        self.rows = [set() for _ in range(n)]
        self.turns, self.last_pass = [0] * n, [0] * n  # of each station: in this pass, and in the last that it finished

    def take(self, i, j, outcome, status):
        """One line; says whether the round closes."""
        self.turns[i] += 1
        if outcome == 0:
            self.finished.add(i)
            self.last_pass[i] = self.turns[i]
        elif outcome == 1:
            union = self.rows[i] | self.rows[j]
            self.rows[i], self.rows[j] = union - {i}, union - {j}
        elif outcome == 3:
            self.rows[i].add(j)
        elif outcome == 5:
            self.live.discard(j)
        if status != 0:
            self.live.discard(i)
        closes = bool(self.live) and self.live <= self.finished
        if closes:
            self.rounds += 1
            self.finished.clear()
            self.turns = [0] * len(self.turns)
        return closes


def latency(n, printed):
    """The rounds that the printed lines close, and after how many of them each live station first suspects just the others that are not."""
    plant, known = Plant(n), None
    for line in lines_of(printed):
        if plant.take(*line) and known is None and all(plant.rows[i] == set(range(n)) - plant.live for i in plant.live):
            known = plant.rounds
    return plant.rounds, known


def a_size(rng):
    """Mostly one of a plant."""
    drawn = rng.randrange(30)
    if drawn < 2:
        return rng.randrange(1000) if drawn else rng.choice([0, 1, 65, 66])
    return rng.choice(POWERS) if rng.randrange(4) == 0 else rng.randint(2, 64)


def how_many(rng):
    drawn = rng.randrange(100)
    if drawn < 3:
        return MOST if drawn < 2 else MOST + rng.randint(1, 3)
    return rng.randrange(MOST if drawn == 3 else 400 if drawn < 11 else 5 if drawn < 41 else 61)


def taken(rng, n, ring, most, kind, run):
    """Entries that a plant takes, nearly as many as asked for: whole rounds are proposed, and as far as the run took them they stay."""
    entries, plant, steady = [], Plant(n), False
    for _ in range(40):
        waiting = plant.live - plant.finished
        if not waiting or len(entries) >= most:
            break
        guess = 2 if ring else n.bit_length()
        more = [i for i in waiting for _ in range(max(1, (plant.last_pass[i] or guess) - plant.turns[i]))]
        rng.shuffle(more)
        a_round = [i for i in plant.live for _ in range(plant.last_pass[i])]
        while steady and a_round and len(entries) + len(more) < most:
            more += rng.sample(a_round, len(a_round))
        more = [(kind(), i) for i in more[:most - len(entries)]]
        lines = lines_of(run(as_text(n, entries + more)))
        plant = Plant(n)
        for line in lines:
            plant.take(*line)
        steady = len(lines) == len(entries) + len(more)
        entries = (entries + more)[:len(lines)]
    return entries


def as_text(n, entries):
    return f'{n}\n{"".join(f"{kind} {station}" + chr(10) for kind, station in entries)}'.encode()


def kinds(rng, long):
    """What draws the kind of an entry. In a long schedule few stations leave."""
    late = rng.choice([0, 0, 0, 0.005, 0.001] if long else [0, 0, 0.3, 0.1, 0.025])
    crash = rng.choice([0, 0, 0, 0.01, 0.001] if long else [0, 0, 0.2, 0.05, 0.016])
    return lambda: 'L' if rng.random() < late else 'C' if rng.random() < crash else 'T'


def watch_input(rng, simulate):
    """Arguments, and the lines of an input: entries that are taken, often with some behind that need not be, now and then damaged."""
    ring, n, most = rng.randrange(2) == 1, a_size(rng), how_many(rng)
    arguments = ('--ring',) if ring else ()
    kind = kinds(rng, most > 400)
    entries = []
    if 2 <= n <= 64 and rng.randrange(10) > 0:
        entries = taken(rng, n, ring, rng.choice([most, most // 2]), kind, lambda text: simulate(arguments, text))
    if rng.randrange(2) == 0 or most > MOST:
        entries += [(kind(), rng.randrange(min(max(n, 1), 100))) for _ in range(most - len(entries))]
    if rng.randrange(4) == 0:
        entries.insert(rng.randint(0, len(entries)), (kind(), rng.randint(rng.choice([0, min(n, 99)]), 99)))
        del entries[max(most, 1):]
    zeros = rng.choice([0, 0, 0, 0.25, 1])
    lines = [f'{n:0{rng.choice([1, 1, 1, 1, 1, 1, 2, 3])}}\n']
    lines += [f'{kind} {station:0{2 if rng.random() < zeros else 1}}\n' for kind, station in entries]
    text = ''.join(lines).encode()
    if rng.randrange(8) == 0:
        text = text[:-1]
    if rng.randrange(3) == 0:
        for _ in range(rng.randint(1, 2)):
            text = damaged(rng, text)
    return arguments, text.splitlines(keepends=True)


def damaged(rng, text):
    """With a byte inserted, deleted or changed, or with the end cut off."""
    byte = bytes([rng.randrange(256) if rng.randrange(4) == 0 else rng.choice(BYTES)])
    near = min(len(text), 6)
    if not text or rng.randrange(4) == 0:
        at = rng.randint(0, len(text))
        return text[:at] + byte + text[at:]
    at = rng.choice([rng.randrange(near), len(text) - 1 - rng.randrange(near), rng.randrange(len(text)), rng.randrange(len(text))])
    return text[:at] + rng.choice([byte + text[at + 1:], text[at + 1:], b''])


def sheet_arguments(rng):
    """A size, and dead boards in any order. At least two boards are live."""
    n = rng.randint(2, 64)
    dead = rng.sample(range(n), n)
    if rng.randrange(4) == 0:  # whole groups of one board
        board, levels = rng.randrange(n), rng.getrandbits(7)
        dead = [other for other in dead if levels >> (board ^ other).bit_length() & 1 and other != board]
    else:
        few, half, most = rng.randint(1, 4), n // 2, n - 2
        del dead[rng.choice([0, few, few, few, half, half, most, most, n - 3, n - 3, rng.randrange(n), rng.randrange(n)]):]
    dead = dead[:n - 2]
    if rng.randrange(4) == 0:
        dead.sort()
    zeros = rng.choice([0, 0, 0, 0.25, 1])
    size = f'{n:0{rng.choice([1, 1, 1, 1, 1, 1, 2, 3])}}'
    return [size, *(f'{board:0{2 if rng.random() < zeros else 1}}' for board in dead)]


def first_edition(saved):
    """The fields of a saved plant of edition 2, as edition 1 has them."""
    n = saved[7]
    lines = [saved[at + 3:at + n + 10] for at in range(19, len(saved), n + 10)]
    return [saved[4:8], saved[8:19], *(bytes([3, 0, n + 5]) + line[:5] + line[7:] for line in lines)]


def stored_file(rng, simulate, save):
    """The fields of a file of edition 1, in any order, often damaged."""
    n = a_size(rng) if rng.randrange(2) else rng.randint(2, 5)
    n = n if 2 <= n <= 64 else 2
    entries = taken(rng, n, False, rng.randrange(200), kinds(rng, False), lambda text: simulate((), text))
    fields = first_edition(save(as_text(n, entries)))
    if rng.randrange(2) == 0:
        rng.shuffle(fields)
    drawn = rng.randrange(8)
    if drawn == 0:
        fields.insert(rng.randint(0, len(fields)), rng.choice(fields))
    elif drawn == 1:
        del fields[rng.randrange(len(fields))]
    elif drawn == 2:  # a small number in the place of a byte, which may be one of a line
        at = rng.randrange(len(fields))
        byte = rng.randrange(len(fields[at]))
        fields[at] = fields[at][:byte] + bytes([rng.randrange(5)]) + fields[at][byte + 1:]
    elif drawn == 3:
        fields = [damaged(rng, b''.join(fields))]
    return fields
