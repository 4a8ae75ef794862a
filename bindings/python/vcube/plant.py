"""A whole plant: the one table that a bus master, a panel or a test bench keeps."""

from __future__ import annotations

import operator
from ctypes import Array, byref, c_size_t, c_uint8, c_uint32
from typing import TYPE_CHECKING, Any, Iterable, List, NamedTuple, Optional, Tuple, Union

from . import _library
from ._library import library
from .codes import HEAD, NOBODY, Kind, Outcome, Refused, Status, Wiring, checked

if TYPE_CHECKING:
    import numpy

ASSIGNMENT_DUE = 255
CHANGE = 4
MOST_COUNT = 2 ** 32 - 1


class Entry(NamedTuple):
    """What happens to a board: it takes a turn, takes a turn whose reply comes late, or crashes."""

    kind: Kind
    station: int


class Step(NamedTuple):
    """What came of an entry: a line of the run sheet.

    `tested` is None where no board was tested. `status` is that of `station` after the entry.
    """

    station: int
    tested: Optional[int]
    outcome: Outcome
    status: Status


class Driven(NamedTuple):
    """What a drive did: whether the round closed (else no board is live), and how many grants were made."""

    round_closed: bool
    grants: int


class Doubt(NamedTuple):
    """A live board that is suspected (`of`) by a live one (`by`): the first such pair."""

    by: int
    of: int


class Wait(NamedTuple):
    """After how many rounds and turns at most all live boards know all dead ones. When that holds: RULES, Bounds of the wait."""

    rounds: int
    turns_per_round: int
    turns_until_known: int
    turns_from_crash: int


class OneDead(NamedTuple):
    """After how many closed rounds, that of the crash among them, and after how many grants behind the crash at most one dead board is known."""

    rounds: int
    grants: int


class Slot(NamedTuple):
    """How many tests a board makes in a round by its own row, and the most with any one more board suspected."""

    tests: int
    most: int


class Assigned(NamedTuple):
    """A distance of a board: `due`, or else which board is `ahead` of it there."""

    distance: int
    due: bool
    ahead: Optional[int]


class Change(NamedTuple):
    """A byte of the table that was mended: byte `byte` of the line of board `line`, which was `old` and is `new`."""

    line: int
    byte: int
    old: int
    new: int


Entries = Union[bytes, bytearray, Iterable[Tuple[int, int]]]


def schedule(entries: Entries) -> bytes:
    """The bytes of a schedule: two for each entry. Bytes are taken as they are. A number that no byte holds becomes 255, which is refused."""
    if isinstance(entries, (bytes, bytearray)):
        return bytes(entries)
    numbers = [operator.index(number) for kind, station in entries for number in (kind, station)]
    return bytes(number if 0 <= number <= 255 else 255 for number in numbers)


def fresh_table(wiring: int, size: int) -> Array[c_uint8]:
    table = _library.buffer(size * (size + HEAD) if 2 <= size <= 64 else 0)
    checked(library.vcube_fresh_table(wiring, size, table, len(table)))
    return table


def named(number: int) -> Optional[int]:
    return None if number == NOBODY else number


class Plant:
    """A plant of `size` boards, 2 to 64, all live, at the start of a round.

    It keeps the table, the tally (`rounds` and `tests`) and the number of the board that was granted last. The library's errors are raised as
    `Refused`. A plant must not be used by two threads at once.

    >>> plant = Plant(8)
    >>> plant.run([(Kind.CRASH, 5)])
    [Step(station=5, tested=None, outcome=<Outcome.CRASH: 4>, status=<Status.CRASHED: 1>)]
    >>> plant.drive()
    Driven(round_closed=True, grants=30)
    >>> plant.rounds, plant.tests, plant.suspects(0, 5)
    (1, 23, True)
    """

    def __init__(self, size: int, wiring: int = Wiring.CUBE) -> None:
        self._keep(size, wiring, fresh_table(wiring, size), 0, 0, None)

    def _keep(self, size: int, wiring: int, table: Array[c_uint8], rounds: int, tests: int, last_granted: Optional[int]) -> None:
        self._size, self._wiring, self._table = operator.index(size), Wiring(wiring), table
        self._rounds, self._tests = c_uint32(rounds), c_uint32(tests)
        self.last_granted: Optional[int] = last_granted

    @classmethod
    def from_table(cls, size: int, table: bytes, wiring: int = Wiring.CUBE, rounds: int = 0, tests: int = 0,
                   last_granted: Optional[int] = None) -> Plant:
        """A plant with the bytes of this table. They are not checked here: calls refuse a table that is not valid, and `mend` mends it.

        Size and wiring are checked. A count that 32 bits do not hold is a ValueError.
        """
        fresh_table(wiring, size)
        for count in (rounds, tests):
            if not 0 <= count <= MOST_COUNT:
                raise ValueError(f'a count of rounds or tests is 0 to {MOST_COUNT}, not {count}')
        plant = cls.__new__(cls)
        plant._keep(size, wiring, _library.copied(table), rounds, tests, last_granted)
        return plant

    @classmethod
    def load(cls, saved: bytes, wiring: int = Wiring.CUBE) -> Plant:
        """The plant that `save` gave these bytes of. They do not say the wiring: give that of the plant."""
        given, size = _library.copied(saved), saved_size(saved)
        fresh_table(wiring, size)
        table, n, rounds, tests = _library.buffer(size * (size + HEAD)), c_size_t(), c_uint32(), c_uint32()
        checked(library.vcube_load(given, len(given), table, len(table), byref(n), byref(rounds), byref(tests)))
        plant = cls.__new__(cls)
        plant._keep(size, wiring, table, rounds.value, tests.value, None)
        return plant

    def save(self) -> bytes:
        """The plant as bytes for a file: size, tally and table, but neither wiring nor last granted number.

        A table of a ring is judged as one of the cube: right after the entry that closes a round it can be saved.
        """
        saved = _library.buffer(19 + self._size * (self._size + 10))
        checked(library.vcube_save(self._size, self._table, len(self._table), self._rounds, self._tests, saved, len(saved)))
        return bytes(saved)

    def copy(self) -> Plant:
        return Plant.from_table(self._size, self.table, self._wiring, self.rounds, self.tests, self.last_granted)

    def __repr__(self) -> str:
        dead = ''.join(f', {k} {Status(byte).words}' for k, byte in enumerate(self._column(0)) if 0 < byte <= Status.ALONE)
        return f'<vcube.Plant of {self._size} boards, {self._wiring.name.lower()}, {self.rounds} rounds and {self.tests} tests{dead}>'

    def _arguments(self) -> Tuple[int, int, Array[c_uint8], int]:
        return self._wiring, self._size, self._table, len(self._table)

    def _last(self) -> int:
        return NOBODY if self.last_granted is None else self.last_granted

    @property
    def size(self) -> int:
        """How many boards the plant has."""
        return self._size

    @property
    def wiring(self) -> Wiring:
        return self._wiring

    @property
    def rounds(self) -> int:
        """How many rounds were closed."""
        return self._rounds.value

    @property
    def tests(self) -> int:
        """How many tests were made."""
        return self._tests.value

    @property
    def table(self) -> bytes:
        """The table's bytes, a copy."""
        return bytes(self._table)

    # What happens.

    def run(self, entries: Entries) -> List[Step]:
        """Takes the entries in order, as `Entry` or as pairs of a kind and a board, and gives what came of each.

        Where one is refused, those before it are taken: `Refused.taken` has what came of them.
        """
        given = _library.copied(schedule(entries))
        sheet, taken = _library.buffer(2 * len(given)), c_size_t()
        number = library.vcube_run(*self._arguments(), byref(self._rounds), byref(self._tests), given, len(given), sheet, len(sheet), byref(taken))
        lines = [bytes(sheet[4 * k:4 * k + 4]) for k in range(taken.value)]
        steps = [Step(station, named(tested), Outcome(outcome), Status(status)) for station, tested, outcome, status in lines]
        if number:
            refused = Refused(number)
            refused.taken = steps
            raise refused
        return steps

    def enter(self, kind: int, station: int) -> Step:
        """A run of one entry."""
        return self.run([(kind, station)])[0]

    def grant(self) -> int:
        """The board that is to have the next turn, after `last_granted`. It changes nothing: once the turn was taken, set `last_granted`."""
        station = c_size_t()
        checked(library.vcube_grant(*self._arguments(), self._last(), byref(station)))
        return station.value

    def drive(self) -> Driven:
        """Grants turns, and takes them, until the round closes or no board is live."""
        before, last, grants = self.rounds, c_size_t(self._last()), c_size_t()
        number = library.vcube_drive(*self._arguments(), byref(self._rounds), byref(self._tests), byref(last), byref(grants))
        self.last_granted = named(last.value) if not number or grants.value else self.last_granted
        if number:
            refused = Refused(number)
            refused.grants = grants.value
            raise refused
        return Driven(self.rounds != before, grants.value)

    def mend(self) -> List[Change]:
        """Makes a damaged table valid, and gives each byte that it changed. A valid table stays as it is."""
        report, changes = _library.buffer(CHANGE * len(self._table)), c_size_t()
        checked(library.vcube_mend(*self._arguments(), report, len(report), byref(changes)))
        made = []
        for k in range(changes.value):
            high, low, old, new = report[CHANGE * k:CHANGE * k + CHANGE]
            line, byte = divmod(256 * high + low, self._size + HEAD)
            made.append(Change(line, byte, old, new))
        return made

    def bring_back(self, station: int) -> None:
        """A board that was replaced is live again: it gets a fresh line, and nobody suspects it. Only between two rounds."""
        line = self._line(station)
        checked(library.vcube_board_fresh(self._wiring, self._size, station, line, len(line)))
        for k in range(self._size):
            self._table[k * (self._size + HEAD) + HEAD + station] = 0

    # What it tells.

    def next(self, station: int) -> Optional[int]:
        """The board that a turn of board `station` would test; None where it would finish the pass."""
        line, tested = self._line(station), c_size_t()
        checked(library.vcube_board_next(self._wiring, self._size, station, line, len(line), byref(tested)))
        return named(tested.value)

    def doubt_lamp(self) -> Optional[Doubt]:
        """The first live board that suspects a live one, and whom; None where no live board does."""
        by, of = c_size_t(), c_size_t()
        checked(library.vcube_doubt_lamp(*self._arguments(), byref(by), byref(of)))
        return None if by.value == NOBODY else Doubt(by.value, of.value)

    def wait(self) -> Wait:
        """After how many rounds and turns at most all live boards know all dead ones."""
        numbers = [c_size_t() for _ in Wait._fields]
        checked(library.vcube_wait(*self._arguments(), *map(byref, numbers)))
        return Wait(*(number.value for number in numbers))

    def one_dead(self) -> Optional[OneDead]:
        """What `one_dead` gives for this wiring and size."""
        return one_dead(self._size, self._wiring)

    def slot(self, station: int) -> Slot:
        """How many tests a live board makes in a round, on the cube. Until the dead are known, time slots by the commissioning sheet."""
        self._want_cube('slot')
        tests, most = c_size_t(), c_size_t()
        checked(library.vcube_slot(self._size, self._table, len(self._table), station, byref(tests), byref(most)))
        return Slot(tests.value, most.value)

    def assignment(self, station: int) -> List[Assigned]:
        """For each other board, by ascending distance: whether the live board `station` tests at it, or who is ahead. On the cube."""
        self._want_cube('assignment')
        answers, count = _library.buffer(2 * max(self._size - 1, 0)), c_size_t()
        checked(library.vcube_assignment(self._size, self._table, len(self._table), station, answers, len(answers), byref(count)))
        pairs = zip(answers[::2], answers[1::2])
        return [Assigned(distance, who == ASSIGNMENT_DUE, None if who == ASSIGNMENT_DUE else who) for distance, who in pairs]

    def _want_cube(self, call: str) -> None:
        if self._wiring != Wiring.CUBE:
            raise ValueError(f'{call} is for plants that are wired as the cube')

    def _check(self) -> None:
        """Raises Refused for a table that is not valid."""
        self.doubt_lamp()

    def _line(self, station: int) -> Array[c_uint8]:
        """The line itself, no copy. Of a board that is not there it is empty, and the library refuses the number."""
        self._check()
        length = self._size + HEAD
        return (c_uint8 * length).from_buffer(self._table, station * length) if 0 <= station < self._size else _library.buffer(0)

    def _column(self, column: int) -> List[int]:
        return self._table[column::self._size + HEAD]

    def statuses(self) -> List[Status]:
        """The status of each board."""
        self._check()
        return [Status(byte) for byte in self._column(0)]

    def live(self) -> List[int]:
        """The numbers of the live boards."""
        return [station for station, status in enumerate(self.statuses()) if status == Status.LIVE]

    def dead(self) -> List[int]:
        """The numbers of the boards that are not live."""
        return [station for station, status in enumerate(self.statuses()) if status != Status.LIVE]

    def told_by(self) -> List[Optional[int]]:
        """Of each board, who told it to leave: None if nobody did, `TOLD_NOT_RECORDED` if it was not recorded."""
        self._check()
        return [named(byte) for byte in self._column(4)]

    def rounds_ago(self) -> List[Optional[int]]:
        """Of each board, how many rounds were closed since it stopped being live; 255 is 255 or more. None of a live one."""
        return [byte if status != Status.LIVE else None for status, byte in zip(self.statuses(), self._column(5))]

    def suspects(self, station: int, other: int) -> bool:
        """Whether board `station` suspects board `other`."""
        if not 0 <= operator.index(other) < self._size:
            raise Refused(9)
        start, length = c_size_t(), c_size_t()
        checked(library.vcube_row(*self._arguments(), station, byref(start), byref(length)))
        return self._table[start.value + other] == 1

    def suspicions(self) -> List[List[bool]]:
        """Whether each board suspects each board: a list for each board."""
        self._check()
        rows, length = bytes(self._table), self._size + HEAD
        return [[byte == 1 for byte in rows[begin + HEAD:begin + length]] for begin in range(0, len(rows), length)]

    def array(self) -> numpy.ndarray:
        """The table as a numpy array of bytes, a copy: a line for each board, `array[:, 6:]` whom each suspects. Needs numpy."""
        self._check()
        return numpy_of('array').frombuffer(self.table, dtype='uint8').reshape(self._size, self._size + HEAD).copy()

    def suspicions_array(self) -> numpy.ndarray:
        """What `suspicions` gives, as a numpy array of booleans. Needs numpy."""
        return self.array()[:, HEAD:] == 1


def numpy_of(call: str) -> Any:
    try:
        import numpy
    except ImportError:
        raise ImportError(f'vcube: {call} gives a numpy array, and numpy is not installed') from None
    return numpy


def saved_size(saved: bytes) -> int:
    """How many boards a saved plant has."""
    given, size = _library.copied(saved), c_size_t()
    checked(library.vcube_saved_size(given, len(given), byref(size)))
    return size.value


def convert(old: bytes) -> bytes:
    """The saved plant of a file of edition 1, for `Plant.load`."""
    given, length = _library.copied(old), c_size_t()
    checked(library.vcube_converted_length(given, len(given), byref(length)))
    saved = _library.buffer(length.value)
    checked(library.vcube_convert(given, len(given), saved, len(saved)))
    return bytes(saved)


def group_list(size: int, station: int, level: int) -> List[int]:
    """The group of a board at a level, on the cube."""
    half = 1 << (level - 1) if 1 <= level <= 6 else 0
    first = (station ^ half) & ~(half - 1) if half else 0
    members = _library.buffer(max(0, min(half, size - first)))
    checked(library.vcube_group_list(size, station, level, members, len(members)))
    return list(members)


def one_dead(size: int, wiring: int = Wiring.CUBE) -> Optional[OneDead]:
    """After how many rounds and grants of a bus master at most every live board suspects the one that died, and nobody else.

    When that holds: RULES, One dead board. None where nothing is proved: for 2 or 3 boards, and on the cube if `size` is not a power of two.

    >>> one_dead(8), one_dead(9)
    (OneDead(rounds=2, grants=34), None)
    >>> one_dead(9, Wiring.RING)
    OneDead(rounds=3, grants=37)
    """
    rounds, grants = c_size_t(), c_size_t()
    checked(library.vcube_one_dead(wiring, size, byref(rounds), byref(grants)))
    return OneDead(rounds.value, grants.value) if rounds.value else None
