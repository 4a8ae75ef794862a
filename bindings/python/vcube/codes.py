"""Numbers with names, as in include/vcube.h; their words come from the library."""

from __future__ import annotations

from enum import IntEnum
from typing import TYPE_CHECKING, List, Optional

from . import _library

if TYPE_CHECKING:
    from .plant import Step

HEAD = 6
NOBODY = 255

#: What `told_by` gives of a board that was told to leave when it was not recorded by whom.
TOLD_NOT_RECORDED = 254


class Wiring(IntEnum):
    """How a plant is wired."""

    CUBE = 1
    RING = 2


class Kind(IntEnum):
    """The kind of an entry."""

    TURN = 1
    LATE_TURN = 2
    CRASH = 3


class Worded(IntEnum):
    """A number that the library has words for."""

    @property
    def words(self) -> str:
        return _library.words(f'vcube_{type(self).__name__.lower()}_words', self)


class Status(Worded):
    """The status of a board. `words` says it to people."""

    LIVE = 0
    CRASHED = 1
    TOLD = 2
    ALONE = 3


class Outcome(Worded):
    """What came of an entry. `words` says it to people."""

    PASS_FINISHED = 0
    EXCHANGED = 1
    TOLD = 2
    NO_REPLY = 3
    CRASH = 4
    TESTED_TOLD = 5


class Refusal(Worded):
    """The error codes. `words` says it to people."""

    SIZE_OUT_OF_RANGE = 1
    TABLE_LENGTH = 2
    LINE_RULE = 3
    ROUND_NOT_CLOSED = 4
    SCHEDULE_LENGTH = 5
    SHEET_LENGTH = 6
    TALLY_FULL = 7
    UNKNOWN_KIND = 8
    NO_SUCH_STATION = 9
    NOT_LIVE = 10
    PASS_FINISHED = 11
    NO_SUCH_LEVEL = 12
    LIST_LENGTH = 13
    NO_RESULT = 14
    TOO_MANY_RESULTS = 15
    LAST_GRANTED = 16
    NONE_LIVE = 17
    FIELD_PAST_END = 18
    SIZE_OR_TALLY_FIELD = 19
    LINE_FIELD = 20
    NO_OPENING = 21
    FIELD_ORDER = 22
    REPORT_TOO_SHORT = 23
    NO_SUCH_WIRING = 24
    LINE_LENGTH = 25


class Refused(ValueError):
    """The library refused a call.

    `refusal` is the error code with its name, `number` the plain number and `words` what the library says of it. Of a run that stops at an entry,
    `taken` has what came of the entries before it; of a drive that stops, `grants` is how many grants were made. That work is kept in the plant. Any
    other refused call changes nothing.
    """

    def __init__(self, number: int) -> None:
        self.refusal = Refusal(number)
        self.number = int(number)
        self.words = self.refusal.words
        self.taken: List[Step] = []
        self.grants: Optional[int] = None
        super().__init__(f'{self.number}: {self.words}')


def checked(number: int) -> None:
    """Raises Refused for an error code other than 0."""
    if number:
        raise Refused(number)
