"""A board's own half: what a board keeps by itself, its line of the table and nothing else."""

from __future__ import annotations

import operator
from ctypes import Array, byref, c_size_t, c_uint8
from typing import List, Optional, Tuple

from . import _library
from ._library import library
from .codes import HEAD, Outcome, Status, Wiring, checked
from .plant import named


class Board:
    """Board `number` of a plant of `size`, fresh. What to call when is in docs/BOARDS.md, "One turn".

    Rows that boards send each other are bytes, a bit for each board.

    >>> zero, two = Board(4, 0, Wiring.RING), Board(4, 2, Wiring.RING)
    >>> zero.not_replied()
    <Outcome.NO_REPLY: 3>
    >>> zero.next()
    2
    >>> zero.replied(two.row())
    <Outcome.EXCHANGED: 1>
    >>> two.exchanged(0, zero.row())
    >>> two.suspects()
    [1]
    """

    def __init__(self, size: int, number: int, wiring: int = Wiring.CUBE) -> None:
        self._line = _library.buffer(size + HEAD if 2 <= size <= 64 else 0)
        checked(library.vcube_board_fresh(wiring, size, number, self._line, len(self._line)))
        self._size, self._number, self._wiring = operator.index(size), operator.index(number), Wiring(wiring)

    @classmethod
    def from_line(cls, size: int, number: int, line: bytes, wiring: int = Wiring.CUBE) -> Board:
        """A board that goes on with the line that it had."""
        board = cls(size, number, wiring)
        board._line = _library.copied(line)
        packed = _library.buffer((size + 7) // 8)
        refusal = library.vcube_board_row(*board._arguments(), packed, len(packed))
        if refusal != 10:  # a board that is not live has a valid line, too
            checked(refusal)
        return board

    def __repr__(self) -> str:
        return f'<vcube.Board {self._number} of {self._size}, {self._wiring.name.lower()}: {self.status.words}>'

    def _arguments(self) -> Tuple[int, int, int, Array[c_uint8], int]:
        return self._wiring, self._size, self._number, self._line, len(self._line)

    @property
    def size(self) -> int:
        return self._size

    @property
    def number(self) -> int:
        return self._number

    @property
    def wiring(self) -> Wiring:
        return self._wiring

    @property
    def line(self) -> bytes:
        """The line's bytes, a copy."""
        return bytes(self._line)

    @property
    def status(self) -> Status:
        return Status(self._line[0])

    @property
    def told_by(self) -> Optional[int]:
        """Who told it to leave: None if nobody did."""
        return named(self._line[4])

    @property
    def rounds_ago(self) -> Optional[int]:
        """How many rounds were closed since it stopped being live; 255 is 255 or more. None while it is live."""
        return None if self.status == Status.LIVE else self._line[5]

    def suspects(self) -> List[int]:
        """The numbers of the boards that it suspects."""
        return [k for k, byte in enumerate(self._line[HEAD:]) if byte == 1]

    def next(self) -> Optional[int]:
        """The board that the next turn tests; None where the turn finishes the pass."""
        tested = c_size_t()
        checked(library.vcube_board_next(*self._arguments(), byref(tested)))
        return named(tested.value)

    def row(self) -> bytes:
        """Its row, as it sends it in a reply or an exchange."""
        packed = _library.buffer((self._size + 7) // 8)
        checked(library.vcube_board_row(*self._arguments(), packed, len(packed)))
        return bytes(packed)

    def replied(self, row: bytes) -> Outcome:
        """Takes the turn, the tested board having replied in time with this row."""
        packed, outcome = _library.copied(row), c_size_t()
        checked(library.vcube_board_replied(*self._arguments(), packed, len(packed), byref(outcome)))
        return Outcome(outcome.value)

    def not_replied(self) -> Outcome:
        """Takes the turn without a reply in time, or finishes the pass where there is none to test."""
        outcome = c_size_t()
        checked(library.vcube_board_not_replied(*self._arguments(), byref(outcome)))
        return Outcome(outcome.value)

    def told(self, by: int) -> None:
        """The board leaves, told by the board `by`, which tested it."""
        checked(library.vcube_board_told(*self._arguments(), by))

    def exchanged(self, by: int, row: bytes) -> None:
        """The board joins into its row that of the board `by`, which tested it."""
        packed = _library.copied(row)
        checked(library.vcube_board_exchanged(*self._arguments(), by, packed, len(packed)))

    def round_closed(self) -> None:
        """Closes the round in the board's line."""
        checked(library.vcube_board_round_closed(*self._arguments()))
