"""Exact figures of a test bench's results, and inputs of the run program."""

from __future__ import annotations

import fractions
import operator
from ctypes import Array, byref, c_size_t, c_uint16
from dataclasses import dataclass
from typing import Iterable, List, NamedTuple, Optional, Union

from . import _library
from ._library import library
from .codes import Kind, checked
from .plant import Entry


@dataclass(frozen=True)
class Figures:
    """Figures of results. The variance is the mean of the squared deviations: it is divided by the count, not by one less."""

    count: int
    least: int
    greatest: int
    mean: fractions.Fraction
    variance: fractions.Fraction


@dataclass(frozen=True)
class Totals:
    """Totals of results, kept in place of them and joined with those of further ones."""

    count: int = 0
    sum: int = 0
    squares: int = 0
    least: int = 0
    greatest: int = 0

    @classmethod
    def of(cls, results: Iterable[int]) -> Totals:
        """The totals of at most 4096 results, each 0 to 65535."""
        given, totals = numbers(results), _library.Totals()
        checked(library.vcube_totals_of_list(given, len(given), byref(totals)))
        return _totals(totals)

    def join(self, other: Totals) -> Totals:
        """The totals of the results of both."""
        joined = _library.Totals()
        checked(library.vcube_join_totals(byref(self._raw()), byref(other._raw()), byref(joined)))
        return _totals(joined)

    def figures(self) -> Figures:
        """The figures of the results that these are the totals of."""
        made = _library.Figures()
        checked(library.vcube_figures_of_totals(byref(self._raw()), byref(made)))
        return _figures(made)

    def _raw(self) -> _library.Totals:
        fields = (self.count, self.sum, self.squares, self.least, self.greatest)
        if not all(0 <= operator.index(number) <= _library.MOST for number in fields):
            raise ValueError(f'a total is 0 to {_library.MOST}: {self}')
        return _library.Totals(*fields)


def figures(results: Iterable[int], more: Iterable[int] = ()) -> Figures:
    """The figures of at most 4096 results, each 0 to 65535, of one list or of two together.

    >>> figures([2, 4, 4, 4])
    Figures(count=4, least=2, greatest=4, mean=Fraction(7, 2), variance=Fraction(3, 4))
    """
    first, second, made = numbers(results), numbers(more), _library.Figures()
    if second:
        checked(library.vcube_figures_of_two_lists(first, len(first), second, len(second), byref(made)))
    else:
        checked(library.vcube_figures_of_list(first, len(first), byref(made)))
    return _figures(made)


def numbers(results: Iterable[int]) -> Array[c_uint16]:
    whole = [operator.index(result) for result in results]
    for result in whole:
        if not 0 <= result <= 65535:
            raise ValueError(f'a result is 0 to 65535, not {result}')
    return (c_uint16 * len(whole))(*whole)


def _totals(raw: _library.Totals) -> Totals:
    return Totals(raw.count, raw.sum, raw.squares, raw.least, raw.greatest)


def _figures(raw: _library.Figures) -> Figures:
    mean, variance = (fractions.Fraction(it.upper, it.lower) for it in (raw.mean, raw.variance))
    return Figures(raw.count, raw.least, raw.greatest, mean, variance)


class Unread(NamedTuple):
    """The first line of an input that cannot be read, from 1, and what is wrong in it."""

    line: int
    words: str


class Input(NamedTuple):
    """What an input of the run program says: the size, the entries, and the first line that cannot be read, or None."""

    size: int
    entries: List[Entry]
    unread: Optional[Unread]


def read_input(text: Union[str, bytes]) -> Input:
    """Reads an input of the run program vcube-watch, as far as it can be read.

    >>> read_input('4\\nT 0\\nC 3\\n').entries
    [Entry(kind=<Kind.TURN: 1>, station=0), Entry(kind=<Kind.CRASH: 3>, station=3)]
    """
    given = _library.copied(text.encode() if isinstance(text, str) else text)
    read, said = _library.buffer(_library.SCHEDULE_LENGTH), _library.buffer(_library.WORDS_LENGTH)
    size, entries, line = c_size_t(), c_size_t(), c_size_t()
    checked(library.vcube_read_input(given, len(given), read, len(read), said, len(said), byref(size), byref(entries), byref(line)))
    pairs = [Entry(Kind(read[2 * k]), read[2 * k + 1]) for k in range(entries.value)]
    words = bytes(said).partition(b'\0')[0].decode('ascii')
    return Input(size.value, pairs, Unread(line.value, words) if line.value else None)
