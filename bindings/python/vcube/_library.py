"""Loads libvcube.so.1 and declares its calls as include/vcube.h does. Private: the other modules are what a program uses."""

from __future__ import annotations

import ctypes
import operator
import os
from ctypes import POINTER, Array, c_size_t, c_uint8, c_uint16, c_uint32, c_uint64
from pathlib import Path
from typing import SupportsIndex, Union

NAME = 'libvcube.so.1'
MOST = 2 ** 64 - 1
WORDS_LENGTH = 128
SCHEDULE_LENGTH = 8192


class Size:
    """size_t. Any whole number may be given; one that no size_t holds becomes the greatest, which the library refuses."""

    @classmethod
    def from_param(cls, value: SupportsIndex) -> c_size_t:
        value = operator.index(value)
        return c_size_t(value if 0 <= value <= MOST else MOST)


class Fraction(ctypes.Structure):
    _fields_ = [('upper', c_uint64), ('lower', c_uint64)]


class Figures(ctypes.Structure):
    _fields_ = [('count', c_uint64), ('least', c_uint64), ('greatest', c_uint64), ('mean', Fraction), ('variance', Fraction)]


class Totals(ctypes.Structure):
    _fields_ = [('count', c_uint64), ('sum', c_uint64), ('squares', c_uint64), ('least', c_uint64), ('greatest', c_uint64)]


# A buffer of bytes, or of results, and its length.
BYTES = (POINTER(c_uint8), Size)
RESULTS = (POINTER(c_uint16), Size)
TABLE = (Size, Size, *BYTES)  # wiring, n, table
CUBE_TABLE = (Size, *BYTES)
LINE = (Size, Size, Size, *BYTES)  # wiring, n, board, line
TALLY = (POINTER(c_uint32), POINTER(c_uint32))
NUMBER = POINTER(c_size_t)

# The arguments of each call that returns an error code.
CALLS = {
    'vcube_fresh_table': TABLE,
    'vcube_group_list': (Size, Size, Size, *BYTES),
    'vcube_assignment': (*CUBE_TABLE, Size, *BYTES, NUMBER),
    'vcube_slot': (*CUBE_TABLE, Size, NUMBER, NUMBER),
    'vcube_row': (*TABLE, Size, NUMBER, NUMBER),
    'vcube_run': (*TABLE, *TALLY, *BYTES, *BYTES, NUMBER),
    'vcube_grant': (*TABLE, Size, NUMBER),
    'vcube_drive': (*TABLE, *TALLY, NUMBER, NUMBER),
    'vcube_doubt_lamp': (*TABLE, NUMBER, NUMBER),
    'vcube_wait': (*TABLE, NUMBER, NUMBER, NUMBER, NUMBER),
    'vcube_one_dead': (Size, Size, NUMBER, NUMBER),
    'vcube_mend': (*TABLE, *BYTES, NUMBER),
    'vcube_save': (*CUBE_TABLE, c_uint32, c_uint32, *BYTES),
    'vcube_load': (*BYTES, *BYTES, NUMBER, *TALLY),
    'vcube_saved_size': (*BYTES, NUMBER),
    'vcube_convert': (*BYTES, *BYTES),
    'vcube_converted_length': (*BYTES, NUMBER),
    'vcube_figures_of_list': (*RESULTS, POINTER(Figures)),
    'vcube_figures_of_two_lists': (*RESULTS, *RESULTS, POINTER(Figures)),
    'vcube_totals_of_list': (*RESULTS, POINTER(Totals)),
    'vcube_join_totals': (POINTER(Totals), POINTER(Totals), POINTER(Totals)),
    'vcube_figures_of_totals': (POINTER(Totals), POINTER(Figures)),
    'vcube_refusal_words': (Size, *BYTES),
    'vcube_status_words': (Size, *BYTES),
    'vcube_outcome_words': (Size, *BYTES),
    'vcube_read_input': (*BYTES, *BYTES, *BYTES, NUMBER, NUMBER, NUMBER),
    'vcube_board_fresh': LINE,
    'vcube_board_next': (*LINE, NUMBER),
    'vcube_board_row': (*LINE, *BYTES),
    'vcube_board_replied': (*LINE, *BYTES, NUMBER),
    'vcube_board_not_replied': (*LINE, NUMBER),
    'vcube_board_told': (*LINE, Size),
    'vcube_board_exchanged': (*LINE, Size, *BYTES),
    'vcube_board_round_closed': LINE,
}


def load() -> ctypes.CDLL:
    """The library: the file that VCUBE_LIBRARY names, else libvcube.so.1 in this folder, else the system's."""
    named = os.environ.get('VCUBE_LIBRARY')
    beside = Path(__file__).with_name(NAME)
    path = named or (str(beside) if beside.exists() else NAME)
    try:
        library = ctypes.CDLL(path)
    except OSError as why:
        if named:
            raise ImportError(f'vcube: VCUBE_LIBRARY names no library that can be loaded: {why}') from None
        raise ImportError(f'vcube: the library {NAME} is not found ({why}). It is looked for where VCUBE_LIBRARY names it (not set), as {beside}, '
                          'and among the libraries of the system. `make install` in the clone of vcube installs it below /usr/local; call '
                          'ldconfig after that. Or set VCUBE_LIBRARY to its path.') from None
    try:
        library.vcube_version.argtypes, library.vcube_version.restype = [], c_uint32
        for name, arguments in CALLS.items():
            call = getattr(library, name)
            call.argtypes, call.restype = arguments, c_uint8
    except AttributeError as why:
        raise ImportError(f'vcube: {path} is not the library that this package is for ({why})') from None
    return library


library = load()


def buffer(length: int) -> Array[c_uint8]:
    return (c_uint8 * length)()


def copied(data: Union[bytes, bytearray, memoryview]) -> Array[c_uint8]:
    """A buffer with the bytes of an object that has bytes."""
    data = bytes(memoryview(data))
    return (c_uint8 * len(data)).from_buffer_copy(data)


def words(call: str, number: int) -> str:
    said = buffer(WORDS_LENGTH)
    getattr(library, call)(number, said, len(said))
    return bytes(said).partition(b'\0')[0].decode('ascii')
