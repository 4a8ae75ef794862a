"""The vCube watch, a failure detector for up to 64 boards on one cable: Python over the proved library libvcube.so.1.

`Plant` is a whole plant, as a test bench keeps it; `Board` is what a board keeps by itself. Errors of the library are raised as `Refused`. All rules
are in docs/RULES.md of the repository, where a board is a station.

The library is loaded from the file that the variable VCUBE_LIBRARY names, else from this folder, else from the system's libraries.
"""

from . import _library
from .board import Board
from .codes import TOLD_NOT_RECORDED, Kind, Outcome, Refusal, Refused, Status, Wiring
from .plant import Assigned, Change, Doubt, Driven, Entry, OneDead, Plant, Slot, Step, Wait, convert, group_list, one_dead, saved_size
from .results import Figures, Input, Totals, Unread, figures, read_input

__all__ = [
    'Assigned', 'Board', 'Change', 'Doubt', 'Driven', 'Entry', 'Figures', 'Input', 'Kind', 'OneDead', 'Outcome', 'Plant', 'Refusal', 'Refused',
    'Slot', 'Status', 'Step', 'TOLD_NOT_RECORDED', 'Totals', 'Unread', 'Wait', 'Wiring', 'convert', 'figures', 'group_list', 'one_dead',
    'read_input', 'saved_size', 'version',
]


def version() -> str:
    """The version of the library that is loaded."""
    number = _library.library.vcube_version()
    return f'{number // 10000}.{number // 100 % 100}.{number % 100}'
