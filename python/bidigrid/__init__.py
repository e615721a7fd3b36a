"""Mixed Hebrew, Arabic and Latin text on a grid of character cells, written by several at once.

    layout(text, width)     a text laid out in rows of cells: what a chat tool or a terminal shows
    Document(site, width)   one copy of a text that several write, and rows of it

Places count code points from 0, as `len` and indices of a str do; rows are counted from the top, columns and entries from
the left. A text with a lone surrogate is refused by a ValueError.

What the library refuses is a Fault, with a number and a name. It is also a MemoryError, an IndexError or a ValueError where
Python has one of these for it. After a fault all is as it was; a message that is refused at one of its operations says how
many of them stay taken.

A Document or a Picture belongs to the thread that made it: another one gets a ThreadFault, and nothing is done.
"""

from ._bidigrid import ffi as _ffi
from ._bidigrid import lib as _lib
from .change import Change, Changes
from .document import Document, Identifier
from .fault import Fault, ThreadFault
from .picture import Caret, Picture, layout
from .position import Position
from .row import Entry, Row
from .window import Window

__all__ = [
    "Caret",
    "Change",
    "Changes",
    "Document",
    "Entry",
    "Fault",
    "Identifier",
    "Picture",
    "Position",
    "Row",
    "ThreadFault",
    "UNICODE_VERSION",
    "Window",
    "layout",
]

__version__: str = _ffi.string(_lib.BIDIGRID_VERSION_STRING).decode("ascii")
UNICODE_VERSION: str = _ffi.string(_lib.BIDIGRID_UNICODE_VERSION).decode("ascii")
"""The version of the Unicode Standard that texts are laid out by."""
