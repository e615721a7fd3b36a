"""A text laid out in rows of cells, and a caret that walks through them."""

from typing import Any, NamedTuple

from . import given
from ._bidigrid import ffi, lib
from .fault import must
from .given import Base
from .room import Call, written
from .row import Row, rows_of
from .thread import Held, here

_CALLS = (lib.bidigrid_picture_row, lib.bidigrid_picture_entries, lib.bidigrid_picture_print)


class Caret(NamedTuple):
    """Where a caret stands in a picture.

    row: from the top, from 0.
    gap: gap g is left of entry g of the row, at its column; the last gap is right of the last entry, which may be at the
        width, and in a row without entries at the row's column.
    place: where in the text the next character goes, in code points. A gap where two directions meet has two; a caret that
        went right or left has the one beside the entry that it passed.
    """

    row: int
    gap: int
    place: int


class Picture(Held):
    """A text laid out in rows of cells: `layout` makes one. `str(picture)` has its rows, one a line.

    It belongs to the thread that made it. Its rows and carets are values that stay when it is closed.
    """

    _unpickled = "a Picture can't be pickled or copied: the library holds it; its text, rows and str() can"

    def __init__(self, text: str, width: int, base: Base = "auto", wide_ambiguous: bool = False) -> None:
        characters = given.characters(text)
        home = here()
        made, tables = ffi.new("bidigrid_picture *"), home.tables(wide_ambiguous)
        self._hold(home, made, lib.bidigrid_picture_free)
        how = (tables, given.small(width), given.base(base), characters, len(characters))
        must(lib.bidigrid_picture_new(made, *how))
        self._width = int(width)
        self._text = text
        self._rows: tuple[Row, ...] | None = None

    @property
    def text(self) -> str:
        """The text that is laid out."""
        return self._text

    @property
    def width(self) -> int:
        """How many columns each row has."""
        return self._width

    @property
    def rows(self) -> tuple[Row, ...]:
        """The rows from the top, at least one."""
        if self._rows is None:
            handle = self._full()
            self._rows = tuple(rows_of(handle, self._count(handle), self._width, _CALLS))
        return self._rows

    def _count(self, handle: Any) -> int:
        rows = ffi.new("size_t *")
        must(lib.bidigrid_picture_rows(handle, rows))
        return int(rows[0])

    def __str__(self) -> str:
        handle = self._full()
        guess = self._count(handle) * (self._width + 1) + 4 * len(self._text)
        return written(lib.bidigrid_picture_print, "char", guess, handle)[:-1].decode("utf-8")

    def __repr__(self) -> str:
        return f"<Picture of {len(self._text)} code points, {self._width} columns wide>"

    def caret_at(self, place: int) -> Caret:
        """The caret at a place of the text, 0 to its length; within a cluster, at the cluster's first place. An
        IndexError where there is no such place."""
        return self._caret(lib.bidigrid_caret_at, given.count(place))

    def caret_under(self, row: int, column: int) -> Caret:
        """The caret where a mouse points: in this row, the last gap that isn't right of the column; gap 0 where all are.
        An IndexError where there is no such row."""
        return self._caret(lib.bidigrid_caret_under, given.count(row), given.count(column))

    def right(self, caret: Caret) -> Caret:
        """One step to the right as the eye sees it; the same caret at an end of the text. Its row and gap decide; an
        IndexError where there are none such, as for the other moves."""
        return self._moved(lib.bidigrid_caret_right, caret)

    def left(self, caret: Caret) -> Caret:
        """One step to the left."""
        return self._moved(lib.bidigrid_caret_left, caret)

    def up(self, caret: Caret) -> Caret:
        """To the row above, as near to the column as may be; the same caret in the first row."""
        return self._moved(lib.bidigrid_caret_up, caret)

    def down(self, caret: Caret) -> Caret:
        """To the row below; the same caret in the last row."""
        return self._moved(lib.bidigrid_caret_down, caret)

    def _caret(self, call: Call, *numbers: int) -> Caret:
        handle = self._full()
        out = ffi.new("bidigrid_caret *")
        must(call(handle, *numbers, out))
        return Caret(out.row, out.gap, out.place)

    def _moved(self, call: Call, caret: Caret) -> Caret:
        handle = self._full()
        row, gap, place = caret
        out = ffi.new("bidigrid_caret *", (given.count(row), given.count(gap), given.count(place)))
        must(call(handle, out))
        return Caret(out.row, out.gap, out.place)


def layout(text: str, width: int, base: Base = "auto", wide_ambiguous: bool = False) -> Picture:
    """Lays a text out in rows of cells.

    text: at most 4,000,000 bytes in UTF-8; a ValueError where it is longer or has a lone surrogate.
    width: how many columns a row has, 2 to 500; else a ValueError.
    base: the direction of each paragraph: "left" (from left to right), "right" (from right to left), or "auto", by its
        first strong letter.
    wide_ambiguous: whether characters of ambiguous width take two cells.

    >>> print(layout("tea (2), תה (2)", 15))
    tea (2), (2) הת
    """
    return Picture(text, width, base, wide_ambiguous)
