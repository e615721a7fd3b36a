"""Rows of cells, and the clusters in them."""

from struct import iter_unpack
from typing import Any, NamedTuple

from ._bidigrid import ffi, lib
from .fault import fault, must
from .room import Call, Room, written


class Entry(NamedTuple):
    """A cluster, as a letter with its marks, where it is seen.

    first_place, end_place: its code points in the text, the second left out.
    column: of its first cell, from 0.
    columns: how many cells it takes, 0 to 2.
    level: of UAX #9; odd where it is read from right to left.
    shown: the characters in its cells, mirrored where the level is odd, as ( for ); "" where it takes no cell, and spaces
        for a tab.
    """

    first_place: int
    end_place: int
    column: int
    columns: int
    level: int
    shown: str


class Row:
    """A row of cells; `str(row)` has its cells from left to right, as they are to be shown.

    first_place, last_place: its code points in the text, the second left out; a line feed is among them.
    column: where its entries begin.
    level: of its paragraph, 0 from left to right, 1 from right to left.
    """

    __slots__ = ("first_place", "last_place", "column", "level", "_cells", "_packed", "_entries")

    def __init__(
        self, first_place: int, last_place: int, column: int, level: int, cells: str, packed: bytes
    ) -> None:
        self.first_place = first_place
        self.last_place = last_place
        self.column = column
        self.level = level
        self._cells = cells
        self._packed = packed
        self._entries: tuple[Entry, ...] | None = None

    @property
    def entries(self) -> tuple[Entry, ...]:
        """Its clusters from left to right, the visual order."""
        if self._entries is None:
            self._entries = tuple(self._unpacked())
        return self._entries

    def column_of(self, gap: int) -> int:
        """The column where a caret in this gap is seen: that of the entry right of it, or where the last one ends, which may
        be behind the row's last cell. An IndexError where there is no such gap."""
        entries = self.entries
        if not 0 <= gap <= len(entries):
            raise fault(lib.BIDIGRID_FAULT_BAD_CARET)
        if gap < len(entries):
            return entries[gap].column
        return entries[-1].column + entries[-1].columns if entries else self.column

    def _unpacked(self) -> list[Entry]:
        at, made = self.column, []
        for _, _, first, end, column, level, columns in iter_unpack("=7I", self._packed):
            after = at + (end - first if columns else 0)
            made.append(Entry(first, end, column, columns, level, self._cells[at:after]))
            at = after
        return made

    def __str__(self) -> str:
        return self._cells

    def __repr__(self) -> str:
        return f"<Row of places {self.first_place} to {self.last_place}: {self._cells!r}>"

    def _value(self) -> tuple[int, int, int, int, str, bytes]:
        return self.first_place, self.last_place, self.column, self.level, self._cells, self._packed

    def __eq__(self, other: object) -> bool:
        if not isinstance(other, Row):
            return NotImplemented
        return self._value() == other._value()

    def __hash__(self) -> int:
        return hash(self._value())


Calls = tuple[Call, Call, Call]
"""The calls that give the places of a row, its entries, and the cells of all rows."""


def rows_of(handle: Any, count: int, width: int, calls: Calls) -> list[Row]:
    """The rows of a picture, or of what a document shows."""
    tell_row, tell_entries, tell_cells = calls
    cells = written(tell_cells, "char", count * (2 * width + 1), handle)[:-1].decode("utf-8")
    row, entries, made = ffi.new("bidigrid_row *"), Room("bidigrid_entry", width), []
    for number, shown in enumerate(cells.split("\n")):
        must(tell_row(handle, number, row))
        packed = entries.written(tell_entries, handle, number)
        made.append(Row(row.first_place, row.last_place, row.column, row.level, shown, packed))
    return made
