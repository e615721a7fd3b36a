"""A caret in a document, without the numbers of its rows: they are named by their first places."""

from typing import NamedTuple

from . import given
from ._bidigrid import ffi, lib
from .fault import fault, must
from .room import Call
from .thread import Held


class Position(NamedTuple):
    """Where a caret stands in a document.

    row: the first place of its row, by which `Document.rows` shows it: its place may be in the next row.
    gap: as of a `Caret`.
    place: where in the text the next character goes, in code points.
    """

    row: int
    gap: int
    place: int


class Positions(Held):
    """A text in which a caret walks. Its moves are those of a picture of the whole text (`Picture.right`, ..)."""

    def position_at(self, place: int) -> Position:
        """The position of a caret at a place, 0 to the text's length; within a cluster, at the cluster's first place. An
        IndexError where there is no such place."""
        return self._position(lib.bidigrid_position_at, given.count(place))

    def position_in(self, row: int, column: int) -> Position:
        """The position where a mouse points: in the row that begins at the place `row`, the last gap that isn't right of
        the column; gap 0 where all are. An IndexError where no row begins there."""
        at = self._position(lib.bidigrid_position_under, given.count(row), given.count(column))
        if at.row != row:
            raise fault(lib.BIDIGRID_FAULT_BAD_ROW)
        return at

    def right(self, at: Position) -> Position:
        """One step to the right as the eye sees it; the same position at an end of the text. Its row and gap decide; an
        IndexError where there are none such, as for the other moves."""
        return self._moved(lib.bidigrid_position_right, at)

    def left(self, at: Position) -> Position:
        """One step to the left."""
        return self._moved(lib.bidigrid_position_left, at)

    def up(self, at: Position) -> Position:
        """To the row above, as near to the column as may be; the same position in the first row."""
        return self._moved(lib.bidigrid_position_up, at)

    def down(self, at: Position) -> Position:
        """To the row below; the same position in the last row."""
        return self._moved(lib.bidigrid_position_down, at)

    def _position(self, call: Call, *numbers: int) -> Position:
        handle = self._full()
        out = ffi.new("bidigrid_position *")
        must(call(handle, *numbers, out))
        return Position(out.row, out.gap, out.place)

    def _moved(self, call: Call, at: Position) -> Position:
        handle = self._full()
        row, gap, place = at
        out = ffi.new("bidigrid_position *", (given.count(row), given.count(gap), given.count(place)))
        must(call(handle, out))
        return Position(out.row, out.gap, out.place)
