"""What is shown of a document: some rows of its text."""

from collections.abc import Sequence
from typing import Any, overload

from ._bidigrid import ffi, lib
from .fault import must
from .row import Row, rows_of

_CALLS = (lib.bidigrid_document_row, lib.bidigrid_document_entries, lib.bidigrid_document_print)


class Window(Sequence[Row]):
    """Rows of a document, from the top. It stays as it is when the document changes. `str(window)` has its rows, one a
    line.

    number: which of its rows, from 0, is that of the place which was asked for.
    """

    __slots__ = ("_rows", "number")

    def __init__(self, rows: Sequence[Row], number: int) -> None:
        self._rows = tuple(rows)
        self.number = number

    @overload
    def __getitem__(self, which: int) -> Row: ...

    @overload
    def __getitem__(self, which: slice) -> Sequence[Row]: ...

    def __getitem__(self, which: int | slice) -> Row | Sequence[Row]:
        return self._rows[which]

    def __len__(self) -> int:
        return len(self._rows)

    def __str__(self) -> str:
        return "\n".join(map(str, self._rows))

    def __repr__(self) -> str:
        return f"<Window of {len(self)} rows>"

    def __eq__(self, other: object) -> bool:
        if not isinstance(other, Window):
            return NotImplemented
        return self._rows == other._rows and self.number == other.number

    def __hash__(self) -> int:
        return hash((self._rows, self.number))


def shown(handle: Any, width: int, *around: int) -> Window:
    """The rows of a document round a place."""
    window = ffi.new("bidigrid_window *")
    must(lib.bidigrid_document_show(handle, *around, window))
    return Window(rows_of(handle, window.rows, width, _CALLS), window.number)
