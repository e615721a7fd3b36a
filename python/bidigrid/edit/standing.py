"""Where one stands in the text, and which of its rows are on the screen: found anew when that is looked for."""

from __future__ import annotations

from collections.abc import Sequence
from typing import NamedTuple

from .. import Document, Identifier, Position, Row
from . import carets, moves
from .desk import Desk


class Stand(NamedTuple):
    """Where one stood: between which characters, and at which edge."""

    between: carets.Between
    at: Position


class Standing:
    """A caret that stays at its character. `shown` are the rows on the screen, and `line` is that of the caret among them, so
    that no rows of the text are counted. To lay a long paragraph out takes long, so what is typed doesn't wait for that."""

    def __init__(self, desk: Desk, height: int) -> None:
        self.desk = desk
        self.height = height
        self.line = 0
        self.shown: tuple[Row, ...] = ()
        self.top: Identifier | None = None  # what the first row that is shown begins behind
        self.is_stale = self.is_typed = False
        self.stand(self.document.position_at(0))
        self.scroll(self.rows())

    @property
    def document(self) -> Document:
        """The desk's document, which is another one after F3."""
        return self.desk.document

    @property
    def at(self) -> Position:
        """Where one stands."""
        self.settle()
        return self.found

    def place(self) -> int:
        """The place where one types, which needs no layout."""
        return carets.place_behind(self.document, self.desk.caret) or 0

    def stand(self, at: Position) -> None:
        """Stands at a position, behind a character that it stays with."""
        self.found, self.is_typed = at, False
        self.stay(at.place)

    def stand_behind(self, place: int) -> None:
        """Stands where something was typed or erased, wherever that is seen."""
        self.is_stale = self.is_typed = True
        self.stay(place)

    def stay(self, place: int) -> None:
        """Stays with the character before a place."""
        self.between = carets.between(self.document, place)
        self.desk.caret = self.between[0]

    def standing(self) -> Stand:
        """Where one stands now."""
        return Stand(between=self.between, at=self.at)

    def stand_again(self, stood: Stand) -> None:
        """Stands there again, at the same edge."""
        self.between, self.found = stood
        self.desk.caret = self.between[0]
        self.is_stale, self.is_typed = True, False

    def settle(self) -> None:
        """Finds the caret, at its character and at its edge, and has it on the screen, after the text has changed."""
        if not self.is_stale:
            return
        rows, place = self.rows(), self.place()
        self.found = moves.behind(self.document, place, rows) if self.is_typed else self.followed(place, rows)
        self.is_stale = self.is_typed = False
        self.scroll(rows)

    def followed(self, place: int, rows: Sequence[Row]) -> Position:
        """The same gap of the same row, if that is still one of the place; else where the place is seen."""
        row = self.found.row + place - self.found.place
        there = next((it for it in rows if it.first_place == row), None)
        if not there and 0 <= row <= len(self.document):
            there = self.document.rows(row, 0, 0)[0]
        if there and there.first_place == row and place in carets.places_of_gap(there, self.found.gap):
            return Position(row, self.found.gap, place)
        return self.document.position_at(place)

    def rows(self) -> Sequence[Row]:
        """The rows on the screen, if it begins where it began."""
        return self.document.rows(carets.place_behind(self.document, self.top) or 0, 0, self.height - 1)

    def scroll(self, rows: Sequence[Row]) -> None:
        """Shows these rows, if the caret is seen there; else others, with it at the edge that it went over. No room stays empty
        below while there are rows above."""
        row = self.found.row
        if len(rows) < self.height and rows[0].first_place:
            rows = self.document.rows(rows[-1].first_place, self.height - 1, 0)
        line = next((line for line, it in enumerate(rows) if it.first_place == row), None)
        if line is None:
            above = 0 if row < rows[0].first_place else self.height - 1
            rows = window = self.document.rows(row, above, self.height - 1 - above)
            line = window.number
        if rows is not self.shown:
            self.shown = tuple(rows)
            self.top = carets.before(self.document, rows[0].first_place)
        self.line = line
