"""Places that stay at their character while others write, and where carets are seen in a row."""

from __future__ import annotations

from collections.abc import Sequence

from .. import Document, Fault, Identifier, Row

Between = tuple[Identifier | None, Identifier | None]
"""The characters before a place and behind it."""


def is_seen(document: Document, identifier: Identifier, place: int) -> bool:
    """Whether the character stands at this place, where it was erased none does."""
    return place < len(document) and document.id_at(place) == identifier


def place_behind(document: Document, before: Identifier | None) -> int | None:
    """The place behind a character, or where it stood; the front for none, and nothing where it isn't there yet."""
    if before is None:
        return 0
    try:
        place = document.place_of(before)
    except (Fault, ValueError, OverflowError):
        return None
    return place + is_seen(document, before, place)


def before(document: Document, place: int) -> Identifier | None:
    """The character that a place stands behind; none at the front."""
    return document.id_at(place - 1) if place else None


def character_at(document: Document, place: int) -> Identifier | None:
    """The character that a place stands before; none at the text's end."""
    return document.id_at(place) if place < len(document) else None


def between(document: Document, place: int) -> Between:
    """The characters before a place and behind it; none at an end of the text."""
    return before(document, place), character_at(document, place)


def places_of_gap(row: Row, gap: int) -> set[int]:
    """The places that a gap of a row may mean: that of the character left of it, and that of the one right of it."""
    found = set() if row.entries else {row.first_place}
    if 0 < gap <= len(row.entries):
        left = row.entries[gap - 1]
        found.add(left.first_place if left.level % 2 else left.end_place)
    if gap < len(row.entries):
        right = row.entries[gap]
        found.add(right.end_place if right.level % 2 else right.first_place)
    return found


def column_of_place(row: Row, place: int) -> int | None:
    """The column of the edge before the character at a place of a row, or behind the one before; none if neither."""
    edge = None
    for entry in row.entries:
        left, right = entry.column, entry.column + entry.columns
        if entry.first_place == place:
            return right if entry.level % 2 else left
        if entry.end_place == place:
            edge = left if entry.level % 2 else right
    return edge if row.entries or place != row.first_place else row.column


def row_of_place(rows: Sequence[Row], place: int) -> int | None:
    """Which of some rows has a place, the lower one where two meet."""
    found = None
    for number, row in enumerate(rows):
        if row.first_place <= place <= row.last_place:
            found = number
    return found
