"""Steps of a caret, as the eye sees them: over what takes no column, word by word, and to the edges of a row."""

from __future__ import annotations

from collections.abc import Callable, Iterable

from .. import Document, Position, Row

Move = Callable[[Position], Position]
VERTICAL = ("up", "down", "page-up", "page-down")


def moved(document: Document, at: Position, name: str, height: int, column: int) -> Position | None:
    """Where a key leads that moves the caret, on a screen so high, up and down as near to a column as may be; nothing for
    another key."""
    match name:
        case "left" | "right":
            return step(document, at, document.left if name == "left" else document.right)
        case "ctrl-left" | "ctrl-right":
            is_left = name == "ctrl-left"
            return word(document, at, document.left if is_left else document.right, is_left)
        case "up" | "down" | "page-up" | "page-down":
            rows = 1 if name in ("up", "down") else max(1, height - 1)
            return vertical(document, at, -rows if name.endswith("up") else rows, column)
        case "home" | "end":
            return edge(document, at, name == "home")
        case "ctrl-home" | "ctrl-end":
            return document.position_at(0 if name == "ctrl-home" else len(document))
    return None


def row_of(document: Document, at: Position) -> Row:
    """The row of a position."""
    return document.rows(at.row, 0, 0)[0]


def column_of(document: Document, at: Position) -> int:
    """The column where a position is seen."""
    return row_of(document, at).column_of(at.gap)


def step(document: Document, at: Position, move: Move) -> Position:
    """One step that can be seen: on over what takes no column, as a line feed."""
    row, column = at.row, column_of(document, at)
    while (last := at) != (at := move(last)):
        if at.row != row or column_of(document, at) != column:
            break
    return at


def word(document: Document, at: Position, move: Move, is_left: bool) -> Position:
    """To the end of the next word in a direction, or over the edge of the row: rows of both directions lead to and fro."""
    entries = row_of(document, at).entries
    has_word = False
    while True:
        gap = at.gap - is_left
        crossed = entries[gap].shown if 0 <= gap < len(entries) else ""
        is_word = any(character.isalnum() for character in crossed)
        if has_word and not is_word:
            return at
        has_word = has_word or is_word
        last, at = at, move(at)
        if at == last or at.row != last.row:
            return at


def vertical(document: Document, at: Position, rows: int, column: int) -> Position:
    """So many rows down, or up where it is negative, as near to a column as there is a gap."""
    window = document.rows(at.row, max(0, -rows), max(0, rows))
    row = window[len(window) - 1 if rows > 0 else 0]
    return off_the_end(document.position_in(row.first_place, column), row)


def edge(document: Document, at: Position, is_front: bool) -> Position:
    """The beginning of the row, or its end, as it is read."""
    row = row_of(document, at)
    gap = 0 if is_front == (row.level % 2 == 0) else len(row.entries)
    if is_front:
        return Position(row.first_place, gap, row.first_place)
    return off_the_end(Position(row.first_place, gap, row.last_place), row)


def off_the_end(at: Position, row: Row) -> Position:
    """A position before a line feed where it is one behind it, since there the next row begins."""
    for gap, entry in enumerate(row.entries):
        if entry.end_place == at.place == row.last_place and not entry.columns:
            return Position(row.first_place, gap + entry.level % 2, entry.first_place)
    return at


def behind(document: Document, place: int, rows: Iterable[Row] = ()) -> Position:
    """A place at the edge of the character before it, where its writer looks; at the front of a row where none is seen. Its
    row may be among these."""
    if place:
        row = next((it for it in rows if it.first_place < place <= it.last_place), None)
        row = row or document.rows(place - 1, 0, 0)[0]
        for gap, entry in enumerate(row.entries):
            if entry.end_place == place and entry.columns:
                return Position(row.first_place, gap + 1 - entry.level % 2, place)
    return document.position_at(place)


def cluster_before(document: Document, place: int) -> int:
    """Where the cluster begins that ends at a place, or in which the place lies; the front where there is none."""
    if not place:
        return 0
    entries = document.rows(place - 1, 0, 0)[0].entries
    return next((it.first_place for it in entries if it.first_place < place <= it.end_place), place - 1)


def cluster_behind(document: Document, place: int) -> int:
    """Where the cluster ends that begins at a place; the text's end where there is none."""
    if place == len(document):
        return place
    entries = document.rows(place, 0, 0)[0].entries
    return next((it.end_place for it in entries if it.first_place <= place < it.end_place), place + 1)
