"""What is to be seen of an editor: rows and carets, and the line about it all."""

from __future__ import annotations

from typing import NamedTuple

from .. import Row
from . import carets
from .editor import Editor

NAMED = 3  # of those who are here


class View(NamedTuple):
    """Rows of a width, the caret's line and column, the selection, and others' carets: line, column, site."""

    width: int
    rows: tuple[Row, ...]
    line: int
    column: int
    selected: tuple[int, int]
    others: tuple[tuple[int, int, int], ...]
    status: str


def view_of(editor: Editor) -> View:
    """What is to be seen now."""
    editor.settle()
    rows = editor.shown
    if editor.page:
        pages = editor.pages()
        page = min(editor.page, len(pages))
        more = f"keys, {page} of {len(pages)}: F1 goes on | " if len(pages) > 1 else ""
        return View(editor.document.width, pages[page - 1], 0, 0, (0, 0), (), more + status(editor))
    column = rows[editor.line].column_of(editor.at.gap)
    seen = tuple(others(editor, rows))
    return View(editor.document.width, rows, editor.line, column, editor.selected(), seen, status(editor))


def others(editor: Editor, rows: tuple[Row, ...]) -> list[tuple[int, int, int]]:
    """Where the others' carets are seen on the screen."""
    found = []
    for site, here in sorted(editor.desk.here().items()):
        place = carets.place_behind(editor.document, here.caret)
        line = None if place is None else carets.row_of_place(rows, place)
        if place is not None and line is not None:
            column = carets.column_of_place(rows[line], place)
            if column is not None:
                found.append((line, column, site))
    return found


def status(editor: Editor) -> str:
    """What is to be reported, and what there is to know of text and desk; or what is asked for."""
    desk = editor.desk
    line = editor.asked() if editor.is_seeking else about(editor)
    return f"{desk.notice} | {line}" if desk.notice else line


def about(editor: Editor) -> str:
    """The site, the connection, how long the text is, who else is here, and how it is laid out."""
    desk = editor.desk
    here = [f"{here.name or '?'} ({site})" for site, here in sorted(desk.here().items())]
    parts = [f"site {desk.site}", desk.state(), f"{len(editor.document):,} characters"]
    if here:
        more = f" and {len(here) - NAMED} more" if len(here) > NAMED else ""
        parts.append(f"with {', '.join(here[:NAMED])}{more}")
    parts += [f"F2 {editor.document.base}", f"F3 {'wide' if desk.wide_ambiguous else 'narrow'}", "F1 keys"]
    return " | ".join(parts)
