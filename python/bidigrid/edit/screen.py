"""The screen: rows are drawn as the core has them, cell by cell, and carets and what is selected are coloured."""

from __future__ import annotations

import curses
import functools
import os
import re

from .. import Entry, Row, layout
from .fault import EditFault
from .outlet import Outlet
from .view import View

# Bracketed paste, and a bar as a caret.
BEGIN, END = b"\x1b[?2004h\x1b[6 q", b"\x1b[?2004l\x1b[0 q"
# No reordering, for terminals that know it: ECMA-48's BDSM, and mlterm's own word.
AS_IT_STANDS, AS_IT_IS_READ = b"\x1b[8l\x1b]5379;use_ctl=false\x07", b"\x1b[8h\x1b]5379;use_ctl=true\x07"

# What every terminal shows in one column.
PLAIN = re.compile("[ -~\u00a1-\u00ac\u00ae-\u02ff\u0370-\u0482\u048a-\u0590\u05be\u05c0\u05c3\u05c6\u05d0-\u05f4"
                   "\u061b-\u064a\u0660-\u066f\u0671-\u06d5\u06ee-\u070d]*")  # fmt: skip
WIDEST = 500  # columns of a row
HIGHEST = 1000  # rows that a document shows above a place, or below it
COLOURS = (curses.COLOR_RED, curses.COLOR_GREEN, curses.COLOR_YELLOW, curses.COLOR_BLUE, curses.COLOR_MAGENTA,
           curses.COLOR_CYAN)  # fmt: skip


class Screen:
    """The terminal, until it is closed. What is there already isn't drawn again."""

    def __init__(self, is_logical: bool = False) -> None:
        self.is_logical = is_logical
        self.drawn: list[object] = []
        try:
            self.window = curses.initscr()
        except curses.error as error:
            raise EditFault(f"cannot use the terminal: {error}") from None
        os.write(1, BEGIN if is_logical else BEGIN + AS_IT_STANDS)
        curses.raw()
        curses.noecho()
        curses.nonl()
        self.looks = [curses.A_UNDERLINE]
        if curses.has_colors():
            curses.start_color()
            curses.use_default_colors()
            for number, colour in enumerate(COLOURS, 1):
                ink = curses.COLOR_WHITE if colour == curses.COLOR_BLUE else curses.COLOR_BLACK
                curses.init_pair(number, ink, colour)
            self.looks = [curses.color_pair(1 + number) for number in range(len(COLOURS))]
        self.outlet = Outlet()

    def size(self) -> tuple[int, int]:
        """The columns and the rows for the text: a caret behind the last column has one, and the status a line."""
        lines, columns = self.window.getmaxyx()
        return max(2, columns - 1), min(max(1, lines - 1), HIGHEST)

    def resize(self) -> None:
        """Takes the terminal's new size."""
        columns, lines = os.get_terminal_size(0)
        if columns and lines:
            curses.resizeterm(lines, columns)
        self.redraw()

    def redraw(self) -> None:
        """Has all be drawn anew."""
        self.drawn = []
        self.window.clear()

    def draw(self, view: View) -> None:
        """Shows a view."""
        lines, columns = self.window.getmaxyx()
        wanted: list[object] = [self.line(view, number) for number in range(lines - 1)]
        wanted.append(view.status)
        if len(self.drawn) != len(wanted):
            self.drawn = [None] * len(wanted)
        for number, line in enumerate(wanted):
            if line != self.drawn[number]:
                self.window.move(number, 0)
                self.window.clrtoeol()
                if number == lines - 1:
                    self.draw_status(number, columns, view.status)
                elif number < len(view.rows):
                    self.draw_row(number, columns, view)
        self.drawn = wanted
        column = view.column
        if self.is_logical and view.line < len(view.rows):
            column = logical_column(view.rows[view.line], view.column)
        self.window.move(min(view.line, lines - 1), min(column, columns - 1))
        self.window.refresh()
        self.outlet.flush()

    def tell(self, words: bytes) -> None:
        """Tells the terminal something that isn't seen."""
        if words:
            os.write(1, words)

    def line(self, view: View, number: int) -> object:
        """All that a line's look depends on."""
        if number >= len(view.rows):
            return None, ()
        row = view.rows[number]
        first, last = view.selected
        cut = (max(first, row.first_place) - row.first_place, min(last, row.last_place) - row.first_place)
        return str(row), cut if cut[0] < cut[1] else None, [it for it in view.others if it[0] == number]

    def draw_row(self, number: int, columns: int, view: View) -> None:
        """Draws a row, what is selected in it, and the carets."""
        row = view.rows[number]
        cells = str(row)
        if self.is_logical:
            self.put(number, 0, "".join(in_reading_order(row)))
        elif len(cells) == view.width and PLAIN.fullmatch(cells):
            self.put(number, 0, cells.rstrip())
        else:
            for entry in seen(row, columns):
                self.put(number, entry.column, entry.shown)
        if self.is_logical:
            return
        first, last = view.selected
        if first < row.last_place and row.first_place < last:
            for entry in seen(row, columns):
                if first <= entry.first_place < last:
                    self.window.chgat(number, entry.column, entry.columns, curses.A_REVERSE)
        for line, column, site in view.others:
            if line == number:
                self.window.chgat(number, min(column, columns - 1), 1, self.looks[site % len(self.looks)])

    def draw_status(self, number: int, columns: int, status: str) -> None:
        """Draws the last line, laid out as the text is."""
        # A path may have bytes that are no character.
        status = status.encode(errors="replace").decode()
        shown = status if self.is_logical else str(layout(status, WIDEST, "left")).partition("\n")[0]
        self.put(number, 0, shown[: columns - 1].ljust(columns - 1), curses.A_REVERSE)

    def put(self, line: int, column: int, text: str, look: int = curses.A_NORMAL) -> None:
        """Writes a text. The last cell of the screen is left out, since the terminal would scroll."""
        try:
            self.window.addstr(line, column, text, look)
        except curses.error:
            return

    def close(self) -> None:
        """Gives the terminal back, if it is still there."""
        self.outlet.close()
        try:
            curses.noraw()
            curses.echo()
            curses.endwin()
            os.write(1, END if self.is_logical else END + AS_IT_IS_READ)
        except (curses.error, OSError):
            return


def seen(row: Row, columns: int) -> list[Entry]:
    """The entries of a row that are seen: a row has two columns at least, and a terminal may have one."""
    return [entry for entry in row.entries if entry.columns and entry.column < columns]


@functools.lru_cache(1000)
def as_typed(shown: str, level: int) -> str:
    """The characters of a cluster before they were mirrored: a mirror's mirror. A blank has none."""
    if level % 2 == 0 or shown.isspace():
        return shown
    return str(layout(f"\u202e{shown}", 8)).strip()


def reading_order(row: Row) -> list[Entry]:
    """The entries of a row in the order of the text."""
    return sorted(row.entries, key=lambda entry: entry.first_place)


def in_reading_order(row: Row) -> list[str]:
    """What a terminal is given that reorders by itself."""
    return [as_typed(entry.shown, entry.level) for entry in reading_order(row) if entry.columns]


def logical_column(row: Row, column: int) -> int:
    """The column of a caret for such a terminal: behind all that is read before it."""
    behind = next((it for it in row.entries if it.column == column and it.columns), None)
    if behind is None:
        return sum(entry.columns for entry in row.entries)
    return sum(entry.columns for entry in row.entries if entry.first_place < behind.first_place)
