"""What F1 shows."""

from __future__ import annotations

from .. import Row, layout

KEYS = """\
arrows, Home, End, Page Up and Down: move; with Ctrl by words, and to the ends of the text
Shift and a move, Ctrl-Space, Ctrl-A: select
Ctrl-C, Ctrl-X, Ctrl-V: copy, cut, paste
Ctrl-Z, Ctrl-Y: take one's own last edit back, do it again
Ctrl-F: find, and the next; Ctrl-R then: the one before
F2, F3: the base direction; the width of ambiguous characters
Ctrl-S: write the plain text to a file
Ctrl-L, Ctrl-Q: draw anew, leave
F1: more of these, or the text; any other key shows the text too, and does its work there"""


def pages_at(width: int, height: int) -> list[tuple[Row, ...]]:
    """The rows of that, a screen each."""
    rows = layout(KEYS, width, "left").rows
    return [rows[at : at + height] for at in range(0, len(rows), height)]
