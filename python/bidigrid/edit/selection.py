"""What is selected: from a character on, to where one stands."""

from __future__ import annotations

from . import carets
from .desk import Desk
from .standing import Standing


class Selection(Standing):
    """A caret, and the other end of what is selected, which stays at its character too."""

    def __init__(self, desk: Desk, height: int) -> None:
        super().__init__(desk, height)
        self.marked: carets.Between | None = None
        self.is_marking = False

    def begin_selection(self) -> None:
        """Selects from here on."""
        self.marked = self.between
        self.is_marking = True

    def end_selection(self) -> None:
        """Selects nothing."""
        self.marked = None
        self.is_marking = False

    def select(self, start: int, stop: int) -> None:
        """Selects from one place up to another, and stands there."""
        self.is_marking = False
        self.marked = carets.between(self.document, start)
        self.stand_behind(stop)

    def select_all(self) -> None:
        """Selects the whole text."""
        self.marked = carets.between(self.document, 0)
        self.stand(self.document.position_at(len(self.document)))

    def selected(self) -> tuple[int, int]:
        """From which place up to which other one; the caret's twice where nothing is selected. What others type at an end
        of the selection is out of it."""
        here = self.place()
        if self.marked is None:
            return here, here
        there = carets.place_behind(self.document, self.marked[0]) or 0
        first = self.marked[1] if there <= here else self.between[1]
        start, stop = min(here, there), max(here, there)
        return (start if first is None else min(stop, self.document.place_of(first))), stop
