"""What each key does: a caret that goes as the eye sees it, and edits at the desk."""

from __future__ import annotations

from collections.abc import Callable, Iterator
from typing import get_args

from .. import Fault, Identifier, Position, Row
from ..given import Base
from . import carets, moves
from .clipboard import Clipboard
from .desk import LONG, Desk
from .fault import reason
from .frames import PIECE, last_identifier
from .help import pages_at
from .keys import Key, plain
from .plain_text import PlainText
from .seeking import Seeking
from .undo import Edit

BASES: tuple[Base, ...] = get_args(Base)


class Editor(Seeking):
    """A desk, and what is done at it where one stands in its text."""

    def __init__(self, desk: Desk, height: int, text_path: str) -> None:
        super().__init__(desk, height)
        self.text_path = text_path
        self.plain_text = PlainText()
        self.goal: int | None = None
        self.clipboard = Clipboard()
        self.is_left = self.is_leaving = self.is_warned = False
        self.page = 0  # of the keys that are shown, from 1; 0 where the text is
        self.pasted: Edit | None = None
        self.is_cut = False  # a piece of what is being pasted was refused, and so is the rest
        self.pressed = 0
        self.edits: dict[str, Callable[[], None]] = {
            "backspace": self.backspace,
            "delete": self.delete,
            "pasted": self.end_paste,
            "ctrl-z": lambda: self.follow(self.desk.take_back(), "nothing to take back"),
            "ctrl-y": lambda: self.follow(self.desk.take_back(again=True), "nothing to do again"),
            "ctrl-c": self.copy,
            "ctrl-x": self.cut,
            "ctrl-v": self.type_copied,
            "ctrl-f": self.begin_seeking,
            "ctrl-s": self.write_text,
            "ctrl-q": self.leave,
            "ctrl-a": self.select_all,
            "mark": self.begin_selection,
            "escape": self.end_selection,
            "f2": self.change_base,
            "f3": lambda: self.desk.begin_job(self.desk.change_ambiguous()),
        }

    def press(self, key: Key) -> None:
        """Does what a key is for. What the core refuses is reported."""
        if not self.is_cut:
            self.desk.notice = self.desk.failure
        at = None
        self.pressed += 1
        self.page = (self.page + 1) % (1 + len(self.pages())) if key.name == "f1" else 0
        try:
            if self.is_seeking and key.name == "ctrl-v":
                key = Key("paste", self.clipboard.text)
            left = self.seek(key) if self.is_seeking else key
            if not left:
                self.goal = None
            elif left.name in ("text", "paste"):
                self.type(left)
            elif left.name in self.edits:
                self.edits[left.name]()
            elif at := self.moved(left.name.removeprefix("shift-")):
                self.go(at, left.name)
        except (Fault, MemoryError) as fault:
            self.desk.notice = str(fault) or "memory"
            self.is_cut = key.name == "paste" and not self.is_seeking
        if at:
            self.scroll(self.shown)
        else:
            self.is_stale = True
        self.desk.is_changed = True

    # Moves

    def moved(self, name: str) -> Position | None:
        """Where a key leads that moves the caret; nothing for another."""
        if name in moves.VERTICAL and self.goal is None:
            self.goal = moves.column_of(self.document, self.at)
        return moves.moved(self.document, self.at, name, self.height, self.goal or 0)

    def go(self, at: Position, name: str) -> None:
        """Goes there, selecting on the way where shift is held or a selection was begun."""
        if name.startswith("shift-"):
            if self.marked is None:
                self.marked = self.between
        elif not self.is_marking:
            self.end_selection()
        if not name.endswith(("up", "down")):
            self.goal = None
        self.desk.edits.close()
        # What is being erased has no place for a caret.
        for start, stop in map(self.desk.places_of, self.desk.leaving):
            if start < at.place < stop:
                at = self.document.position_at(start)
        self.stand(at)

    # Edits

    def replace(self, start: int, stop: int, text: str, joined: Edit | None = None) -> Edit | None:
        """Edits the text, and stands behind what was typed."""
        edit = self.desk.replace(start, stop, text, joined)
        self.end_selection()
        self.goal = None
        # Where nothing is done one stays at one's edge.
        if start < stop or text:
            self.stand_behind(start + len(text))
        return edit

    def type(self, key: Key) -> None:
        """Types, in the place of what is selected. The pieces of a paste are one edit."""
        if self.is_cut:
            return
        if key.name == "paste" and not self.pasted:
            self.desk.edits.close()
        edit = self.replace(*self.selected(), plain(key.text), self.pasted)
        self.pasted = edit if key.name == "paste" else None

    def end_paste(self) -> None:
        """Has seen the last piece."""
        self.pasted, self.is_cut = None, False
        self.desk.edits.close()

    def backspace(self) -> None:
        """Erases what is selected, or the cluster before the caret .."""
        start, stop = self.selected()
        self.replace(start if start < stop else moves.cluster_before(self.document, stop), stop, "")

    def delete(self) -> None:
        """.. or the one behind it."""
        start, stop = self.selected()
        self.replace(start, stop if start < stop else moves.cluster_behind(self.document, start), "")

    def follow(self, places: Iterator[int | None], otherwise: str) -> None:
        """Edits in pieces, which answer where they were; where none was anywhere that is reported. The caret goes there, unless
        a key is pressed meanwhile."""
        self.end_selection()
        self.desk.begin_job(self.followed_by(places, otherwise, self.pressed))

    def followed_by(self, places: Iterator[int | None], otherwise: str, pressed: int) -> Iterator[object]:
        """The pieces of that."""
        is_seen = False
        for place in places:
            if place is not None:
                is_seen = True
                if self.pressed == pressed:
                    self.stand_behind(place)
            yield place
        if not is_seen:
            self.desk.notice = otherwise

    def copy(self) -> None:
        """Copies what is selected, as it is read."""
        start, stop = self.selected()
        if start < stop:
            self.desk.notice = self.clipboard.put(self.document.text[start:stop])

    def cut(self) -> None:
        """Copies what is selected, and erases it."""
        self.copy()
        self.replace(*self.selected(), "")

    def type_copied(self) -> None:
        """Types what was copied last, in the place of what is selected, as one edit: a long text in pieces."""
        text = self.clipboard.text
        if not text:
            self.desk.notice = "nothing is copied"
            return
        self.desk.edits.close()
        edit = self.replace(*self.selected(), text[:LONG])
        self.desk.edits.close()
        if edit and len(text) > LONG:
            self.follow(self.typed_on(text[LONG:], edit, self.desk.caret), "")

    def typed_on(self, text: str, edit: Edit, last: Identifier | None) -> Iterator[int]:
        """Types the rest of a long text in pieces, the first behind a character; yields after each where it ends."""
        for piece in (text[at : at + LONG] for at in range(0, len(text), LONG)):
            place = carets.place_behind(self.document, last) or 0
            message = self.document.type(place, piece)
            self.desk.edits.add(message, "", edit)
            self.desk.made(message)
            last = last_identifier(message)
            yield place + len(piece)

    # The rest

    def pages(self) -> list[tuple[Row, ...]]:
        """The screens of the keys."""
        return pages_at(self.document.width, self.height)

    def change_base(self) -> None:
        """The next base direction."""
        self.document.base = BASES[(BASES.index(self.document.base) + 1) % len(BASES)]

    def resize(self, width: int, height: int) -> None:
        """Lays out for another screen."""
        self.height = max(1, height)
        self.document.resize(max(2, min(500, width)))
        self.is_stale = self.desk.is_changed = True

    def write_text(self) -> None:
        """Has the plain text written."""
        text = self.document.text
        # A long text is spelled in pieces, between which the thread lets others compute.
        parts = (text[at : at + PIECE].encode() for at in range(0, len(text), PIECE))
        self.desk.log.disk.ask(self.tell_written, lambda: self.plain_text.write(self.text_path, parts))

    def tell_written(self, error: OSError | None) -> None:
        """Reports what came of that."""
        self.desk.notice = f"{self.text_path} is {f'not written: {reason(error)}' if error else 'written'}"
        if isinstance(error, FileExistsError):
            self.desk.notice += "; Ctrl-S again writes over it"
        self.desk.is_changed = True

    def leave(self) -> None:
        """Leaves once all is done and flushed; at the second time also where it isn't or can't be."""
        if self.is_leaving:
            self.desk.jobs.clear()
        self.is_left = self.is_left or self.is_leaving or self.is_warned or self.is_done()
        self.is_leaving = not self.is_left
        self.desk.failed_at = 0.0
        if self.desk.jobs:
            self.desk.notice = "what was begun is done first: Ctrl-Q again leaves it half done"

    def is_done(self) -> bool:
        """Whether all that keys have begun is done and flushed."""
        return not (self.desk.jobs or self.desk.log.waiting)

    def turn(self) -> None:
        """A turn of the desk: stays at one's character where that brings something, and leaves where one wants to."""
        self.is_stale = self.desk.turn() or self.is_stale
        if self.is_leaving and self.desk.failed_at:
            self.is_leaving, self.is_warned = False, True
            self.desk.notice = "what you typed last is in no file: Ctrl-S writes the text, Ctrl-Q again leaves without it"
        self.is_left = self.is_left or self.is_leaving and self.is_done()
