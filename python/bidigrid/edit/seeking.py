"""Seeking: a word that is asked for in the last line, and found while it is typed."""

from __future__ import annotations

from . import carets, moves
from .desk import Desk
from .keys import Key, plain
from .selection import Selection

SHOWN = 40  # characters of a long word, the last ones


class Seeking(Selection):
    """A selection that goes to the places of a word. `last` is the word that was sought before."""

    def __init__(self, desk: Desk, height: int) -> None:
        super().__init__(desk, height)
        self.word = self.last = ""
        self.origin = self.standing()
        self.is_seeking = False
        self.remark = ""

    def begin_seeking(self) -> None:
        """Asks for a word, which is sought from here on."""
        self.desk.edits.close()
        self.end_selection()
        self.last, self.word = self.word or self.last, ""
        self.origin = self.standing()
        self.is_seeking, self.remark = True, ""

    def seek(self, key: Key) -> Key | None:
        """Does what a key is for while a word is asked for, and answers what is left of it for the text."""
        match key.name:
            case "text":
                word, end, rest = key.text.partition("\n")
                self.find(self.word + plain(word))
                self.is_seeking = not end
                return Key("text", rest) if rest else None
            case "paste":
                self.find(self.word + plain(key.text))
            case "backspace":
                self.find(self.word[:-1])
            case "ctrl-f" | "ctrl-r":
                self.find(self.word or self.last, key.name)
            case "escape":
                self.go_back()
                self.is_seeking = False
            case "pasted" | "delete" | "ctrl-a":
                pass  # they are about the word, and not about the text
            case _:
                self.is_seeking = False
                return key
        return None

    def find(self, word: str, key: str = "") -> None:
        """Selects where a word stands from where one began to seek on, or as a key asks for the next time or the time before,
        also round the end of the text; where it is nowhere one stays."""
        self.word, self.remark = word, ""
        if not word:
            return self.go_back()
        text, (start, stop) = self.sought_in(word), self.selected()
        if not key:
            stop = carets.place_behind(self.document, self.origin.between[0]) or 0
        place = text.rfind(word, 0, start) if key == "ctrl-r" else text.find(word, stop)
        if place < 0:
            place = text.rfind(word) if key == "ctrl-r" else text.find(word)
            self.remark = " (is not there)" if place < 0 else " (round the end)"
        if place >= 0:
            # What is a part of a cluster can't be seen by itself.
            front = moves.cluster_before(self.document, place + 1)
            self.select(front, moves.cluster_behind(self.document, place + len(word) - 1))

    def sought_in(self, word: str) -> str:
        """The text; with small letters alone for a word with these alone."""
        text = self.document.text
        # This is the one letter that becomes two where it is made small.
        return text.replace("\u0130", "i").lower() if word.islower() else text

    def go_back(self) -> None:
        """Stands where one began to seek."""
        self.end_selection()
        self.stand_again(self.origin)

    def asked(self) -> str:
        """What the last line asks for."""
        word = self.word.replace("\n", "\\n")
        word = word if len(word) <= SHOWN else f"..{word[-SHOWN:]}"
        return f"find: {word}{self.remark} | Ctrl-F next, Ctrl-R back, Enter stays, Escape goes back"
