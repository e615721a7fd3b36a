"""Keys as a terminal sends them: bytes become the names of keys, typed text, and pasted text."""

from __future__ import annotations

import codecs
import io
import re
import time
from collections.abc import Iterator
from typing import NamedTuple

WAIT = 0.05  # seconds, after which an escape that nothing follows is the key itself

PASTE_BEGINS, PASTE_ENDS = b"\x1b[200~", b"\x1b[201~"
SEQUENCE = re.compile(rb"\x1b(?:\[(\[|[0-?]*)([@-Z\\-~$])|O([ -~]))")
UNFINISHED = re.compile(rb"\x1b(?:\[(?:\[|[0-?]*)|O)?")
BY_LETTER = {
    "A": "up", "B": "down", "C": "right", "D": "left", "F": "end", "H": "home",
    "P": "f1", "Q": "f2", "R": "f3", "S": "f4", "Z": "shift-tab",
}  # fmt: skip
BY_NUMBER = {
    1: "home", 2: "insert", 3: "delete", 4: "end", 5: "page-up", 6: "page-down", 7: "home", 8: "end",
    11: "f1", 12: "f2", 13: "f3", 14: "f4",
}  # fmt: skip
BY_RXVT_LETTER = {"a": "up", "b": "down", "c": "right", "d": "left"}
BY_CONSOLE_LETTER = {"A": "f1", "B": "f2", "C": "f3", "D": "f4"}
MODIFIERS = ("shift-", "alt-", "ctrl-")
HELD = {"~": 0, "$": 1, "^": 4, "@": 5}  # what rxvt says by the last character, as bits of these
CONTROLS = {0: "mark", 8: "backspace", 127: "backspace"}
NO_TEXT = re.compile(rb"[\x00-\x08\x0b\x0c\x0e-\x1f\x7f]")
CONTROL = re.compile("[\x00-\x08\x0b-\x1f\x7f-\x9f]")


class Key(NamedTuple):
    """A key by its name; of "text" and "paste" with the characters. A paste comes in pieces, and "pasted" ends it."""

    name: str
    text: str = ""


class Keys:
    """What has come of keys so far: a sequence or a paste may come in pieces."""

    def __init__(self) -> None:
        self.rest = b""
        self.fed = 0.0
        self.is_pasting = False
        self.decoder = codecs.getincrementaldecoder("utf-8")(errors="replace")
        # Line ends of what is pasted are line feeds.
        self.pasted = io.IncrementalNewlineDecoder(codecs.getincrementaldecoder("utf-8")(errors="replace"), translate=True)

    def feed(self, data: bytes) -> Iterator[Key]:
        """The keys that these bytes finish, each before what follows it is looked at."""
        self.rest += data
        self.fed = time.monotonic()
        found: list[Key] = []
        is_more = True
        while is_more and self.rest:
            is_more = self.step(found)
            yield from found
            found.clear()

    def step(self, found: list[Key]) -> bool:
        """What the rest begins with; answers whether more may follow."""
        if self.is_pasting:
            return self.paste(found)
        if self.rest.startswith(b"\x1b"):
            return self.escape(found)
        if NO_TEXT.match(self.rest):
            code, self.rest = self.rest[0], self.rest[1:]
            found.append(Key(CONTROLS.get(code) or f"ctrl-{chr(code | 96)}"))
        else:
            self.type(found)
        return True

    def type(self, found: list[Key]) -> None:
        """Characters up to the next key that is none, as one text. Enter types a line feed."""
        end = NO_TEXT.search(self.rest)
        plain = self.rest[: end.start()] if end else self.rest
        self.rest = self.rest[len(plain) :]
        if text := self.decoder.decode(plain):
            found.append(Key("text", text.replace("\r", "\n")))

    def escape(self, found: list[Key]) -> bool:
        """A sequence, if it is all there."""
        match = SEQUENCE.match(self.rest)
        if match:
            self.rest = self.rest[match.end() :]
            if match[0] == PASTE_BEGINS:
                self.is_pasting = True
            elif name := named(match):
                found.append(Key(name))
            return True
        if UNFINISHED.fullmatch(self.rest):
            return False
        found.append(Key("escape"))
        self.rest = self.rest[1:]
        return True

    def paste(self, found: list[Key]) -> bool:
        """A piece of what is pasted; answers whether it is the last."""
        piece, end, rest = self.rest.partition(PASTE_ENDS)
        if not end:
            # The end may come in pieces.
            held = next(size for size in range(len(PASTE_ENDS) - 1, -1, -1) if piece.endswith(PASTE_ENDS[:size]))
            piece, rest = piece[: len(piece) - held], piece[len(piece) - held :]
        self.rest = rest
        if text := self.pasted.decode(piece, final=bool(end)):
            found.append(Key("paste", text))
        if end:
            found.append(Key("pasted"))
            self.is_pasting = False
        return bool(end)

    def is_waiting(self) -> bool:
        """Whether an escape may still become a sequence."""
        return not self.is_pasting and bool(self.rest)

    def held(self) -> int:
        """How many of the last bytes are in no key yet."""
        begun, has_return = self.pasted.getstate()
        return len(self.rest) + len(self.decoder.getstate()[0]) + len(begun) + (has_return & 1)

    def give_up(self, after: float = WAIT) -> Iterator[Key]:
        """The keys of what has come, where nothing has followed for a while."""
        if self.is_waiting() and time.monotonic() - self.fed >= after:
            self.rest = self.rest[1:]
            yield Key("escape")
            yield from self.feed(b"")


def named(match: re.Match[bytes]) -> str | None:
    """The name of a sequence's key, with what was held down; none if it has no meaning here."""
    numbers, letter, application = ((part or b"").decode() for part in match.groups())
    arrow = BY_RXVT_LETTER.get(application or letter)
    if arrow and not numbers:
        return f"ctrl-{arrow}" if application else f"shift-{arrow}"
    if application:
        return BY_LETTER.get(application)
    if numbers == "[":
        return BY_CONSOLE_LETTER.get(letter)
    given = [int(number) if number.isdecimal() else 1 for number in numbers.split(";")]
    name = BY_NUMBER.get(given[0]) if letter in HELD else BY_LETTER.get(letter)
    if name is None:
        return None
    held = given[1] - 1 if len(given) > 1 else HELD.get(letter, 0)
    return "".join(word for bit, word in enumerate(MODIFIERS) if held >> bit & 1) + name


def plain(text: str) -> str:
    """A text without control characters but line feeds and tabs."""
    return CONTROL.sub("", text)
