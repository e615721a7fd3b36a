"""Keys that have come and aren't done: in a file in memory, from which they are pressed at the next start if the editor is
killed."""

from __future__ import annotations

import struct
import threading
from typing import NamedTuple

from .. import Identifier
from .frames import HEADER, last_identifier, operations
from .keys import Keys
from .log import Log
from .memory import MemoryFile
from .staging import OVERLAP

PIECE = 1 << 14  # bytes that are pressed at once
HEAD = struct.Struct(f">Q?Q??IHQ{OVERLAP}s")


class Mark(NamedTuple):
    """How many bytes of the keys are done, and whether a paste goes on there."""

    size: int = 0
    is_pasting: bool = False

    def keys(self) -> Keys:
        """Keys that go on from there."""
        made = Keys()
        made.is_pasting = self.is_pasting
        return made


class Head(NamedTuple):
    """The head of the file: up to where the keys are done, up to where they are once the key is done that is being pressed,
    whether a word is asked for that is sought, the identifier that one stands behind before that key, and how far the log goes
    then, with its last bytes, by which it is known again."""

    size: int
    is_pasting: bool
    ahead: int
    goes_on: bool
    is_word: bool
    counter: int
    site: int
    end: int
    tail: bytes


class Left(NamedTuple):
    """Where an editor was killed: keys that go on from there, where one stood, and how many characters of the first of them are
    typed."""

    keys: Keys
    caret: Identifier | None
    typed: int


class Unread:
    """The bytes of the keys that came since none was left."""

    def __init__(self, log: Log) -> None:
        self.log = log
        self.file = MemoryFile(log.file, ".keys")
        self.lock = threading.Lock()
        self.size = self.taken = 0
        self.came = bytearray()
        self.done = Mark()
        self.is_word = False  # set while what comes is a word that is sought, and no part of the text

    def put(self, data: bytes) -> None:
        """Keeps what has come. Any thread may do that."""
        with self.lock:
            self.file.put(data, HEAD.size + self.size)
            self.size += len(data)
            self.came += data

    def take(self, most: int = PIECE) -> bytes:
        """What has come and wasn't taken yet, or so many bytes of it."""
        with self.lock:
            data = bytes(self.came[:most])
            del self.came[:most]
        self.taken += len(data)
        return data

    def begin(self, keys: Keys, caret: Identifier | None) -> None:
        """Notes that a key is pressed by one whose caret is there: that before the bytes which `keys` still has."""
        self.tell(self.mark(keys), caret)

    def end(self, keys: Keys, caret: Identifier | None) -> None:
        """Notes that it is done, and where the caret is now."""
        with self.lock:
            self.done = self.mark(keys)
            if self.done.size == self.size:
                self.done = Mark(0, keys.is_pasting)
                self.size = self.taken = 0
                self.file.cut(HEAD.size)
            self.tell(self.done, caret)

    def mark(self, keys: Keys) -> Mark:
        """Up to where the keys are read."""
        return Mark(self.taken - keys.held(), keys.is_pasting)

    def tell(self, ahead: Mark, caret: Identifier | None) -> None:
        """Writes the head."""
        tail = (self.log.tail() + self.log.waiting[-OVERLAP:])[-OVERLAP:]
        self.file.put(HEAD.pack(*self.done, *ahead, self.is_word, *(caret or (0, 0)), self.log.end(), tail), 0)

    def left(self) -> Left:
        """Has come again what an editor had not done that was killed."""
        held = self.file.read(0)
        head = Head(*HEAD.unpack(held[: HEAD.size])) if len(held) > HEAD.size else None
        if not head or head.is_word or not self.is_known(head):
            return Left(Keys(), None, 0)
        self.put(held[HEAD.size :])
        self.done, typed = Mark(head.size, head.is_pasting), 0
        caret = Identifier(head.counter, head.site) if head.site else None
        if head.ahead > head.size and self.log.size > head.end:
            # What the key did that was being pressed is in the log, or a part of it.
            made = HEADER + self.log.read(head.end, self.log.size)
            caret = last_identifier(made) or caret
            key = next(self.done.keys().feed(bytes(self.came[head.size : head.ahead])), None)
            if key and key.text:
                typed = sum(it.character is not None for it in operations(made))
            else:
                self.done = Mark(head.ahead, head.goes_on)
        self.take(self.done.size)
        return Left(self.done.keys(), caret, typed)

    def is_known(self, head: Head) -> bool:
        """Whether that stands in a file of this log."""
        before = self.log.read(max(0, head.end - OVERLAP), head.end)
        return self.log.size >= head.end and before.ljust(OVERLAP, b"\0") == head.tail

    def close(self, is_needed: bool) -> None:
        """Leaves what is not done to the next start, where that is wanted."""
        self.file.close(is_needed and self.size > self.done.size)
