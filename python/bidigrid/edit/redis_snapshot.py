"""A whole file of the text in Redis, for those who come later or were away for long. The stream is cut behind it."""

from __future__ import annotations

import re
from collections.abc import Callable

from .channel import SNAPSHOT, Message
from .redis_link import Link

AFTER = 2000  # messages behind the last snapshot, after which the next one is kept
LOCKED = 5  # seconds in which no other desk keeps one

# The stream goes back to the snapshot before this one, so that nobody who reads as it grows needs the file.
KEEP = """
if (redis.call('HGET', KEYS[1], 'upto') or '') ~= ARGV[1] then return 0 end
redis.call('HSET', KEYS[1], 'upto', ARGV[3], 'file', ARGV[4])
redis.call('XTRIM', KEYS[2], 'MINID', ARGV[2])
return 1
"""


class Snapshot:
    """The file, and up to which message of the stream it reaches. `since` counts the messages that came behind it."""

    def __init__(self, key: str, stream: str, by: bytes) -> None:
        self.key = key
        self.stream = stream
        self.by = by
        self.since = 0

    def beyond(self, link: Link, upto: bytes) -> tuple[bytes, list[Message]]:
        """Up to which message one has all after reading the file, and the file, where it reaches further than `upto`."""
        if not is_later(link.call("HGET", self.key, "upto"), upto):
            return upto, []
        told, file = link.call("HMGET", self.key, "upto", "file")
        return (told, [Message(SNAPSHOT, file)]) if is_later(told, upto) and file else (upto, [])

    def is_wanted(self, operations: int) -> bool:
        """Whether much came behind the last one, beside what the text has."""
        return self.since >= max(AFTER, operations // 100)

    def keep(self, link: Link, upto: bytes, make: Callable[[], bytes]) -> None:
        """Makes and saves a file that has all of the stream up to a message, if no other desk does."""
        self.since = 0
        if not link.call("SET", f"{self.key}:lock", self.by, "NX", "EX", LOCKED):
            return
        held = link.call("HGET", self.key, "upto") or b""
        if is_later(upto, held):
            cut = held if number_of(held) else b"0"
            link.call("EVAL", KEEP, 2, self.key, self.stream, held, cut, upto, make())


def number_of(name: bytes | None) -> tuple[int, int] | None:
    """The two numbers of a message's name in a stream; none where it is no such name."""
    match = re.fullmatch(rb"([0-9]{1,19})(?:-([0-9]{1,19}))?", name or b"")
    return (int(match[1]), int(match[2] or 0)) if match else None


def is_later(name: bytes | None, other: bytes) -> bool:
    """Whether a message came after another one. What is no name came before all."""
    return (number_of(name) or (0, 0)) > (number_of(other) or (0, 0))
