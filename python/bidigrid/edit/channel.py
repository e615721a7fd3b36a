"""What a desk asks of a channel: how messages of others come, and how its own log goes out."""

from __future__ import annotations

import time
from collections.abc import Callable
from typing import NamedTuple, Protocol

from .. import Identifier
from .log import Log

GONE_AFTER = 30.0  # seconds without a sign
SNAPSHOT = "the snapshot"
"""Who sends what all others have written."""


class Message(NamedTuple):
    """An operation file of another desk, and who is named where something is wrong with it."""

    sender: str
    data: bytes


class Here(NamedTuple):
    """A desk that is here: its name, the character that its caret stands behind, and when it last gave a sign."""

    site: int
    name: str
    caret: Identifier | None
    seen: float

    def is_gone(self) -> bool:
        """Whether it has given no sign for long."""
        return time.monotonic() - self.seen > GONE_AFTER


class Channel(Protocol):
    """The way between desks. All but `draw_site` and `open`, which come first, is called by one thread, and may wait."""

    here: dict[int, Here]

    def draw_site(self) -> int:
        """A site that no other desk of the text has."""

    def open(self, log: Log, site: int) -> list[Message]:
        """Begins: answers what the others have written so far."""

    def turn(self, log: Log, caret: Identifier | None) -> list[Message]:
        """Sends what is flushed and not sent yet, and answers what has come."""

    def state(self) -> str:
        """The connection in a few words."""

    def sent_size(self) -> int:
        """How many bytes of the log went out."""

    def reaches(self) -> bytes:
        """How far one has all who has what `open` and `turn` have answered so far."""

    def readers(self) -> list[int]:
        """What select may wait for."""

    def patience(self) -> float:
        """How many seconds the next turn may be waited for at most."""

    def wants_snapshot(self, operations: int) -> bool:
        """Whether a whole file of so many operations is wanted now."""

    def snapshot(self, make: Callable[[], bytes], upto: bytes) -> None:
        """Makes a whole file and saves it for those who come later; it has all up to there."""

    def close(self) -> None:
        """Says that this desk is gone."""


def plain_name(name: str) -> str:
    """A name of another, as it can be shown."""
    return "".join(it for it in name if it.isprintable())[:16]
