"""A desk's channel on a thread of its own, since no select can wait for a folder, or for what calls Redis."""

from __future__ import annotations

import queue
import select
import threading
import time
from collections.abc import Callable
from typing import NamedTuple

from .. import Identifier
from .bell import Bell
from .channel import Channel, Here, Message
from .log import Log

SLOW = 3.0  # seconds, after which the last line says that the channel doesn't answer
LAST = 1.0  # seconds that the channel's end is waited for


class Told(NamedTuple):
    """What a channel says: its state, who is here, how much of the log went out, and how far one has all by it."""

    state: str
    here: dict[int, Here]
    sent: int
    reaches: bytes

    def look(self) -> object:
        """All of it but the times."""
        return self._replace(here={site: here._replace(seen=0.0) for site, here in self.here.items()})


class Carrier:
    """Carries messages between a desk and its channel. However long the channel takes, the desk doesn't wait for it."""

    def __init__(self, channel: Channel, log: Log) -> None:
        self.channel = channel
        self.log = log
        self.known: tuple[int, Identifier | None] = (0, None)
        self.told = self.ask()
        self.given: queue.SimpleQueue[tuple[list[Message], Told]] = queue.SimpleQueue()
        self.wanted: tuple[Callable[[], bytes], bytes] | None = None
        self.failure: Exception | None = None
        self.began: float | None = None
        self.is_closed = False
        self.bell, self.wake = Bell(), Bell()
        self.thread = threading.Thread(target=self.serve, daemon=True)
        self.thread.start()

    # On the thread

    def serve(self) -> None:
        """What the thread does, until it is closed."""
        look = self.told.look()
        try:
            while not self.is_closed:
                look = self.carry(look)
                ready, _, _ = select.select([self.wake, *self.channel.readers()], [], [], self.channel.patience())
                if self.wake in ready:
                    self.wake.hush()
            self.channel.close()
        except Exception as failure:
            self.failure = failure
            self.bell.ring()

    def carry(self, look: object) -> object:
        """A turn of the channel, and a whole file where one is wanted; gives what is new, and answers how it looks."""
        self.began = time.monotonic()
        found = self.channel.turn(self.log, self.known[1])
        if self.wanted:
            self.channel.snapshot(*self.wanted)
            self.wanted = None
        told = self.ask()
        if found or told.look() != look:
            self.given.put((found, told))
            self.bell.ring()
        self.began = None
        return told.look()

    def ask(self) -> Told:
        """What the channel says now."""
        here = {site: here for site, here in self.channel.here.items() if not here.is_gone()}
        return Told(self.channel.state(), here, self.channel.sent_size(), self.channel.reaches())

    # For the desk

    def turn(self, caret: Identifier | None) -> list[Message]:
        """Has sent what is flushed, and the caret shown to others; answers what has come."""
        if self.failure:
            raise self.failure
        self.bell.hush()
        found: list[Message] = []
        while not self.given.empty():
            messages, self.told = self.given.get()
            found += messages
        if self.known != (self.log.size, caret):
            self.known = self.log.size, caret
            self.wake.ring()
        return found

    def state(self) -> str:
        """The connection in a few words."""
        began = self.began
        return f"{self.told.state}: no answer" if began and time.monotonic() - began > SLOW else self.told.state

    def is_sent(self) -> bool:
        """Whether all that is flushed went out."""
        return self.told.sent >= self.log.size

    def wants_snapshot(self, operations: int) -> bool:
        """Whether a whole file of so many operations is wanted now."""
        return not self.wanted and self.channel.wants_snapshot(operations)

    def keep(self, make: Callable[[], bytes]) -> None:
        """Has a whole file made and saved, on the thread: of all that the desk was given so far."""
        self.wanted = make, self.told.reaches
        self.wake.ring()

    def fileno(self) -> int:
        """What select waits for."""
        return self.bell.fileno()

    def close(self) -> None:
        """Has the channel end, and waits a little for that."""
        self.is_closed = True
        self.wake.ring()
        self.thread.join(LAST)
        if not self.thread.is_alive():
            self.bell.close()
            self.wake.close()
