"""Reading the keys, also while one is busy: then a thread does, since select can't look for them while the library lays a long
paragraph out."""

from __future__ import annotations

import os
import select
import threading
import time

from .unread import PIECE, Unread

BUSY = 0.01  # seconds of work, after which the thread looks for keys
AWAKE = 1.0  # seconds after the last work, for which it sees whether there is more
MOST = 1 << 22  # bytes that may wait: those of the longest text that there can be


class Watch:
    """Keeps what comes of keys. One is busy from `begin` to `rest`."""

    def __init__(self, unread: Unread, file: int = 0) -> None:
        self.unread = unread
        self.file = file
        self.lock = threading.Lock()
        self.since: float | None = None
        self.is_awake = threading.Event()
        threading.Thread(target=self.serve, daemon=True).start()

    def rest(self) -> bool:
        """Select looks for keys from now on; answers whether some have come already."""
        with self.lock:
            self.since = None
        return bool(self.unread.came)

    def begin(self, has_come: bool) -> bytes:
        """One is busy from now on; answers what has come of keys."""
        with self.lock:
            if has_come:
                self.read()
            self.since = time.monotonic()
        if not self.is_awake.is_set():
            self.is_awake.set()
        return self.unread.take()

    def has_more(self) -> bool:
        """Whether keys have come since."""
        return bool(self.unread.came or select.select([self.file], [], [], 0)[0])

    def serve(self) -> None:
        """What the thread does."""
        while self.is_awake.wait():
            last = time.monotonic()
            while (now := time.monotonic()) - last < AWAKE:
                if since := self.since:
                    last = now
                    if now - since >= BUSY:
                        self.look()
                time.sleep(BUSY)
            self.is_awake.clear()
            # One may have begun before it was cleared.
            if self.since:
                self.is_awake.set()

    def look(self) -> None:
        """Takes in what comes for as long as one is busy, or the terminal is gone."""
        try:
            while self.since and len(self.unread.came) < MOST:
                if select.select([self.file], [], [], BUSY)[0]:
                    with self.lock:
                        if self.since:
                            self.read()
        except EOFError:
            return  # it is told to who reads it next

    def read(self) -> None:
        """Takes in what there is, of which the terminal gives a little at a time; one that is gone ends it all."""
        data, is_gone = b"", False
        while not is_gone and len(data) < PIECE and select.select([self.file], [], [], 0)[0]:
            part = self.part()
            data += part
            is_gone = not part
        self.unread.put(data)
        if is_gone:
            raise EOFError

    def part(self) -> bytes:
        """Some bytes; none of a terminal that is gone."""
        try:
            return os.read(self.file, PIECE)
        except OSError:
            return b""
