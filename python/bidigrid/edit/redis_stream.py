"""Desks over Redis: a text is a stream, to which each desk adds its messages and which it reads as it grows."""

from __future__ import annotations

import os
import time
from collections.abc import Callable
from typing import Any

from .. import Identifier
from .channel import Message, plain_name
from .fault import EditFault
from .log import Log
from .redis_link import AWAY, Link, said, without_password
from .redis_sent import Sent
from .redis_signs import GONE, Signs
from .redis_snapshot import AFTER, Snapshot, is_later

MAX_SITE = 65535
PAUSE = 0.01  # seconds from one reading to the next at least: what comes meanwhile is read at once
POLL = 0.1  # seconds between two turns while nothing comes
AGAIN = 0.5  # seconds between two tries to reach a Redis that is away
SILENCE = 5.0  # seconds, after which a reader that has nothing to read says so
AT_ONCE = 1000  # messages of one answer


class RedisStream:
    """The text NAME in a Redis: keys that begin with `bidigrid:{NAME}:`, all in one slot of a cluster."""

    def __init__(self, url: str, name: str, who: str) -> None:
        if name != name.encode(errors="replace").decode():
            raise EditFault("over Redis the name of a text has to be UTF-8")
        self.url = url
        self.shown_url = without_password(url)
        self.by = os.urandom(8).hex().encode()
        self.site = 0
        self.upto = b"0"
        self.is_whole = True
        self.writer: Link | None = None
        self.reader: Link | None = None
        self.trouble = ""
        self.tried = self.heard = self.listens_at = 0.0
        self.is_listening = False
        self.found: list[Message] = []
        self.stream, self.sites, snapshot, sent, signs = (
            f"bidigrid:{{{name}}}:{key}" for key in ("stream", "sites", "snapshot", "sent", "carets")
        )
        self.sent = Sent(self.stream, sent, self.sites, self.by)
        self.signs = Signs(signs, self.by, who)
        self.kept = Snapshot(snapshot, self.stream, self.by)
        self.here = self.signs.here
        try:
            self.writer = Link(url)
            self.writer.call("PING")
        except AWAY as error:
            self.trouble = said(error)
            self.drop()

    def draw_site(self) -> int:
        """A site that Redis has given to nobody."""
        if not self.writer:
            raise EditFault(f"{self.shown_url}, which gives a new desk its site: {self.trouble}")
        try:
            site: int = self.writer.call("INCR", self.sites)
        except AWAY as error:
            raise EditFault(f"{self.shown_url}: {said(error)}") from None
        if site > MAX_SITE:
            raise EditFault(f"{self.shown_url}: all {MAX_SITE} sites of this text are used")
        return site

    def open(self, log: Log, site: int) -> list[Message]:
        """Looks how much of the log went out, and reads the snapshot and all behind it."""
        self.site = self.signs.site = site
        if not self.writer:
            if "password" in self.trouble:
                raise EditFault(f"{self.shown_url}: {self.trouble}")
            return []
        try:
            self.agree(log)
            self.upto, found = self.kept.beyond(self.writer, b"0")
            while answer := self.writer.call("XREAD", "COUNT", AT_ONCE, "STREAMS", self.stream, self.upto):
                found += self.messages(answer[0][1])
            self.listen()
        except AWAY as error:
            raise EditFault(f"{self.shown_url}: {said(error)}") from None
        return found

    def agree(self, log: Log) -> None:
        """Compares the log with what went out, and has the signs read from a little before now on."""
        assert self.writer
        self.signs.begin(self.writer)
        if self.sent.agree(self.writer, log, self.site):
            # Others may never come back to say again what was forgotten of them.
            self.kept.since = AFTER

    def listen(self) -> None:
        """Has the second connection wait for what comes."""
        if not self.reader:
            self.reader = Link(self.url)
        self.heard = time.monotonic()
        self.is_listening = True
        block = int(SILENCE * 1000)
        keys = (self.stream, self.signs.key, self.upto, self.signs.upto)
        self.reader.ask(self.came, "XREAD", "COUNT", AT_ONCE, "BLOCK", block, "STREAMS", *keys)

    def came(self, answer: Any) -> None:
        """Keeps what the reader read. It reads on at the next turn, or where much comes after a pause."""
        for key, entries in answer or []:
            if key == self.stream.encode():
                self.found += self.messages(entries)
            else:
                self.signs.came(entries)
        now = time.monotonic()
        self.listens_at = max(now, self.heard + PAUSE)
        self.heard, self.is_listening = now, False

    def messages(self, entries: list[tuple[bytes, list[bytes]]]) -> list[Message]:
        """The messages of entries, but those that this desk sent; and the snapshot where some between were cut off."""
        upto, wanted = self.upto, None
        self.kept.since += len(entries)
        found = []
        for number, fields in entries:
            named = dict(zip(fields[::2], fields[1::2]))
            after = named.get(b"after", b"")
            # A stranger's message may not say what it comes after.
            if after != self.upto and (not after or is_later(after, self.upto)):
                wanted = after
            self.upto = number
            if named.get(b"by") != self.by:
                site, message = named.get(b"site", b"?"), named.get(b"message", b"")
                found.append(Message(f"site {plain_name(site.decode(errors='replace'))}, {number.decode()}", message))
                self.signs.wrote(site, message)
        if wanted is not None and self.writer:
            upto, file = self.kept.beyond(self.writer, upto)
            self.is_whole = self.is_whole and not is_later(wanted, upto)
            found += file
        return found

    def turn(self, log: Log, caret: Identifier | None) -> list[Message]:
        """Sends the next piece of the log, and answers what has come; tries to come back where Redis was away."""
        now = time.monotonic()
        try:
            if not (self.reader and self.writer) and now - self.tried >= AGAIN:
                self.come_back(log)
            if self.reader and self.writer:
                self.writer.read()
                self.reader.read()
                if not self.is_listening and time.monotonic() >= self.listens_at:
                    self.listen()
                if now - self.heard > 2 * SILENCE:
                    raise TimeoutError("no answer")
                self.sent.send(self.writer, log, self.site)
                self.signs.give(self.writer, caret, self.sent.last, now)
        except (EditFault, *AWAY) as error:
            self.trouble = said(error)
            self.drop()
        found, self.found = self.found, []
        return found

    def come_back(self, log: Log) -> None:
        """Makes both connections anew, compares what went out, and reads what came meanwhile."""
        self.writer = Link(self.url)
        self.agree(log)
        self.upto, file = self.kept.beyond(self.writer, self.upto)
        self.found += file
        self.listen()
        self.trouble = ""

    def drop(self) -> None:
        """Leaves both connections."""
        for link in (self.writer, self.reader):
            if link:
                link.close()
        self.writer = self.reader = None
        self.tried = time.monotonic()

    def state(self) -> str:
        """The connection in a few words."""
        if self.trouble:
            return f"redis away: {self.trouble}"
        return "redis" if self.is_whole else "redis, where some of the text is gone"

    def sent_size(self) -> int:
        """How many bytes of the log went out."""
        return self.sent.reached()

    def reaches(self) -> bytes:
        """The name of the last message that was read."""
        return self.upto

    def readers(self) -> list[int]:
        """What select may wait for."""
        return [link.fileno() for link in (self.writer, self.reader) if link]

    def patience(self) -> float:
        """How many seconds the next turn may be waited for at most."""
        return POLL if self.is_listening or not self.reader else min(POLL, max(0.0, self.listens_at - time.monotonic()))

    def wants_snapshot(self, operations: int) -> bool:
        """Whether a whole file is wanted now, and this desk can make it."""
        return bool(self.writer) and self.is_whole and self.kept.is_wanted(operations)

    def snapshot(self, make: Callable[[], bytes], upto: bytes) -> None:
        """Saves all that this desk has, which is all of the stream up to there."""
        try:
            if self.writer:
                self.kept.keep(self.writer, upto, make)
        except MemoryError:
            return  # there is none for a second document: another desk may have it
        except AWAY as error:
            self.trouble = said(error)
            self.drop()

    def close(self) -> None:
        """Says that this desk is gone."""
        try:
            if self.writer:
                self.signs.add(self.writer, GONE, 0)
        except AWAY:
            pass
        self.drop()
