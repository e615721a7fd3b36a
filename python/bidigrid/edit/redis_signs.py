"""Who else is here, and where their carets stand, over Redis: a short stream beside that of the messages."""

from __future__ import annotations

import time

from .. import Identifier
from .channel import GONE_AFTER, Here, plain_name
from .frames import last_identifier
from .redis_link import Link

SIGN = 10.0  # seconds between two signs of being here
MOVED = 0.1  # seconds between two signs while the caret moves
KEPT = 500  # signs
GONE = -1


class Signs:
    """The stream of signs: each says behind which character a desk's caret stands, or that the desk is gone."""

    def __init__(self, key: str, by: bytes, who: str) -> None:
        self.key = key
        self.by = by
        self.who = plain_name(who)
        self.site = 0
        self.upto = b"0"
        self.here: dict[int, Here] = {}
        self.last: tuple[int, int] | None = None
        self.given = 0.0

    def begin(self, link: Link) -> None:
        """Leaves signs unread that are so old that whoever gave them is gone."""
        if self.upto == b"0":
            seconds = int(link.call("TIME")[0])
            self.upto = b"%d-0" % (1000 * max(0, seconds - int(GONE_AFTER)))

    def came(self, entries: list[tuple[bytes, list[bytes]]]) -> None:
        """Keeps what the others' signs say."""
        self.upto = entries[-1][0]
        for _, fields in entries:
            named = dict(zip(fields[::2], fields[1::2]))
            try:
                site, counter, caret_site = (int(named[key]) for key in (b"site", b"counter", b"caret"))
            except (KeyError, ValueError):
                continue
            if named.get(b"by") == self.by or site == self.site:
                continue
            if counter == GONE:
                self.here.pop(site, None)
            else:
                name = plain_name(named.get(b"name", b"").decode(errors="replace"))
                caret = Identifier(counter, caret_site) if counter else None
                self.here[site] = Here(site, name, caret, time.monotonic())

    def give(self, link: Link, caret: Identifier | None, sent: Identifier | None, now: float) -> None:
        """Tells the others where the caret stands, at once where it has moved, and now and then where it stays. Behind what
        was sent last they see it by that."""
        sign = (caret.counter, caret.site) if caret else (0, 0)
        if sign != self.last and caret is not None and caret == sent:
            self.last, self.given = sign, now
        if now - self.given >= (MOVED if sign != self.last else SIGN):
            self.last, self.given = sign, now
            self.add(link, *sign)

    def wrote(self, site: bytes, message: bytes) -> None:
        """Keeps that another desk wrote a message, where its caret stands then."""
        here = next((it for it in self.here.values() if str(it.site).encode() == site), None)
        if here:
            self.here[here.site] = here._replace(caret=last_identifier(message), seen=time.monotonic())

    def add(self, link: Link, counter: int, site: int) -> None:
        """Adds a sign: the identifier of the character before the caret, 0 at the front, GONE at the end."""
        words = ("by", self.by, "site", self.site, "name", self.who, "counter", counter, "caret", site)
        link.ask(lambda _: None, "XADD", self.key, "MAXLEN", "~", KEPT, "*", *words)
