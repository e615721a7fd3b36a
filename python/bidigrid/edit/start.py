"""How a desk begins: its site, and its document of the log and of what the others have written."""

from __future__ import annotations

import random
from collections.abc import Callable

from .. import Document, Fault
from .channel import Channel, Message
from .fault import EditFault
from .log import Log
from .taking import Held

MAX_SITE = 65535

Load = Callable[[bytes], Document]


def site_of(log: Log, channel: Channel | None, wanted: int | None) -> int:
    """The site of the log: that of its insertions. Where there are none, or others' too, a new one is drawn."""
    if wanted is not None:
        if log.sites - {wanted}:
            others = ", ".join(map(str, sorted(log.sites - {wanted})[:5]))
            raise EditFault(f"{log.path} is the log of site {others}, not of {wanted}: name another by --log")
        return wanted
    if len(log.sites) == 1:
        return min(log.sites)
    if channel:
        return channel.draw_site()
    return random.SystemRandom().choice([it for it in range(1, MAX_SITE + 1) if it not in log.sites])


def loaded(log: Log, came: list[Message], held: Held, load: Load) -> Document:
    """A document of the log, and of the longest file of another where that is longer and sound, since to load the longest is
    the cheapest. That is held then, and has come no more."""
    own = log.read(0, log.size)
    longest = max(came, key=lambda message: len(message.data), default=None)
    try:
        if longest and len(longest.data) > len(own):
            document = soundly(load, longest.data)
            if document:
                came.remove(longest)
                held.add(longest.data)
                document.take(own)
                return document
        return load(own)
    except Fault as fault:
        raise EditFault(f"{log.path}: {fault}") from None


def soundly(load: Load, data: bytes) -> Document | None:
    """A document of a file, if it is sound: what is wrong with it is reported when it is taken."""
    try:
        return load(data)
    except Fault:
        return None
