"""How much of a log went out over Redis: it is beside the stream, and changes together with it."""

from __future__ import annotations

import binascii
import re
from typing import Any

from .. import Identifier
from .fault import EditFault
from .frames import HEADER_SIZE, gathered, last_identifier, whole_end
from .log import Log
from .redis_link import Link

PIECE = 1 << 16  # bytes of the log that go out in one message

# A Redis that forgot which sites were drawn must not give one again that is in use.
CLAIM = """
if tonumber(redis.call('GET', KEYS[1]) or '0') < tonumber(ARGV[1]) then redis.call('SET', KEYS[1], ARGV[1]) end
"""
# Whatever Redis lost is sent again, and nothing is sent on behind bytes that another desk of this site sent. A message names
# the one before it, so that a reader sees whether some between were cut off.
SEND = CLAIM + """
if (redis.call('HGET', KEYS[2], ARGV[1]) or '0:0') ~= ARGV[2] then return 0 end
local last = redis.call('XREVRANGE', KEYS[3], '+', '-', 'COUNT', 1)[1]
redis.call('XADD', KEYS[3], '*', 'by', ARGV[4], 'site', ARGV[1], 'after', last and last[1] or '0', 'message', ARGV[5])
redis.call('HSET', KEYS[2], ARGV[1], ARGV[3])
return 1
"""


class Sent:
    """What of the log went out, by the bytes and their CRC-32."""

    def __init__(self, stream: str, key: str, sites: str, by: bytes) -> None:
        self.stream = stream
        self.key = key
        self.sites = sites
        self.by = by
        self.size = 0
        self.sum = 0
        self.is_sending = False
        self.last: Identifier | None = None

    def agree(self, link: Link, log: Log, site: int) -> bool:
        """Takes over what Redis says, and has it give nobody else this site; answers whether it has forgotten some."""
        link.call("EVAL", CLAIM, 1, self.sites, site)
        told = (link.call("HGET", self.key, site) or b"0:0").decode(errors="replace")
        size = int(told.partition(":")[0]) if re.fullmatch("[0-9]{1,19}:[0-9]{1,19}", told) else 0
        total = binascii.crc32(log.read(0, min(size, log.size)))
        if told != mark(size, total):
            raise EditFault(f"{log.path} is not what site {site} has sent: name a new log by --log")
        has_forgotten = size < self.size
        self.size, self.sum, self.is_sending = size, total, False
        return has_forgotten

    def reached(self) -> int:
        """How many bytes of the log went out: its header goes with the first message."""
        return max(self.size, HEADER_SIZE)

    def send(self, link: Link, log: Log, site: int) -> None:
        """Sends the next piece of the log, as one message of version 2, once the one before is answered."""
        start = self.reached()
        if self.is_sending or start >= log.size:
            return
        piece = log.read(start, min(log.size, start + PIECE))
        piece = piece[: whole_end(piece, 0, 1)[0]]
        total = binascii.crc32(piece, binascii.crc32(log.read(self.size, start), self.sum))
        end = start + len(piece)
        self.is_sending = True

        def answered(answer: Any) -> None:
            if answer != 1:
                raise ConnectionError("what went out is to be compared")
            self.size, self.sum, self.is_sending = end, total, False

        old, new = mark(self.size, self.sum), mark(end, total)
        message = gathered(piece)
        self.last = last_identifier(message)
        keys = (self.sites, self.key, self.stream)
        link.ask(answered, "EVAL", SEND, 3, *keys, site, old, new, self.by, message)


def mark(size: int, total: int) -> str:
    """How it is in Redis."""
    return f"{size}:{total}"
