"""A connection to Redis whose answers are read when select says that they are there."""

from __future__ import annotations

import collections
import re
from collections.abc import Callable
from typing import Any

import redis  # type: ignore[import]

from .fault import EditFault

TIMEOUT = 2.0  # seconds, of a connection that is made and of an answer whose beginning is there

Answer = Callable[[Any], None]
AWAY = (redis.RedisError, OSError)
"""What goes wrong where Redis is away, or refuses."""


class Link:
    """One connection: commands are sent without waiting, and each answer goes to who asked."""

    def __init__(self, url: str) -> None:
        try:
            pool = redis.ConnectionPool.from_url(url, socket_timeout=TIMEOUT, socket_connect_timeout=TIMEOUT)
        except ValueError as error:
            raise EditFault(f"{url}: {error}") from None
        self.connection = pool.make_connection()
        self.waiting: collections.deque[Answer] = collections.deque()
        self.connection.connect()

    def ask(self, answer: Answer, *words: object) -> None:
        """Sends a command. Its answer comes later."""
        self.connection.send_command(*words)
        self.waiting.append(answer)

    def call(self, *words: object) -> Any:
        """Sends a command, and waits for its answer, behind those that were asked for before."""
        while self.waiting:
            self.waiting.popleft()(self.connection.read_response())
        self.connection.send_command(*words)
        return self.connection.read_response()

    def read(self) -> None:
        """Gives the answers that are there to those who asked. A connection that was closed is an error."""
        while self.connection.can_read(timeout=0):
            answer = self.connection.read_response()
            if not self.waiting:
                raise ConnectionError("an answer that nobody asked for")
            self.waiting.popleft()(answer)

    def fileno(self) -> int:
        """What select waits for."""
        found: int = self.connection._sock.fileno()
        return found

    def close(self) -> None:
        """Ends the connection."""
        self.connection.disconnect()


def said(error: Exception) -> str:
    """What an error says, in one line."""
    if isinstance(error, redis.AuthenticationError) or "WRONGPASS" in str(error):
        return "it wants a password, as redis://:PASSWORD@HOST:PORT/0"
    return str(error).splitlines()[0] if str(error) else type(error).__name__


def without_password(url: str) -> str:
    """An address as it may be shown."""
    return re.sub("//[^/@]*@", "//", url)
