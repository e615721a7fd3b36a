"""What others send: it is taken without what is wrong with it, and kept, so that another document can be made of it."""

from __future__ import annotations

from collections.abc import Iterable, Iterator

from .. import Document, Fault
from .frames import HEADER, HEADER_SIZE, PIECE, operations, pieces, spelled, without_frame

MOST_FAULTS = 10  # of one message
SINGLE = (14, 24)  # bytes of messages of one operation, which have the same frame in both versions


class Held:
    """What others have sent that was taken. Messages of one operation, as most are, are put together."""

    def __init__(self) -> None:
        self.parts: list[bytes] = []
        self.last = bytearray(HEADER)

    def add(self, message: bytes) -> None:
        """Keeps a message that was taken whole."""
        if len(message) not in SINGLE:
            self.parts.append(message)
            return
        self.last += message[HEADER_SIZE:]
        if len(self.last) > PIECE:
            self.parts.append(bytes(self.last))
            self.last = bytearray(HEADER)

    def messages(self) -> list[bytes]:
        """All that is kept."""
        return [*self.parts, bytes(self.last)]


def taken(document: Document, message: bytes, held: Held) -> Iterator[Fault]:
    """Takes a message and keeps it, both without what is wrong with it. Each fault is answered; after MOST_FAULTS of them the
    rest is left out."""
    for _ in range(MOST_FAULTS):
        try:
            document.take(message)
        except Fault as fault:
            before, message = around(message, fault)
            held.add(before)
            yield fault
        else:
            held.add(message)
            return


def around(message: bytes, fault: Fault) -> tuple[bytes, bytes]:
    """What a message has before what a fault is about, which is taken, and what it has behind."""
    if fault.frame is not None:
        return HEADER, without_frame(message, fault.frame)
    made = list(operations(message))
    behind = [] if fault.name == "Full" else made[fault.taken + 1 :]
    return spelled(made[: fault.taken]), spelled(behind)


def taken_again(messages: Iterable[bytes], document: Document) -> Iterator[None]:
    """Has another document take what was taken before, in pieces."""
    for message in messages:
        for piece in pieces(message):
            document.take(piece)
            yield
