"""What the log has and what others have sent, read again: for another document of the text, in pieces or by a thread."""

from __future__ import annotations

import itertools
from collections.abc import Callable, Iterator

from .. import Document
from .frames import HEADER_SIZE, pieces
from .log import Log
from .taking import Held, taken_again


def fill(document: Document, log: Log, held: Held) -> Iterator[None]:
    """Has a document take all, in pieces. What is new after those is taken at the last step, so that it has all then."""
    parts, end = 0, HEADER_SIZE
    for is_last in (False, True):
        messages, start = held.messages()[parts:], end
        parts, end = len(held.parts), log.end()
        for _ in taken_again(itertools.chain(messages, log.messages(log.spans(start, end))), document):
            # What is laid out as it grows needn't be laid out whole at the end.
            document.rows(0, 0, 0)
            if not is_last:
                yield


def backwards(log: Log, held: Held) -> Iterator[bytes]:
    """All operations of the text as messages, each short, the last ones first."""
    yield from log.messages(reversed(log.spans(HEADER_SIZE, log.end())))
    for message in reversed(held.messages()):
        yield from pieces(message)


def whole_file(log: Log, held: Held, site: int) -> Callable[[], bytes]:
    """How another thread makes a whole file, of what is flushed by now and what others have sent."""
    messages, spans = held.messages(), log.spans(HEADER_SIZE, log.size)

    def make() -> bytes:
        with Document(site) as document:
            for _ in taken_again(itertools.chain(messages, log.messages(spans)), document):
                continue
            return document.save()

    return make
