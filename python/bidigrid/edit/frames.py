"""The frames of operation files (docs/FORMATS.md): found in bytes, parted into operations, gathered into runs."""

from __future__ import annotations

import struct
from bisect import bisect_left
from collections.abc import Iterable, Iterator
from typing import NamedTuple

from .. import Identifier

HEADER_SIZE = 5
HEADER = b"BGOP\x01"
HEADER_2 = b"BGOP\x02"
MOST = 1024  # insertions of a run
PIECE = 1 << 16  # bytes of a message that are dealt with at once

INSERTION = struct.Struct(">HBIHIHI")
ERASURE = struct.Struct(">HBIH")
RUN = struct.Struct(">HBIHIH")
LENGTHS = {1: 17, 2: 7}


class Operation(NamedTuple):
    """An operation: its identifier or its target, and of an insertion the character and its parent."""

    identifier: Identifier
    character: str | None
    parent: tuple[int, int]


def is_frame(length: int, kind: int, version: int) -> bool:
    """Whether a frame of this kind may have this length."""
    if kind == 3:
        return version == 2 and length in range(21, 13 + 4 * MOST + 1, 4)
    return LENGTHS.get(kind) == length


def whole_end(data: bytes, at: int, version: int, most: int = 1 << 62) -> tuple[int, bool]:
    """Where the last whole frame ends that begins at a place or behind, in so many bytes, and whether what follows may
    become one."""
    size, limit = len(data), at + most
    while at + 3 <= size and at < limit:
        length = data[at] << 8 | data[at + 1]
        if not is_frame(length, data[at + 2], version):
            return at, False
        if at + 2 + length > size:
            break
        at += 2 + length
    return at, True


def pieces(message: bytes, size: int = PIECE) -> Iterator[bytes]:
    """A message as messages of about so many bytes. What can't be parted stays with the last."""
    header, at = message[:HEADER_SIZE], HEADER_SIZE
    is_parted = len(message) > size and header in (HEADER, HEADER_2)
    while is_parted and at < len(message):
        end, _ = whole_end(message, at, header[-1], size)
        yield header + message[at : end if end > at else len(message)]
        at = end if end > at else len(message)
    if not is_parted:
        yield message


def operations(message: bytes) -> Iterator[Operation]:
    """The operations of a sound message, a run's one by one."""
    at = HEADER_SIZE
    while at < len(message):
        end = at + 2 + (message[at] << 8 | message[at + 1])
        if message[at + 2] == 2:
            yield Operation(Identifier(*ERASURE.unpack_from(message, at)[2:]), None, (0, 0))
        else:
            counter, site, *root = RUN.unpack_from(message, at)[2:]
            parent = (root[0], root[1])
            for number, (scalar,) in enumerate(struct.iter_unpack(">I", message[at + 15 : end]), counter):
                identifier = Identifier(number, site)
                yield Operation(identifier, chr(scalar), parent)
                parent = (number, site)
        at = end


def spelled(made: Iterable[Operation]) -> bytes:
    """Operations as a message of version 1, where each has a frame of its own."""
    return HEADER + b"".join(
        ERASURE.pack(7, 2, *it.identifier)
        if it.character is None
        else INSERTION.pack(17, 1, *it.identifier, *it.parent, ord(it.character))
        for it in made
    )


def without_frame(message: bytes, number: int) -> bytes:
    """A message without a frame, counted from 1. Behind one whose length is no frame's, none can be found."""
    at = HEADER_SIZE
    for _ in range(number - 1):
        at += 2 + (message[at] << 8 | message[at + 1])
    if number == 0 or at + 3 > len(message):
        return HEADER
    length = message[at] << 8 | message[at + 1]
    is_known = is_frame(length, message[at + 2], message[4])
    return message[:at] + (message[at + 2 + length :] if is_known else b"")


def last_identifier(message: bytes) -> Identifier | None:
    """The identifier that the last operation of a message names: there its writer's caret stands. None in a faulty one."""
    at, last = HEADER_SIZE, 0
    while at + 9 <= len(message):
        last, at = at, at + 2 + (message[at] << 8 | message[at + 1])
    if not last or at != len(message):
        return None
    counter, site = struct.unpack_from(">IH", message, last + 3)
    further = (at - last - 19) // 4 if message[last + 2] == 3 else 0
    return Identifier(counter + further, site)


def gathered(frames: bytes) -> bytes:
    """Frames of version 1 as a message of version 2: insertions that join the one before are one run."""
    parts = [HEADER_2]
    at = 0
    while at < len(frames):
        if frames[at + 2] == 2:
            end = at + 9
            parts.append(frames[at:end])
        else:
            end = run_end(frames, at)
            characters = b"".join(frames[k + 15 : k + 19] for k in range(at, end, 19))
            kind = 1 if end - at == 19 else 3
            parts.append(struct.pack(">HB", 13 + len(characters), kind) + frames[at + 3 : at + 15] + characters)
        at = end
    return b"".join(parts)


def run_end(frames: bytes, at: int) -> int:
    """Where the run that begins at an insertion's frame ends, of frames of version 1."""
    end = at + 19
    limit = at + 19 * MOST
    while end < limit and end < len(frames) and frames[end + 2] == 1:
        counter, site, parent, parent_site = struct.unpack_from(">IHIH", frames, end + 3)
        last, last_site = struct.unpack_from(">IH", frames, end - 16)
        if (counter, site, parent, parent_site) != (last + 1, last_site, last, last_site):
            break
        end += 19
    return end


class Sought:
    """The characters of some identifiers, looked for in one message after the other."""

    def __init__(self) -> None:
        self.counters: dict[int, list[int]] = {}
        self.found: dict[Identifier, str] = {}
        self.count = 0

    def want(self, identifiers: list[Identifier]) -> None:
        """Looks for these too."""
        self.count += len(identifiers)
        for counter, site in identifiers:
            self.counters.setdefault(site, []).append(counter)

    def begin(self) -> None:
        """Notes that there are no more."""
        for counters in self.counters.values():
            counters.sort()

    def look(self, message: bytes) -> bool:
        """Looks in a sound message; answers whether all are found."""
        at = HEADER_SIZE
        while at < len(message):
            end = at + 2 + (message[at] << 8 | message[at + 1])
            first, site = struct.unpack_from(">IH", message, at + 3)
            if message[at + 2] != 2 and site in self.counters:
                named, behind = self.counters[site], first + (end - at - 15) // 4
                for counter in named[bisect_left(named, first) : bisect_left(named, behind)]:
                    (scalar,) = struct.unpack_from(">I", message, at + 15 + 4 * (counter - first))
                    self.found[Identifier(counter, site)] = chr(scalar)
            at = end
        return len(self.found) == self.count


def survey(log: bytes) -> tuple[set[int], list[int]]:
    """The sites of the insertions of a whole file of version 1, and where its pieces begin."""
    found = set()
    marks = [HEADER_SIZE]
    at = HEADER_SIZE
    while at < len(log):
        if log[at + 2] != 2:
            found.add(log[at + 7] << 8 | log[at + 8])
        if at - marks[-1] >= PIECE:
            marks.append(at)
        at += 2 + log[at + 1]
    return found, marks
