"""One's own edits, taken back from the last on: by new operations, so that what others wrote stays."""

from __future__ import annotations

import dataclasses
import itertools
from collections.abc import Callable, Iterable, Iterator
from typing import NamedTuple

from .. import Document, Identifier
from .carets import character_at, is_seen, place_behind
from .frames import Operation, Sought, last_identifier, operations

AT_ONCE = 250  # characters that are taken back at once

Made = Callable[[bytes], None]
Take = Callable[..., None]
Kept = Callable[[], Iterable[bytes]]


class Part(NamedTuple):
    """A message of an edit, and the character that stood behind what it erased; none at the text's end."""

    message: bytes
    behind: Identifier | None = None


@dataclasses.dataclass(eq=False)
class Edit:
    """What was typed and erased at once, in the order of the text; an open one is a word that is still typed."""

    parts: list[Part]
    is_open: bool


@dataclasses.dataclass
class Return:
    """What was erased side by side: where it is to stand, and under which identifiers it stood."""

    place: int
    old: list[Identifier]


Erased = tuple[Identifier, int]
"""A character that was erased, and the number of the part that did it."""


class Edits:
    """The edits that can be taken back, and what took some back and can be taken back too. What is typed again after it was
    erased has another identifier then."""

    def __init__(self) -> None:
        self.made: list[Edit] = []
        self.undone: list[Edit] = []
        self.renamed: dict[Identifier, Identifier] = {}

    def add(self, message: bytes, typed: str, joined: Edit | None = None, behind: Identifier | None = None) -> Edit:
        """Keeps what a message says, as a part of an edit where it joins one, and what stood behind what it erased. Characters
        of a word that are typed one after the other are one edit."""
        first, part = next(operations(message)), Part(message, behind)
        is_key = len(typed) == 1 and first.character is not None
        last = self.made[-1] if self.made else None
        # What is done in another way now isn't done again.
        self.undone = []
        if joined:
            joined.parts.append(part)
            return joined
        if last and last.is_open and is_key and first.parent == last_identifier(last.parts[-1].message):
            last.parts.append(part)
            last.is_open = not typed.isspace()
        else:
            self.made.append(Edit([part], is_key))
        return self.made[-1]

    def close(self) -> None:
        """Has what is typed next be an edit of its own."""
        if self.made:
            self.made[-1].is_open = False

    def now(self, identifier: Identifier) -> Identifier:
        """The identifier that a character has by now."""
        while identifier in self.renamed:
            identifier = self.renamed[identifier]
        return identifier

    def take_back(self, now: Callable[[], Document], made: Made, kept: Kept, again: bool) -> Iterator[int | None]:
        """Takes the last edit back that is still to be seen, or what took one back, in pieces, and answers after each where that
        was, or nothing where nothing was seen. `now` has the document, `kept` the operations of the text, and `made` takes new
        messages. These are an edit, which can be taken back in turn."""
        source, target = (self.undone, self.made) if again else (self.made, self.undone)
        last, back = [source.pop()] if source else [], Edit([], False)
        if last:
            # It is there at once, so that what is pressed meanwhile is about this.
            target.append(back)
        return self.take_out(itertools.chain(last, those_before(source, len(source))), back, target, now, made, kept)

    def take_out(
        self, edits: Iterator[Edit], back: Edit, target: list[Edit], now: Callable[[], Document], made: Made, kept: Kept
    ) -> Iterator[int | None]:
        """Takes the first of some edits back of which something is seen. What that does is `back`, which is one of `target`
        where it does anything."""
        is_done = False
        piece: list[Part] = []

        def take(message: bytes, behind: Identifier | None = None) -> None:
            piece.append(Part(message, behind))
            made(message)

        while not is_done and (edit := next(edits, None)):
            for place in itertools.chain(self.erase(now(), take, edit), self.type(now(), take, edit, kept)):
                is_done = is_done or place is not None
                # A piece goes from its last range to the first, and an edit has them in the order of the text.
                back.parts += reversed(piece)
                piece.clear()
                yield place
        if not back.parts and back in target:
            target.remove(back)

    def erase(self, document: Document, take: Take, edit: Edit) -> Iterator[int | None]:
        """Erases what an edit typed."""
        for some in batches(edit):
            place = None
            typed = (self.now(it.identifier) for it, _ in some if it.character is not None)
            for place, stop in stretches(document, typed):
                behind = character_at(document, stop)
                take(document.erase(place, stop), behind)
            yield place

    def type(self, document: Document, take: Take, edit: Edit, kept: Kept) -> Iterator[int | None]:
        """Types again what it erased."""
        sought = Sought()
        for some in erasures(edit):
            sought.want([identifier for identifier, _ in some])
            yield None
        if not sought.count:
            return
        sought.begin()
        for message in kept():
            if sought.look(message):
                break
            yield None
        batch: list[Erased] = []
        bound, last = Bound(edit, self.now), None
        for following in itertools.chain(erasures(edit), [None]):
            if not batch or following == []:
                batch = following or batch
                yield None
                continue
            gone = returns(document, batch, bound)
            # Where what is side by side goes on in the next batch, so does what is typed.
            goes_on = following and returns(document, following[:1], bound)[0].place == gone[-1].place
            if last:
                gone[0].place = place_behind(document, last) or 0
            for stretch in reversed(gone):
                message = document.type(stretch.place, "".join(sought.found[it] for it in stretch.old))
                self.renamed.update(zip(stretch.old, (it.identifier for it in operations(message))))
                take(message)
            typed = self.renamed[batch[-1][0]]
            last = typed if goes_on else None
            yield place_behind(document, typed)
            batch = following or []


class Bound:
    """Up to where parts of an edit can have stood that it erased: each before what stood behind it, or behind a later one. What
    was typed again since stands before all that is erased at its place, also where that stood before it."""

    def __init__(self, edit: Edit, now: Callable[[Identifier], Identifier]) -> None:
        self.parts = edit.parts
        self.now = now
        self.at = 0

    def of(self, document: Document, part: int) -> int:
        """The place up to which this part stood. The parts are asked for in their order."""
        self.at = max(self.at, part)
        while self.at < len(self.parts):
            if behind := self.parts[self.at].behind:
                identifier = self.now(behind)
                place = document.place_of(identifier)
                if is_seen(document, identifier, place):
                    return place
            self.at += 1
        return len(document)


def those_before(edits: list[Edit], at: int) -> Iterator[Edit]:
    """The edits of a list before one of its places, from the last on, each taken out of it when it is asked for."""
    while at := min(at, len(edits)):
        at -= 1
        yield edits.pop(at)


def batches(edit: Edit) -> Iterator[list[tuple[Operation, int]]]:
    """The operations of an edit, in the order of the text, some at once, each with the number of its part."""
    all_of_it = ((it, number) for number, part in enumerate(edit.parts) for it in operations(part.message))
    while some := list(itertools.islice(all_of_it, AT_ONCE)):
        yield some


def erasures(edit: Edit) -> Iterator[list[Erased]]:
    """What an edit erases, some at once, or none."""
    for some in batches(edit):
        yield [(it.identifier, part) for it, part in some if it.character is None]


def stretches(document: Document, typed: Iterable[Identifier]) -> list[tuple[int, int]]:
    """Where characters stand now that were not erased since: from one place up to another, the last first."""
    found: list[tuple[int, int]] = []
    for identifier in typed:
        place = document.place_of(identifier)
        if not is_seen(document, identifier, place):
            continue
        if found and found[-1][1] == place:
            found[-1] = (found[-1][0], place + 1)
        else:
            found.append((place, place + 1))
    return sorted(found, reverse=True)


def returns(document: Document, erased: list[Erased], bound: Bound) -> list[Return]:
    """What is to be typed again: where it stood, the first first."""
    found: list[Return] = []
    for part, some in itertools.groupby(erased, lambda it: it[1]):
        end = bound.of(document, part)
        for identifier, _ in some:
            place = min(end, document.place_of(identifier))
            if found and found[-1].place == place:
                found[-1].old.append(identifier)
            else:
                found.append(Return(place, [identifier]))
    return found
