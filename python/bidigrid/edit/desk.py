"""A desk: one's copy of a text, whose own operations are logged, and sent, and which takes what others send."""

from __future__ import annotations

import collections
import functools
import time
from collections.abc import Callable, Iterator

from .. import Document, Fault, Identifier
from ..given import Base
from . import carets
from .anew import backwards, fill, whole_file
from .carrier import Carrier
from .channel import SNAPSHOT, Channel, Here, Message
from .fault import EditFault, reason
from .frames import pieces
from .log import Log
from .start import loaded, site_of
from .taking import MOST_FAULTS, Held, taken
from .undo import Edit, Edits

AGAIN = 1.0  # seconds between two tries to write a log that could not be written
AT_ONCE = 0.005  # seconds in which one does what is long, before one looks again whether a key has come
LONG = 20_000  # characters, up to which a range is erased at once
QUIET = 2.0  # seconds without an edit, after which a whole file may be written for others

Ends = tuple[Identifier, Identifier]
"""The first and the last character of a range."""


class Desk:
    """One's copy of a text. `notice` is what is to be reported, `failure` why the log can't be written, `caret` the character
    that one's caret stands behind, and `is_changed` is set where there is something new to be seen."""

    def __init__(
        self,
        log: Log,
        channel: Channel | None = None,
        site: int | None = None,
        width: int = 80,
        base: Base = "auto",
        wide_ambiguous: bool = False,
    ) -> None:
        self.log = log
        self.edits = Edits()
        self.held = Held()
        self.came: collections.deque[Message] = collections.deque()
        self.part: Iterator[Message] = iter(())
        self.jobs: collections.deque[Iterator[object]] = collections.deque()
        self.leaving: list[Ends] = []  # the ranges that are being erased
        self.notice = self.failure = ""
        self.caret: Identifier | None = None
        self.is_changed = self.is_whole = True
        self.is_behind = False
        self.signs: object = None
        self.typed_at = self.failed_at = 0.0
        self.wide_ambiguous = wide_ambiguous
        try:
            self.begin(channel, site, width, base)
        except EditFault:
            log.discard()
            raise
        self.carrier = Carrier(channel, log) if channel else None

    def begin(self, channel: Channel | None, site: int | None, width: int, base: Base) -> None:
        """Finds the site, and makes the document of the log and of what the others have written."""
        self.site = site_of(self.log, channel, site)
        try:
            self.log.flush()
        except OSError as error:
            raise EditFault(f"cannot write {self.log.path}: {reason(error)}") from None
        came = channel.open(self.log, self.site) if channel else []
        how = functools.partial(Document.load, site=self.site, width=width, base=base, wide_ambiguous=self.wide_ambiguous)
        self.document = loaded(self.log, came, self.held, how)
        for message in came:
            self.take(message)

    def replace(self, start: int, stop: int, text: str, joined: Edit | None = None) -> Edit | None:
        """Erases a range and types a text where it began, as a part of an edit where it joins one; answers the edit."""
        if start == stop and not text:
            return joined
        behind = carets.character_at(self.document, stop) if start < stop else None
        message = self.document.replace(start, min(stop, start + LONG), text)
        edit = self.edits.add(message, text, joined, behind)
        self.made(message)
        if stop - start > LONG:
            start, stop = start + len(text), stop - LONG + len(text)
            ends = self.document.id_at(start), self.document.id_at(stop - 1)
            self.leaving.append(ends)
            self.begin_job(self.erase(ends, edit, behind))
        return edit

    def erase(self, ends: Ends, edit: Edit, behind: Identifier | None) -> Iterator[None]:
        """Erases the rest of a long range in pieces, the first ones first. What others send waits meanwhile, so that what
        they have written in it stays."""
        start, stop = self.places_of(ends)
        while start < stop:
            message = self.document.erase(start, min(stop, start + LONG))
            self.edits.add(message, "", edit, behind)
            self.made(message)
            yield
            start, stop = self.places_of(ends)
        self.leaving.remove(ends)

    def places_of(self, ends: Ends) -> tuple[int, int]:
        """From where up to where a range is that is being erased."""
        first, last = ends
        return self.document.place_of(first), carets.place_behind(self.document, last) or 0

    def take_back(self, again: bool = False) -> Iterator[int | None]:
        """Takes one's last edit back, or does again what was taken back last, in pieces; yields after each where that was."""
        return self.edits.take_back(lambda: self.document, self.made, lambda: backwards(self.log, self.held), again)

    def change_ambiguous(self) -> Iterator[None]:
        """Characters of ambiguous width take two cells where they took one, and one where they took two: in another document,
        which is made in pieces."""
        old, wide = self.document, not self.wide_ambiguous
        new = Document(self.site, old.width, old.base, wide_ambiguous=wide)
        yield from fill(new, self.log, self.held)
        new.base = old.base
        new.resize(old.width)
        self.document, self.wide_ambiguous = new, wide
        old.close()

    def made(self, message: bytes) -> None:
        """Logs an own message: it is saved at once, so that it outlives the editor, and flushed before it is sent."""
        self.typed_at = time.monotonic()
        self.log.append(message)
        self.keep(self.log.keep)
        self.is_changed = True

    def take(self, message: Message) -> None:
        """Takes a message of another. What is wrong with it is reported, and left out; what else it has is taken."""
        faults = list(taken(self.document, message.data, self.held))
        for fault in faults:
            self.notice = f"{message.sender}: {fault}; left out"
            if message.sender == SNAPSHOT or isinstance(fault, MemoryError) or fault.name == "Full":
                self.is_whole = False
        if len(faults) == MOST_FAULTS:
            self.notice = f"{message.sender}: faulty again and again; left out"

    def begin_job(self, job: Iterator[object]) -> None:
        """Does what may be long, in pieces between keys."""
        self.jobs.append(job)
        self.work()

    def work(self) -> bool:
        """Goes on with that for a while; answers whether there was any."""
        until = time.monotonic() + AT_ONCE
        is_any = False
        while self.jobs and (not is_any or time.monotonic() < until):
            is_any = self.is_changed = True
            try:
                if next(self.jobs[0], self) is self:
                    self.jobs.popleft()
            except (Fault, MemoryError) as fault:
                self.notice = str(fault) or "memory"
                self.jobs.popleft()
        return is_any

    def turn(self) -> bool:
        """Goes on with the log and with what is long, has sent what is flushed, and takes what has come. Answers whether the
        text may be another one then."""
        self.keep(self.log.turn)
        is_new = self.work()
        if not self.carrier:
            return is_new
        self.came += self.carrier.turn(self.caret)
        has_come = not self.leaving and self.take_some()
        signs = self.state(), {site: (here.name, here.caret) for site, here in self.here().items()}
        if has_come or signs != self.signs:
            self.signs, self.is_changed = signs, True
        # What isn't flushed must not be seen by others, and what a newcomer reads must be all.
        if time.monotonic() - self.typed_at >= QUIET and self.is_whole and self.is_idle() and not self.is_behind:
            if self.carrier.wants_snapshot(len(self.document)):
                self.carrier.keep(whole_file(self.log, self.held, self.site))
        return has_come or is_new

    def take_some(self) -> bool:
        """Takes what has come, a part of it where that is much; answers whether any has."""
        until = time.monotonic() + AT_ONCE
        has_come, self.is_behind = False, True
        while not has_come or time.monotonic() < until:
            if message := next(self.part, None):
                self.take(message)
                has_come = True
            elif self.came:
                sender, data = self.came.popleft()
                self.part = (Message(sender, piece) for piece in pieces(data))
            else:
                self.is_behind = False
                break
        return has_come

    def here(self) -> dict[int, Here]:
        """Who else is here, by site."""
        return self.carrier.told.here if self.carrier else {}

    def state(self) -> str:
        """The connection in a few words."""
        return self.carrier.state() if self.carrier else "alone"

    def readers(self) -> list[int]:
        """What select may wait for."""
        files = [self.carrier.fileno()] if self.carrier else []
        return files if self.failed_at else [*files, self.log.disk.fileno()]

    def keep(self, how: Callable[[], None]) -> None:
        """Writes what was typed, or has it flushed too. Where that fails it is reported, and tried again."""
        now = time.monotonic()
        if now - self.failed_at < AGAIN:
            return
        try:
            how()
        except OSError as error:
            failure = f"{self.log.path} is not written, what you type is kept: {reason(error)}"
            # At each further try what was reported since stays.
            self.notice = self.notice if self.failure else failure
            self.failure, self.failed_at, self.is_changed = failure, now, True
        if self.failure and not self.log.waiting:
            self.notice, self.failure, self.failed_at, self.is_changed = "the log is written again", "", 0.0, True

    def is_saved(self) -> bool:
        """Writes and flushes what waits, if it can; answers whether none waits then."""
        self.failed_at = 0.0
        self.keep(self.log.flush)
        return not self.log.waiting

    def patience(self) -> float | None:
        """How many seconds the next turn may be waited for at most; None for as long as nothing is typed."""
        if self.is_behind or self.jobs:
            return 0.0
        return AGAIN if self.failed_at or self.carrier else None

    def is_idle(self) -> bool:
        """Whether all that was typed is flushed and sent."""
        return not (self.jobs or self.log.waiting) and (not self.carrier or self.carrier.is_sent())

    def close(self) -> None:
        """Ends what is going on, flushes and sends what is left, if it can, and leaves."""
        while self.jobs:
            self.turn()
        until = time.monotonic() + AGAIN
        while self.is_saved() and not self.is_idle() and time.monotonic() < until:
            self.turn()
            time.sleep(0.005)
        if self.carrier:
            self.carrier.close()
        self.log.close()
