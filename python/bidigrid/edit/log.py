"""The log of a desk: a file of its own operations, each saved at once, and flushed before anyone hears of it."""

from __future__ import annotations

import fcntl
import os
from collections.abc import Iterable, Iterator

from .disk import Disk, write_at, write_whole
from .fault import EditFault, reason
from .frames import HEADER, HEADER_2, HEADER_SIZE, PIECE, operations, spelled, survey, whole_end
from .staging import OVERLAP, Staging


class Log:
    """An operation file of version 1, where what is appended leaves all as it is that is there.

    Opening it locks it, and cuts off a last frame that was not written to its end: it was never flushed, so nobody
    has seen it. `size` is how many bytes are flushed, `waiting` what is still to be. Of that the system has the first
    `kept` bytes in memory, which outlive the editor, and `flushing` of these are on their way to the disk.
    """

    def __init__(self, path: str) -> None:
        self.path = path
        self.waiting = bytearray()
        self.size = self.kept = self.flushing = 0
        try:
            self.file, self.is_new = opened(path)
        except OSError as error:
            raise EditFault(f"cannot open {path}: {reason(error)}") from None
        try:
            self.lock()
            self.size = self.sound_size()
            self.staging = Staging(self.file)
            self.take_over()
            # An editor that was killed may have written what it didn't flush.
            os.fdatasync(self.file)
            self.staging.begin(self.tail(), self.size)
            self.sites, self.marks = survey(self.read(0, self.size))
        except OSError as error:
            os.close(self.file)
            raise EditFault(f"cannot read {path}: {reason(error)}") from None
        except EditFault:
            os.close(self.file)
            raise
        if not self.size:
            self.waiting += HEADER
        self.disk = Disk()

    def lock(self) -> None:
        """Keeps other editors from this file."""
        try:
            fcntl.flock(self.file, fcntl.LOCK_EX | fcntl.LOCK_NB)
        except BlockingIOError:
            raise EditFault(f"{self.path} is open in another editor: name another log by --log") from None

    def sound_size(self) -> int:
        """How many bytes of whole frames the file has. What comes behind them is cut off."""
        data = self.read(0, os.fstat(self.file).st_size)
        head = data[:HEADER_SIZE]
        if head == HEADER_2:
            return self.spell_anew(data)
        if not HEADER.startswith(head):
            raise EditFault(f"{self.path} is no operation file")
        end, is_cut = whole_end(data, HEADER_SIZE, 1) if head == HEADER else (0, True)
        # A power cut can leave zeros where bytes were to come.
        if not is_cut and any(data[end:]):
            raise EditFault(f"{self.path} is damaged behind its first {end} bytes")
        os.ftruncate(self.file, end)
        return end

    def spell_anew(self, data: bytes) -> int:
        """Puts a file of version 1 with the same operations in the place of one of version 2."""
        end, is_cut = whole_end(data, HEADER_SIZE, 2)
        if not is_cut:
            raise EditFault(f"{self.path} is damaged behind its first {end} bytes")
        anew = spelled(operations(data[:end]))
        write_whole(self.path, [anew])
        os.close(self.file)
        self.file = os.open(self.path, os.O_RDWR | os.O_CLOEXEC)
        self.lock()
        return len(anew)

    def append(self, message: bytes) -> None:
        """Stages the operations of a message of version 1, and has them wait to be written and flushed."""
        if self.end() - self.marks[-1] >= PIECE:
            self.marks.append(self.end())
        self.waiting += message[HEADER_SIZE:]
        self.is_staged()

    def is_staged(self) -> bool:
        """Gives the system in memory what waits, so that it outlives the editor; answers whether it could."""
        is_there = self.staging.put(bytes(self.waiting[self.kept :]), self.size + self.kept)
        if is_there:
            self.kept = len(self.waiting)
        return is_there

    def take_over(self) -> None:
        """Appends what an editor has saved that was killed before its disk had it."""
        rest = self.staging.beyond(self.tail(), self.size)
        end, _ = whole_end(rest, 0, 1)
        write_at(self.file, rest[:end], self.size)
        self.size += end

    def tail(self) -> bytes:
        """The last bytes that are flushed."""
        return self.read(max(0, self.size - OVERLAP), self.size)

    def turn(self) -> None:
        """Saves what waits, and has it written and flushed, together where a flush is still under way. After an error it
        still waits."""
        self.disk.read()
        try:
            self.keep()
        finally:
            if self.kept and not self.flushing:
                self.flushing = self.kept
                data, at = bytes(self.waiting[: self.kept]), self.size
                self.disk.ask(self.flushed, lambda: self.store(data, at))

    def flush(self) -> None:
        """Writes and flushes all that waits, before it returns."""
        self.turn()
        while self.flushing:
            self.disk.read(is_waited_for=True)
            self.turn()

    def keep(self) -> None:
        """Stages what waits. Where that can't be it is written to the log at once, all of it, so that nothing is left out
        there; or after an error nothing."""
        if self.kept < len(self.waiting) and not self.is_staged():
            try:
                write_at(self.file, bytes(self.waiting), self.size)
            except OSError:
                self.kept = self.flushing
                os.ftruncate(self.file, self.size + self.flushing)
                raise
            self.kept = len(self.waiting)

    def store(self, data: bytes, at: int) -> None:
        """Writes and flushes, or after an error nothing. This is for the disk's thread, since also a write may take long."""
        try:
            write_at(self.file, data, at)
            os.fdatasync(self.file)
        except OSError:
            os.ftruncate(self.file, at)
            raise

    def flushed(self, error: OSError | None) -> None:
        """Takes over what came of a flush. After an error all is to be written anew: the system keeps nothing that it could
        not bring to the disk."""
        flushed, self.flushing = self.flushing, 0
        if error:
            self.kept = 0
            raise error
        self.size += flushed
        self.kept -= flushed
        del self.waiting[:flushed]
        if not self.waiting and self.staging.is_large(self.size):
            self.staging.begin(self.tail(), self.size)

    def read(self, start: int, end: int) -> bytes:
        """The bytes of the file from one place up to another."""
        parts = []
        while start < end and (part := os.pread(self.file, end - start, start)):
            parts.append(part)
            start += len(part)
        return b"".join(parts)

    def end(self) -> int:
        """Where what is appended next will be."""
        return self.size + len(self.waiting)

    def spans(self, start: int, end: int) -> list[tuple[int, int]]:
        """The pieces in which what was appended from one place up to another is read."""
        starts = [start, *(mark for mark in self.marks if start < mark < end)]
        return list(zip(starts, [*starts[1:], end])) if start < end else []

    def messages(self, spans: Iterable[tuple[int, int]]) -> Iterator[bytes]:
        """These pieces as messages. What is flushed may be read by any thread."""
        for start, end in spans:
            size = self.size
            yield HEADER + self.read(start, min(end, size)) + self.waiting[max(0, start - size) : max(0, end - size)]

    def close(self) -> None:
        """Gives the file back, and its lock."""
        self.disk.close()
        self.staging.close(is_needed=bool(self.waiting) and self.end() > HEADER_SIZE)
        os.close(self.file)

    def discard(self) -> None:
        """Gives the file back, and takes it away where it is new and nothing was written to it."""
        if self.is_new and self.size <= HEADER_SIZE:
            os.unlink(self.path)
            self.waiting.clear()
        self.close()


def opened(path: str) -> tuple[int, bool]:
    """A file that is opened, or made where there is none, and whether it was."""
    how = os.O_RDWR | os.O_CREAT | os.O_CLOEXEC
    try:
        return os.open(path, how | os.O_EXCL, 0o666), True
    except FileExistsError:
        return os.open(path, how, 0o666), False
