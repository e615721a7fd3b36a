"""What was typed last, where no disk holds it up: in a file in memory, from which the log gets it if the editor is killed."""

from __future__ import annotations

from .memory import MemoryFile

OVERLAP = 64  # bytes before what is put first, by which the log is known again
LARGE = 1 << 20  # bytes, behind which it is begun anew


class Staging(MemoryFile):
    """A file with the same bytes as the log at the same places."""

    start = 0

    def beyond(self, tail: bytes, end: int) -> bytes:
        """What it has behind the end of a log with these last bytes. A log without any is a new one, in an old one's place."""
        held = self.read(end - len(tail)) if tail else b""
        return held[len(tail) :] if held.startswith(tail) else b""

    def begin(self, tail: bytes, end: int) -> None:
        """Forgets all but the last bytes of a log that is flushed."""
        self.start = end
        self.cut(0)
        self.put(tail, end - len(tail))

    def is_large(self, end: int) -> bool:
        """Whether it is to be begun anew, once the log is flushed up to there."""
        return end - self.start > LARGE
