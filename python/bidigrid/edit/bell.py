"""A bell, by which a thread has another one's select return."""

from __future__ import annotations

import os


class Bell:
    """A pipe that is written to be read by select. However often it rings, it is heard once."""

    def __init__(self) -> None:
        self.ear, self.rope = os.pipe2(os.O_CLOEXEC | os.O_NONBLOCK)

    def ring(self) -> None:
        """Has whoever waits look."""
        try:
            os.write(self.rope, b".")
        except BlockingIOError:
            return  # it rings already

    def hush(self) -> None:
        """Silences it, before one looks."""
        try:
            os.read(self.ear, 1 << 16)
        except BlockingIOError:
            return

    def fileno(self) -> int:
        """What select waits for."""
        return self.ear

    def close(self) -> None:
        """Takes it away."""
        os.close(self.ear)
        os.close(self.rope)
