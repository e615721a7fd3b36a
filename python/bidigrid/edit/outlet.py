"""The way to the terminal, which may take nothing for a while: what curses writes goes through a file, and no key waits."""

from __future__ import annotations

import os


class Outlet:
    """Takes the place of the standard output, from where curses has begun until it ends."""

    def __init__(self) -> None:
        self.rest = b""
        self.file = os.memfd_create("bidigrid-edit")
        self.output = os.dup(1)
        try:
            # Not to block is for this way alone: what is opened anew shares that with nobody.
            self.terminal = os.open(os.ttyname(1), os.O_WRONLY | os.O_NONBLOCK | os.O_NOCTTY | os.O_CLOEXEC)
        except OSError:
            self.terminal = os.dup(1)
        os.dup2(self.file, 1)

    def flush(self) -> None:
        """Gives the terminal what was written, as much as it takes."""
        if size := os.lseek(self.file, 0, os.SEEK_CUR):
            self.rest += os.pread(self.file, size, 0)
            os.lseek(self.file, 0, os.SEEK_SET)
            os.ftruncate(self.file, 0)
        try:
            while self.rest:
                self.rest = self.rest[os.write(self.terminal, self.rest) :]
        except BlockingIOError:
            return
        except OSError:
            self.rest = b""  # a terminal that is gone is told by what is read of it

    def fileno(self) -> int:
        """What select waits for, until the terminal takes more."""
        return self.terminal

    def close(self) -> None:
        """Gives the standard output back."""
        os.dup2(self.output, 1)
        for file in (self.file, self.output, self.terminal):
            os.close(file)
