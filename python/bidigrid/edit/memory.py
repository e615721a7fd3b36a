"""A file in memory beside a log: what is put there outlives the editor, and no disk holds it up."""

from __future__ import annotations

import os
import stat

from .disk import write_at

FOLDER = "/dev/shm"  # a tmpfs, on every Linux


class MemoryFile:
    """A file for the eyes of its owner alone. Where there can be none, nothing is put."""

    def __init__(self, log: int, ending: str = "") -> None:
        status = os.fstat(log)
        self.path = f"{FOLDER}/bidigrid-edit.{os.geteuid()}.{status.st_dev:x}.{status.st_ino:x}{ending}"
        self.file: int | None = None
        try:
            self.file = os.open(self.path, os.O_RDWR | os.O_CREAT | os.O_NOFOLLOW | os.O_NONBLOCK | os.O_CLOEXEC, 0o600)
            held = os.fstat(self.file)
            if held.st_uid != os.geteuid() or not stat.S_ISREG(held.st_mode):
                self.give_up()
        except OSError:
            self.give_up()

    def put(self, data: bytes, at: int) -> bool:
        """Puts bytes at an offset; answers whether it could."""
        try:
            if self.file is not None:
                write_at(self.file, data, at)
        except OSError:
            self.give_up()
        return self.file is not None

    def read(self, start: int) -> bytes:
        """All that is there from an offset on."""
        if self.file is None:
            return b""
        return os.pread(self.file, max(0, os.fstat(self.file).st_size - start), start)

    def cut(self, size: int) -> None:
        """Forgets all but so many bytes."""
        if self.file is not None:
            os.ftruncate(self.file, size)

    def give_up(self) -> None:
        """Puts nothing more."""
        if self.file is not None:
            os.close(self.file)
        self.file = None

    def close(self, is_needed: bool) -> None:
        """Leaves it, to be found at the next start where it is needed."""
        if self.file is not None and not is_needed:
            os.unlink(self.path)
        self.give_up()
