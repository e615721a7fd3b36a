"""The plain text that Ctrl-S writes: over a file that wasn't written so only once one has heard of it."""

from __future__ import annotations

import errno
import os
from collections.abc import Iterable

from .disk import write_whole


class PlainText:
    """The file that was written last, or that one has heard of."""

    def __init__(self) -> None:
        self.known: object = None

    def write(self, path: str, parts: Iterable[bytes]) -> None:
        """Writes a file. Another one that is there is an error, at the first time."""
        there = stamp(path)
        if there and there != self.known:
            self.known = there
            raise FileExistsError(errno.EEXIST, os.strerror(errno.EEXIST))
        write_whole(path, parts)
        self.known = stamp(path)


def stamp(path: str) -> object:
    """What tells a file from another one, and from itself before it was changed; nothing where there is none."""
    try:
        status = os.stat(path)
    except FileNotFoundError:
        return None
    return status.st_dev, status.st_ino, status.st_size, status.st_mtime_ns
