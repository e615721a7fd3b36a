"""What takes a disk long, done by a thread, since select can't wait for a disk."""

from __future__ import annotations

import collections
import contextlib
import os
import queue
import threading
from collections.abc import Callable, Iterable

from .bell import Bell

Task = Callable[[], object]
Answer = Callable[[OSError | None], None]


class Disk:
    """A thread that does one task after the other. Whether each went well is answered to who asked for it, once select says
    that an answer is there."""

    def __init__(self) -> None:
        self.tasks: queue.SimpleQueue[Task | None] = queue.SimpleQueue()
        self.done: queue.SimpleQueue[OSError | None] = queue.SimpleQueue()
        self.waiting: collections.deque[Answer] = collections.deque()
        self.bell = Bell()
        self.thread = threading.Thread(target=self.serve, daemon=True)
        self.thread.start()

    def serve(self) -> None:
        """What the thread does, until it is closed."""
        while task := self.tasks.get():
            error = None
            try:
                task()
            except OSError as caught:
                error = caught
            self.done.put(error)
            self.bell.ring()

    def ask(self, answer: Answer, task: Task) -> None:
        """Has a task done. Its answer comes later."""
        self.waiting.append(answer)
        self.tasks.put(task)

    def read(self, is_waited_for: bool = False) -> None:
        """Gives the answers that are there to those who asked, or waits for all."""
        self.bell.hush()
        while self.waiting and (is_waited_for or not self.done.empty()):
            self.waiting.popleft()(self.done.get())

    def fileno(self) -> int:
        """What select waits for."""
        return self.bell.fileno()

    def close(self) -> None:
        """Ends the thread, after what was asked for."""
        self.tasks.put(None)
        self.thread.join()
        self.bell.close()


def write_whole(path: str, parts: Iterable[bytes]) -> None:
    """Writes a file, whole or not at all: where a link leads, and for those who may read the one that was there."""
    path = os.path.realpath(path)
    with open(f"{path}.new", "wb") as file:
        try:
            with contextlib.suppress(OSError):
                os.fchmod(file.fileno(), os.stat(path).st_mode & 0o777)
            file.writelines(parts)
            file.flush()
            os.fsync(file.fileno())
            os.replace(file.name, path)
        except OSError:
            os.unlink(file.name)
            raise


def write_at(file: int, data: bytes, at: int) -> None:
    """Writes at a place of a file."""
    while data:
        written = os.pwrite(file, data, at)
        data, at = data[written:], at + written
