"""What a thread made stays on it: its tables, and what the library holds for its objects."""

import os
import threading
from collections import deque
from collections.abc import Callable
from types import TracebackType
from typing import Any, NoReturn, Self, TypeVar

from ._bidigrid import ffi, lib
from .fault import ThreadFault, must

Answer = TypeVar("Answer")


class Home:
    """What one thread made. No handle of the library may be used on another thread, not even to free it: what is
    collected elsewhere is left for this one to free, at its next call or at its end."""

    def __init__(self) -> None:
        self._tables: dict[bool, Any] = {}
        self._held: dict[int, tuple[Any, Callable[[Any], None]]] = {}
        self.left: deque[int] = deque()

    def tables(self, wide_ambiguous: bool) -> Any:
        """The tables of Unicode, made once."""
        wide = bool(wide_ambiguous)
        if wide not in self._tables:
            self._tables[wide] = ffi.new("bidigrid_tables *")
        made = self._tables[wide]
        if not made.held:
            must(lib.bidigrid_tables_unicode(made, wide))
        return made

    def hold(self, handle: Any, free: Callable[[Any], None]) -> int:
        """Keeps a full handle until it is freed, and returns the number that it is kept under."""
        number = id(handle)
        self._held[number] = handle, free
        return number

    def free(self, number: int) -> None:
        """Frees what is kept under a number, if it still is."""
        handle, free = self._held.pop(number, (None, None))
        if free is not None:
            free(handle)

    def free_left(self) -> None:
        """Frees what other threads left."""
        while self.left:
            self.free(self.left.popleft())

    def end(self) -> None:
        """Frees all, at the end of the thread."""
        for number in list(self._held):
            self.free(number)
        for made in self._tables.values():
            lib.bidigrid_tables_free(made)
        self._tables.clear()


class _End:
    """Goes with its thread, on that thread, and takes along what the thread made. In a forked child all other threads go at
    once, wherever they were, so that there it frees nothing."""

    process = 0  # none, until it is made whole

    def __init__(self, home: Home) -> None:
        self.home = home
        self.process = os.getpid()

    def __del__(self) -> None:
        if self.process == os.getpid():
            self.home.end()


class _Here(threading.local):
    """The home of the thread that asks."""

    def __init__(self) -> None:
        self.home = Home()
        self.end = _End(self.home)


_here = _Here()


def here() -> Home:
    """The home of this thread."""
    home = _here.home
    if home.left:
        home.free_left()
    return home


class Held:
    """An object that the library holds something for. It belongs to the thread that made it: another thread that uses it
    gets a ThreadFault, and nothing is done. What it holds is freed with it, or earlier by `close`."""

    _home: Home | None = None
    _handle: Any = None
    _number: int = 0
    _is_busy: bool = False

    def _hold(self, home: Home, handle: Any, free: Callable[[Any], None]) -> None:
        """Keeps a handle, in place of the one that it had if it is made anew. It comes before the handle is filled, so that
        it is freed whatever goes wrong from then on."""
        if self._handle is not None:
            self.close()
        self._number = home.hold(handle, free)
        self._home, self._handle = home, handle

    def _full(self) -> Any:
        """Its handle, for the thread that made it."""
        self._at_home()
        if self._handle is None:
            raise ValueError(f"this {type(self).__name__} is closed")
        return self._handle

    def _at_home(self) -> Home:
        """The home of this thread, where it has to be its own and in no other call."""
        home = here()
        if self._home is None:
            raise ValueError(f"this {type(self).__name__} was never made: its __init__ has to call super().__init__")
        if home is not self._home:
            raise ThreadFault(f"this {type(self).__name__} belongs to the thread that made it")
        if self._is_busy:
            raise RuntimeError(f"this {type(self).__name__} is in the middle of a call, which something interrupts")
        return home

    def _alone(self, call: Callable[..., Answer], *given: Any) -> Answer:
        """What makes calls of the library that belong together: whoever comes in between, as a signal handler, is refused."""
        self._is_busy = True
        try:
            return call(*given)
        finally:
            self._is_busy = False

    def close(self) -> None:
        """Frees what it holds. Every later call but this one is a ValueError."""
        self._at_home().free(self._number)
        self._handle = None

    def __enter__(self) -> Self:
        self._full()
        return self

    def __exit__(
        self, kind: type[BaseException] | None, raised: BaseException | None, trace: TracebackType | None
    ) -> None:
        self.close()

    def __del__(self) -> None:
        # An object that was never made, or that is closed, has no handle.
        if self._home is None or self._handle is None:
            return
        # A thread that is just beginning, which has no home yet, may collect it too.
        if getattr(_here, "home", None) is self._home:
            self._home.free(self._number)
        else:
            self._home.left.append(self._number)

    def __reduce__(self) -> NoReturn:
        raise TypeError(self._unpickled)

    _unpickled = "it can't be pickled or copied: the library holds it"
