"""What goes wrong, and how it is reported."""

from ._bidigrid import ffi, lib
from .change import Changes

_NONE = Changes()


class Fault(Exception):
    """What the library refused. Those of memory, places and values are also the exceptions that Python has for them.

    number: the number of the fault, as the C header has it.
    name: its name, as "IdentifierReused".
    frame: the faulty frame of a message, from 1, or 0 for its header; None where no frame is faulty.
    taken: how many operations of a message stay taken, from its front. Of a merge it is 0, whatever stays.
    changes: what those that stay changed in the text, in order; None where there was no memory to tell it, so that the
        text is to be read anew.
    """

    def __init__(
        self, number: int, frame: int | None = None, taken: int = 0, changes: Changes | None = _NONE
    ) -> None:
        super().__init__(number, frame, taken, changes)
        self.number = number
        self.name: str = ffi.string(lib.bidigrid_fault_name(number)).decode("ascii")
        self.frame = frame
        self.taken = taken
        self.changes = changes

    def __str__(self) -> str:
        words: str = ffi.string(lib.bidigrid_python_words(self.number)).decode("ascii")
        where = "" if self.frame is None else f" (frame {self.frame})"
        return f"{self.number} {self.name}: {words}{where}"


class MemoryFault(Fault, MemoryError):
    """There was no memory."""


class IndexFault(Fault, IndexError):
    """There is no such place, row or gap."""


class ValueFault(Fault, ValueError):
    """A width, base, site or identifier that is none, or a text too long."""


class ThreadFault(RuntimeError):
    """An object was used on another thread than the one that made it."""


_KINDS: dict[int, type[Fault]] = {
    lib.BIDIGRID_FAULT_MEMORY: MemoryFault,
    lib.BIDIGRID_FAULT_BAD_PLACE: IndexFault,
    lib.BIDIGRID_FAULT_BAD_ROW: IndexFault,
    lib.BIDIGRID_FAULT_BAD_CARET: IndexFault,
    lib.BIDIGRID_FAULT_TEXT_TOO_LONG: ValueFault,
    lib.BIDIGRID_FAULT_BAD_WIDTH: ValueFault,
    lib.BIDIGRID_FAULT_BAD_BASE: ValueFault,
    lib.BIDIGRID_FAULT_BAD_SITE: ValueFault,
    lib.BIDIGRID_FAULT_BAD_IDENTIFIER: ValueFault,
}


def fault(number: int, frame: int | None = None, taken: int = 0, changes: Changes | None = _NONE) -> Fault:
    """The exception of an answer of the library."""
    return _KINDS.get(number, Fault)(number, frame, taken, changes)


def must(answer: int) -> None:
    """Raises the fault of an answer that is one."""
    if answer:
        raise fault(answer)
