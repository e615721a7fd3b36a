"""Room for what the library writes."""

from collections.abc import Callable
from typing import Any

from ._bidigrid import ffi, lib
from .fault import must

Call = Callable[..., int]

_new = ffi.new_allocator(should_clear_after_alloc=False)

_KINDS = {kind: ffi.typeof(f"{kind}[]") for kind in ("char", "uint8_t", "bidigrid_entry", "bidigrid_change")}
_SIZES = {kind: ffi.sizeof(it.item) for kind, it in _KINDS.items()}
_SHORT_BUFFER = lib.BIDIGRID_FAULT_SHORT_BUFFER


class Room:
    """Room for some things of a kind, which serves one call after the other, and grows where one has more to write."""

    def __init__(self, kind: str, room: int) -> None:
        self._type, self._size, self._room = _KINDS[kind], _SIZES[kind], room
        self._out, self._count = _new(self._type, room), ffi.new("size_t *")

    def written(self, call: Call, *given: Any) -> bytes:
        """The bytes of all that a call writes."""
        while True:
            answer = call(*given, self._out, self._room, self._count)
            if answer != _SHORT_BUFFER:
                must(answer)
                made: bytes = ffi.buffer(self._out, self._count[0] * self._size)[:]
                return made
            # The call wrote how much it wants.
            self._room = self._count[0]
            self._out = _new(self._type, self._room)


def written(call: Call, kind: str, guess: int, *given: Any) -> bytes:
    """The bytes of all that one call writes, whose length is guessed."""
    return Room(kind, guess).written(call, *given)


def filled(call: Call, size: int, *given: Any) -> bytes:
    """The bytes that a call writes, which are so many. They are there before it, since a lack of memory behind it would
    lose the message of what is done."""
    made = bytes(size)
    # Nobody else has these bytes yet, so they may still be written.
    must(call(*given, ffi.from_buffer(_KINDS["uint8_t"], made), size, ffi.NULL))
    return made
