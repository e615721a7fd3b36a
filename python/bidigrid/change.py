"""What a message or a merge changed in a text."""

from collections.abc import Iterator, Sequence
from struct import calcsize, iter_unpack
from typing import NamedTuple, overload


# The numbers of a bidigrid_change.
_FORM = "=Q2I"
_SIZE = calcsize(_FORM)


class Change(NamedTuple):
    """A character was put at a place, or the one there was cut. Each place counts code points, in the text as the changes
    before it left it.

    >>> text = list("tea")
    >>> for place, character in [Change(3, "m"), Change(0, None)]:
    ...     if character is None:
    ...         del text[place]
    ...     else:
    ...         text.insert(place, character)
    >>> "".join(text)
    'eam'
    """

    place: int
    character: str | None
    """The character that was put; None where one was cut."""

    def carry(self, place: int) -> int:
        """The place of a caret after the change: it stays with the character on its right, and goes to where
        that one stood if it was cut.

        >>> Change(3, "m").carry(3), Change(3, "m").carry(2), Change(0, None).carry(3)
        (4, 2, 2)
        """
        if self.character is not None:
            return place + (self.place <= place)
        return place - (self.place < place)


class Changes(Sequence[Change]):
    """What a message or a merge changed in a text, in order: a sequence that is equal to a list of the same changes. Each is
    made when it is asked for, so that it costs nothing where nobody asks."""

    __slots__ = ("_packed",)

    def __init__(self, packed: bytes = b"") -> None:
        """packed: the bytes of a list of `bidigrid_change`."""
        self._packed = packed

    def __len__(self) -> int:
        return len(self._packed) // _SIZE

    @overload
    def __getitem__(self, which: int) -> Change: ...

    @overload
    def __getitem__(self, which: slice) -> list[Change]: ...

    def __getitem__(self, which: int | slice) -> Change | list[Change]:
        numbers = range(len(self))[which]
        if isinstance(numbers, range):
            return [self[number] for number in numbers]
        return next(_changes(self._packed[_SIZE * numbers : _SIZE * (numbers + 1)]))

    def __iter__(self) -> Iterator[Change]:
        return _changes(self._packed)

    def __eq__(self, other: object) -> bool:
        if isinstance(other, (Changes, list)):
            return list(self) == list(other)
        return NotImplemented

    def __repr__(self) -> str:
        return repr(list(self))


def _changes(packed: bytes) -> Iterator[Change]:
    """The changes in the bytes of a list of `bidigrid_change`."""
    for place, code, put in iter_unpack(_FORM, packed):
        yield Change(place, chr(code) if put else None)
