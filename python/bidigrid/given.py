"""What calls are given, as the library takes it. A number too great for it becomes one that it refuses by name."""

from operator import index
from typing import Literal, TypeAlias, get_args

_MOST = 2**64 - 1
_MOST_OF_32_BITS = 2**32 - 1

Message: TypeAlias = bytes | bytearray | memoryview

# In the order of their numbers in C.
Base: TypeAlias = Literal["auto", "left", "right"]
_BASES = {word: number for number, word in enumerate(get_args(Base))}


def count(number: int) -> int:
    """A place, a row, or how many."""
    it = index(number)
    return it if 0 <= it <= _MOST else _MOST


def small(number: int) -> int:
    """A width or a site."""
    it = index(number)
    return it if 0 <= it <= _MOST_OF_32_BITS else _MOST_OF_32_BITS


def counter(number: int) -> int:
    """The counter of an identifier, which has 32 bits; 0 is none."""
    it = index(number)
    return it if 0 <= it <= _MOST_OF_32_BITS else 0


def base(word: Base) -> int:
    """The number of a base direction."""
    if not isinstance(word, str):
        raise TypeError(f"a base direction is a str, not {type(word).__name__}")
    return _BASES.get(word, _MOST_OF_32_BITS)


def characters(text: str) -> bytes:
    """The UTF-8 of a text; a UnicodeEncodeError, which is a ValueError, where it has a lone surrogate."""
    if not isinstance(text, str):
        raise TypeError(f"a text is a str, not {type(text).__name__}")
    # As str has it, whatever a class below it makes of that.
    return str.encode(text, "utf-8")


def message(data: Message) -> bytes:
    """The bytes of a message, which nobody else can change meanwhile."""
    return data if isinstance(data, bytes) else bytes(memoryview(data))


def key(secret: Message) -> tuple[int, int]:
    """A key of 16 bytes as two numbers, the higher one first."""
    whole = message(secret)
    if len(whole) != 16:
        raise ValueError(f"a key has 16 bytes, not {len(whole)}")
    return int.from_bytes(whole[:8], "big"), int.from_bytes(whole[8:], "big")
