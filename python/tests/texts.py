"""Mixed texts at random, and a text as a plain list."""

from collections.abc import Iterable
from random import Random

from bidigrid import Change

# Letters, digits, marks, ends of lines, brackets, tabs, wide characters and directions of some scripts.
CHARACTERS = "ab ab \nאבאב ابت(1)[2],.-\t\u0301\u05b0\u4e16\U0001f44d\r\u2029\u202b\u202c\u2067\u2069\u200f\u200d"


def mixed(chance: Random, length: int) -> str:
    """A text of so many characters."""
    return "".join(chance.choice(CHARACTERS) for _ in range(length))


def follow(text: list[str], changes: Iterable[Change]) -> None:
    """Changes a text as it is told."""
    for place, character in changes:
        if character is None:
            del text[place]
        else:
            text.insert(place, character)
