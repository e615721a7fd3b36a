"""Messages byte by byte, as FORMATS.md has them."""

from struct import pack

HEADER = b"BGOP\x01"


def insertion(counter: int, site: int, parent: tuple[int, int], character: str) -> bytes:
    """The frame that puts a character after its parent; (0, 0) is the text's start."""
    return pack(">HBIHIHI", 17, 1, counter, site, *parent, ord(character))


def deletion(counter: int, site: int) -> bytes:
    """The frame that erases a character."""
    return pack(">HBIH", 7, 2, counter, site)


A_AT_1 = insertion(1, 1, (0, 0), "a")
B_AFTER_A = insertion(2, 1, (1, 1), "b")
C_IN_ITS_PLACE = insertion(1, 1, (0, 0), "c")
