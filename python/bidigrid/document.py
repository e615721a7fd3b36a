"""One copy of a text that several write, laid out in rows of cells."""

import secrets
from typing import Any, NamedTuple, Self

from . import given
from ._bidigrid import ffi, lib
from .change import Changes
from .fault import fault, must
from .given import Base, Message
from .position import Positions
from .room import filled, written
from .taking import faulty_frame, merged, taken
from .thread import here
from .window import Window, shown


class Identifier(NamedTuple):
    """The name of one character for good, at every document: its place changes, its identifier doesn't.

    counter: from 1, counted by the site that typed it.
    site: of the document that typed it, 1 to 65535.
    """

    counter: int
    site: int


class Document(Positions):
    """One copy of a text that several write, laid out in rows of cells.

    site: 1 to 65535, and of no other document of this text; else a ValueError.
    width: how many columns a row has, 2 to 500; else a ValueError.
    base: the direction of each paragraph: "left" (from left to right), "right" (from right to left), or "auto", by its
        first strong letter.
    wide_ambiguous: whether characters of ambiguous width take two cells.
    key: 16 bytes that no other writer can guess; drawn at random where none are given. By it the time of a call can't be
        made long by what others choose to send.

    A text has at most 1,000,000 characters, erased ones and erasures included. Documents that took the same messages, in
    whatever order and however often, have the same text.

    Places count code points from 0, as `len` and indices of a str do. A document belongs to the thread that made it.

    >>> one, other = Document(site=1, width=16), Document(site=2, width=16)
    >>> message = one.type(0, "tea תה")
    >>> other.take(message)[0]
    Change(place=0, character='t')
    >>> print(other.rows(0))
    tea הת          
    """

    _unpickled = "a Document can't be pickled or copied: no two may have one site; send save(), and Document.load it"

    def __init__(
        self,
        site: int,
        width: int = 80,
        base: Base = "auto",
        *,
        wide_ambiguous: bool = False,
        key: bytes | None = None,
    ) -> None:
        self._make(None, site, width, base, wide_ambiguous, key)

    @classmethod
    def load(
        cls,
        data: Message,
        site: int,
        width: int = 80,
        base: Base = "auto",
        *,
        wide_ambiguous: bool = False,
        key: bytes | None = None,
    ) -> Self:
        """A document that goes on from what `save` returned; else as `Document(..)`. A Fault where it is no message.

        Under its own site it types on behind its last counter, so `data` must have all that the site has ever sent: else it
        would give identifiers twice, and others refuse what it sends for good. Save before you send, or take a new site.
        """
        made = cls.__new__(cls)
        made._make(data, site, width, base, wide_ambiguous, key)
        return made

    def _make(
        self,
        data: Message | None,
        site: int,
        width: int,
        base: Base,
        wide_ambiguous: bool,
        key: bytes | None,
    ) -> None:
        high, low = given.key(secrets.token_bytes(16) if key is None else key)
        home = here()
        handle = ffi.new("bidigrid_document *")
        how = (home.tables(wide_ambiguous), given.small(site), given.small(width), given.base(base), high, low)
        self._hold(home, handle, lib.bidigrid_document_free)
        if data is None:
            must(lib.bidigrid_document_new(handle, *how))
        else:
            file, told = given.message(data), ffi.new("bidigrid_taken *")
            answer = lib.bidigrid_document_open(handle, *how, file, len(file), told)
            if answer:
                raise fault(answer, faulty_frame(answer, told))
        self._site, self._width, self._base = int(site), int(width), base

    @property
    def site(self) -> int:
        """The site that it types under."""
        return self._site

    @property
    def width(self) -> int:
        """How many columns a row has."""
        return self._width

    def resize(self, width: int) -> None:
        """Lays out at another width from now on, 2 to 500; else a ValueError."""
        must(lib.bidigrid_document_resize(self._full(), given.small(width)))
        self._width = int(width)

    @property
    def base(self) -> Base:
        """The direction of each paragraph: "auto", "left" or "right". It can be set; anything else is a ValueError."""
        return self._base

    @base.setter
    def base(self, base: Base) -> None:
        must(lib.bidigrid_document_set_base(self._full(), given.base(base)))
        self._base = base

    def keep_rows(self, rows: int) -> None:
        """Keeps rows once they are laid out, in the memory of so many, at most 1,000,000, or of those of four windows where
        these are more, each counted with 20 bytes for each column. Where all rows of a text are kept, only what
        changes is laid out again; they take 14 bytes for each run of like clusters. A Fault where they are more."""
        must(lib.bidigrid_document_keep_rows(self._full(), given.count(rows)))

    def type(self, place: int, text: str) -> bytes:
        """Types a text at a place, 0 to the text's length, and returns the message for the others: all of it, or nothing.
        An IndexError where there is no such place, a ValueError where the text has a lone surrogate, a Fault where the
        document is full."""
        return self._edited(lib.bidigrid_document_insert, 0, text, given.count(place))

    def erase(self, start: int, stop: int) -> bytes:
        """Erases the characters from one place up to another, which is left out, and returns the message for the others.
        An IndexError where they are no two places in this order."""
        start, stop = given.count(start), given.count(stop)
        return self._edited(lib.bidigrid_document_erase, stop - start, None, start, stop)

    def replace(self, start: int, stop: int, text: str) -> bytes:
        """Erases the characters from one place up to another and types a text where they began, in one step, and returns
        the message for the others. Faults are those of both."""
        start, stop = given.count(start), given.count(stop)
        return self._edited(lib.bidigrid_document_replace, stop - start, text, start, stop)

    def _edited(self, call: Any, erased: int, text: str | None, *places: int) -> bytes:
        """The message of an edit, whose size is known before."""
        handle = self._full()
        # Where more are to be erased than there can be, the call refuses it whatever room there is.
        erased = min(max(erased, 0), lib.BIDIGRID_MAX_OPERATIONS)
        if text is None:
            return filled(call, 5 + 9 * erased, handle, *places)
        characters, typed = given.characters(text), str.__len__(text)
        if typed > lib.BIDIGRID_MAX_OPERATIONS:
            # Before room is asked for a message of all that.
            raise fault(lib.BIDIGRID_FAULT_FULL)
        return filled(call, 5 + 9 * erased + 19 * typed, handle, *places, characters, len(characters))

    def take(self, message: Message) -> Changes:
        """Takes a message of another document, and returns what it changed in the text, in order. It may come again, and
        before those that it builds on: then it changes the text once they have come.

        A Fault says what is wrong with it. Where a frame of it is faulty, nothing is taken. Where an operation is refused,
        those before it stay taken: the Fault has their number, `taken`, and their `changes`.
        """
        return self._alone(taken, self._full(), given.message(message))

    def merge(self, other: "Document") -> Changes:
        """Takes all that another document of this thread has, and returns what that changed in the text, in order. After
        a Fault whose name is "IdentifierReused" nothing has changed; after "Full", and a MemoryError, some of it is taken,
        and the Fault has its `changes`."""
        if not isinstance(other, Document):
            raise TypeError(f"a Document is merged with a Document, not with {type(other).__name__}")
        return self._alone(merged, self._full(), other._full())

    @property
    def text(self) -> str:
        """The text, whole."""
        handle = self._full()
        return written(lib.bidigrid_document_text, "char", 4 * self._length(handle), handle).decode("utf-8")

    def __len__(self) -> int:
        return self._length(self._full())

    def __bool__(self) -> bool:
        """A document is true, also where its text is empty."""
        return True

    def _length(self, handle: Any) -> int:
        places = ffi.new("size_t *")
        must(lib.bidigrid_document_length(handle, places))
        return int(places[0])

    def save(self) -> bytes:
        """All that it has, as a message: to save it, or for a document that is new."""
        return written(lib.bidigrid_document_file, "uint8_t", 0, self._full())

    def reserve(self, operations: int) -> None:
        """Reserves memory for so many characters and erasures, at most 1,000,000, so that what they are in needn't grow
        as they come. A Fault where they are more."""
        must(lib.bidigrid_document_reserve(self._full(), given.count(operations)))

    def id_at(self, place: int) -> Identifier:
        """The identifier of the character at a place; an IndexError where there is none."""
        out = ffi.new("bidigrid_id *")
        must(lib.bidigrid_document_id_at(self._full(), given.count(place), out))
        return Identifier(out.counter, out.site)

    def place_of(self, identifier: Identifier) -> int:
        """The place of a character; where it was erased, the place where it stood. A Fault whose name is "NotPlaced" where
        it hasn't come yet, a ValueError where it is no identifier."""
        counter, site = identifier
        named = ffi.new("bidigrid_id *", (given.counter(counter), given.small(site)))
        place = ffi.new("size_t *")
        must(lib.bidigrid_document_place_of(self._full(), named, place))
        return int(place[0])

    def rows(self, place: int = 0, above: int = 0, below: int = 23) -> Window:
        """The rows from so many above the row of a place to so many below it, at most 1,000 each, and fewer at the text's
        ends. They cost what is shown, whatever the size of the text. An IndexError where there is no such place, or more
        rows are asked for."""
        around = given.count(place), given.count(above), given.count(below)
        return self._alone(shown, self._full(), self._width, *around)

    def __repr__(self) -> str:
        return f"<Document of site {self._site}, {self._width} columns wide>"
