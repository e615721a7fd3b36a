"""Random edits at three documents, beside plain lists of characters and beside the program."""

import os
import subprocess
from pathlib import Path
from random import Random

import pytest
from bidigrid import Document, layout
from texts import follow, mixed

EDITS = 5_000
WIDTH = 24


class Desk:
    """A document, its text as a plain list, and the messages that it has still to take."""

    def __init__(self, site: int) -> None:
        self.document = Document(site, WIDTH)
        self.plain: list[str] = []
        self.waiting: list[bytes] = []

    def edit(self, chance: Random) -> bytes:
        """Types, erases or replaces characters, in the document as in the list."""
        start = chance.randrange(len(self.plain) + 1)
        stop = min(start + chance.randrange(6), len(self.plain))
        typed = mixed(chance, chance.randrange(1, 8))
        how = chance.randrange(8)
        if how == 0:
            self.plain[start:stop] = typed
            return self.document.replace(start, stop, typed)
        if how < 4:
            del self.plain[start:stop]
            return self.document.erase(start, stop)
        self.plain[start:start] = typed
        return self.document.type(start, typed)

    def take(self, chance: Random) -> None:
        """Takes one of the messages that wait, whichever it is, and has the list follow."""
        message = self.waiting.pop(chance.randrange(len(self.waiting)))
        follow(self.plain, self.document.take(message))

    def check(self, chance: Random) -> None:
        """Compares the text with the list, and a window with the rows of the whole text."""
        text = "".join(self.plain)
        assert self.document.text == text and len(self.document) == len(text)
        place, above, below = chance.randrange(len(text) + 1), chance.randrange(6), chance.randrange(6)
        window, rows = self.document.rows(place, above, below), layout(text, WIDTH).rows
        number = max(number for number, row in enumerate(rows) if row.first_place <= place)
        assert tuple(window) == rows[max(0, number - above) : number + below + 1]
        assert window.number == min(number, above)
        assert [row.entries for row in window] == [row.entries for row in rows[max(0, number - above) :][: len(window)]]


def program(*words: str | Path) -> str:
    """What the program writes."""
    done = subprocess.run([os.environ["BIDIGRID"], *words], stdout=subprocess.PIPE, check=True)
    return done.stdout.decode("utf-8")


@pytest.mark.skipif("BIDIGRID" not in os.environ, reason="BIDIGRID names no program to compare with")
@pytest.mark.parametrize("seed", [1, 2])
def test_three_documents_become_one(seed: int, tmp_path: Path) -> None:
    chance = Random(seed)
    desks = [Desk(site) for site in (1, 2, 3)]
    edits = 0
    while edits < EDITS:
        desk = chance.choice(desks)
        if desk.waiting and chance.randrange(3):
            desk.take(chance)
        else:
            message = desk.edit(chance)
            edits += 1
            for other in desks:
                if other is not desk:
                    other.waiting.append(message)
            if edits % 1_000 == 0:
                compare(desk.document, tmp_path)
        if chance.randrange(10) == 0:
            desk.check(chance)
    for desk in desks[:2]:
        while desk.waiting:
            desk.take(chance)
    follow(desks[2].plain, desks[2].document.merge(desks[0].document))
    for desk in desks:
        desk.check(chance)
        assert desk.plain == desks[0].plain
        compare(desk.document, tmp_path)


def compare(document: Document, folder: Path) -> None:
    """Compares the text and the rows of a document with what the program makes of its operations."""
    file = folder / "saved.bgop"
    file.write_bytes(document.save())
    assert program("text", file) == document.text
    rows = program("replay", "--width", str(WIDTH), file)
    assert rows == str(layout(document.text, WIDTH)) + "\n"
    assert rows.startswith(str(document.rows(0, 0, 1_000)))
