"""Places count code points, as len and indices of a str do."""

from collections.abc import Callable

import pytest
from bidigrid import Change, Document, layout

ASTRAL = "\U0001f44d"  # one code point, four bytes in UTF-8, two units in UTF-16


def test_places_count_code_points() -> None:
    text = f"a{ASTRAL}é{ASTRAL}\u0301א"
    document, other = Document(1), Document(2)
    other.take(document.type(0, text))
    assert len(document) == len(text) == 6 and document.text == other.text == text
    assert other.take(document.type(2, "x")) == [Change(2, "x")]
    assert document.text == text[:2] + "x" + text[2:]
    assert other.take(document.erase(1, 2)) == [Change(1, None)]
    assert document.text == other.text == "a" + "x" + text[2:]
    assert [document.place_of(document.id_at(place)) for place in range(len(document))] == list(range(len(document)))


def test_rows_and_carets_count_code_points() -> None:
    text = f"{ASTRAL}a\n{ASTRAL}b"
    picture = layout(text, 4)
    assert [(row.first_place, row.last_place) for row in picture.rows] == [(0, 3), (3, 5)]
    assert [text[entry.first_place : entry.end_place] for entry in picture.rows[0].entries] == [ASTRAL, "a", "\n"]
    assert picture.caret_at(4).place == 4 and picture.caret_at(5).gap == 2
    document = Document(1, 4)
    document.type(0, text)
    assert [row.first_place for row in document.rows()] == [0, 3]
    assert document.position_at(4) == (3, 1, 4)


@pytest.mark.parametrize("text", ["\ud800", "a\udc4d", "\udfff\ud800", "ab\ud83d\udc4d"])
def test_a_lone_surrogate_is_a_value_error(text: str) -> None:
    document = Document(1)
    document.type(0, "abc")
    calls: list[Callable[[], object]] = [
        lambda: document.type(0, text),
        lambda: document.replace(0, 1, text),
        lambda: layout(text, 80),
    ]
    for call in calls:
        with pytest.raises(ValueError, match="surrogates not allowed"):
            call()
    assert document.text == "abc"


def test_each_plane_can_be_typed() -> None:
    text = "".join(map(chr, [0, 0x7F, 0x80, 0x7FF, 0x800, 0xD7FF, 0xE000, 0xFFFF, 0x10000, 0x10FFFF]))
    document, other = Document(1), Document(2)
    changes = other.take(document.type(0, text))
    assert document.text == other.text == text and [change.character for change in changes] == list(text)


class Lying(str):
    """A str that isn't what it says of itself."""

    def __len__(self) -> int:
        return 7

    def encode(self, encoding: str = "", errors: str = "") -> bytes:
        return b"?"


def test_a_text_is_what_str_has_of_it() -> None:
    document, other = Document(1), Document(2)
    other.take(document.type(0, Lying("tea")))
    other.take(document.replace(0, 1, Lying("אב")))
    assert document.text == other.text == "אבea" and str(layout(Lying("tea"), 3)) == "tea"
