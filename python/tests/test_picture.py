"""Pictures: rows, entries and carets of a text."""

import pytest
from bidigrid import Caret, Entry, Fault, layout

# Laid out by hand by UAX #9 and UAX #14.
PRINTS = [
    ("", 4, "    "),
    ("ab אבג", 8, "ab גבא  "),
    ("אב 12", 8, "   12 בא"),
    ("א(b)", 4, "(b)א"),
    ("ab cd", 2, "ab\ncd"),
    ("abcdef", 4, "abcd\nef  "),
    ("a世b", 2, "a \n世\nb "),
    ("a\r\nb", 2, "a \nb "),
    ("a\n", 2, "a \n  "),
    ("e\u0301", 2, "e\u0301 "),
    ("a   ", 3, "a  "),
    ("a אב גד", 5, "a בא \nדג   "),
    ("\u062712", 4, " 12\u0627"),
    ("a\tb", 4, "a b "),
]


@pytest.mark.parametrize(("text", "width", "rows"), PRINTS)
def test_a_text_is_laid_out(text: str, width: int, rows: str) -> None:
    picture = layout(text, width)
    assert str(picture) == rows
    assert [str(row) for row in picture.rows] == rows.split("\n")
    assert (picture.text, picture.width) == (text, width)


def test_entries_stand_in_visual_order() -> None:
    left, right, last = layout("aא\nאב\n", 5).rows
    assert [entry.first_place for entry in left.entries] == [0, 1, 2]
    assert (right.first_place, right.last_place, right.column, right.level) == (3, 6, 3, 1)
    # Left of the two letters stands their line feed, which has no cell.
    assert right.entries == (Entry(5, 6, 3, 0, 1, ""), Entry(4, 5, 3, 1, 1, "ב"), Entry(3, 4, 4, 1, 1, "א"))
    assert last.entries == () and (last.first_place, last.last_place, last.level) == (6, 6, 0)


def test_gaps_have_columns() -> None:
    wide, hebrew, empty = layout("a世\nאב\n", 5).rows
    assert [wide.column_of(gap) for gap in range(4)] == [0, 1, 3, 3]
    assert [hebrew.column_of(gap) for gap in range(4)] == [3, 3, 4, 5]
    assert empty.column_of(0) == 0
    for row, gap in ((wide, 4), (wide, -1), (empty, 1)):
        with pytest.raises(Fault) as raised:
            row.column_of(gap)
        assert raised.value.name == "BadCaret" and isinstance(raised.value, IndexError)


def test_entries_show_what_is_seen() -> None:
    (row,) = layout("א(e\u0301)世\u200f\tb", 12, "right").rows
    assert str(row) == "  b 世(e\u0301)א"[:2] + str(row)[2:]
    shown = {entry.first_place: (entry.shown, entry.columns) for entry in row.entries}
    assert shown[1] == (")", 1) and shown[4] == ("(", 1)
    assert shown[2] == ("e\u0301", 1) and shown[5] == ("世", 2)
    assert shown[7] == (" ", 1)
    assert "".join(entry.shown for entry in row.entries) == str(row)[row.column :]
    assert sum(entry.columns for entry in row.entries) == 12 - row.column


def test_carets_walk_as_the_eye_sees() -> None:
    picture = layout("ab אבג", 8)
    caret = picture.caret_at(3)
    assert caret == Caret(0, 6, 3)
    walked = [caret := picture.left(caret) for _ in range(4)]
    assert walked == [(0, 5, 4), (0, 4, 5), (0, 3, 6), (0, 2, 2)]
    assert picture.right(caret) == (0, 3, 3) and picture.caret_at(6) == (0, 3, 6)
    picture = layout("abc\nd\n世e", 4)
    caret = picture.caret_under(0, 2)
    assert caret == (0, 2, 2)
    below = [caret := picture.down(caret) for _ in range(3)]
    assert [it.row for it in below] == [1, 2, 2]
    assert [picture.up(it).row for it in below] == [0, 1, 1]


def test_there_is_no_such_row_or_gap() -> None:
    picture = layout("ab", 4)
    for move in (picture.right, picture.left, picture.up, picture.down):
        for row, gap in [(1, 0), (0, 3), (-1, 0), (2**64, 0)]:
            with pytest.raises(IndexError) as raised:
                move(Caret(row, gap, 0))
            assert isinstance(raised.value, Fault) and raised.value.name == "BadCaret"
        with pytest.raises((TypeError, ValueError)):
            move(7)  # type: ignore[arg-type]
    for place in (3, -1, 2**64):
        with pytest.raises(IndexError):
            picture.caret_at(place)
    for row in (1, -1):
        with pytest.raises(IndexError):
            picture.caret_under(row, 0)
    assert picture.caret_under(0, 2**64) == Caret(0, 2, 2)


def test_a_text_has_at_most_4_000_000_bytes() -> None:
    assert len(layout("a" * 4_000_000, 500).rows) == 8_000
    with pytest.raises(ValueError) as raised:
        layout("a" * 3_999_999 + "א", 500)
    assert isinstance(raised.value, Fault) and raised.value.name == "TextTooLong"


def test_rows_stay_when_a_picture_is_closed() -> None:
    with layout("ab", 2) as picture:
        rows = picture.rows
    assert str(rows[0]) == "ab" and picture.rows == rows
    with pytest.raises(ValueError, match="closed"):
        str(picture)
    with pytest.raises(ValueError, match="closed"):
        picture.caret_at(0)
