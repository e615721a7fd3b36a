"""Positions in a document beside carets in a picture of its whole text."""

from random import Random
from typing import Literal

import pytest
from bidigrid import Caret, Document, Fault, Picture, Position, layout
from texts import mixed


BASES: list[Literal["auto", "left", "right"]] = ["auto", "left", "right"]


def placed(picture: Picture, caret: Caret) -> Position:
    """A caret of the picture, with its row named by its first place."""
    return Position(picture.rows[caret.row].first_place, caret.gap, caret.place)


def carets(picture: Picture) -> list[Caret]:
    """A caret in each gap of each row."""
    return [Caret(number, gap, 0) for number, row in enumerate(picture.rows) for gap in range(len(row.entries) + 1)]


@pytest.mark.parametrize("seed", range(40))
def test_positions_are_the_carets_of_the_whole(seed: int) -> None:
    chance = Random(seed)
    width, base = chance.choice([2, 3, 7, 24]), chance.choice(BASES)
    text = mixed(chance, chance.choice([0, 1, 10, 60]))
    document = Document(1, width, base)
    document.type(0, text)
    picture = layout(text, width, base)
    for place in range(len(text) + 1):
        assert document.position_at(place) == placed(picture, picture.caret_at(place))
    for caret in carets(picture):
        at = placed(picture, caret)
        for move in ("right", "left", "up", "down"):
            assert getattr(document, move)(at) == placed(picture, getattr(picture, move)(caret)), (move, caret)
    for number, row in enumerate(picture.rows):
        for column in range(width + 2):
            assert document.position_in(row.first_place, column) == placed(picture, picture.caret_under(number, column))


def test_where_there_is_no_step_a_position_stays() -> None:
    document = Document(1, 4)
    document.type(0, "ab")
    assert document.left(Position(0, 0, 7)) == Position(0, 0, 7)
    assert document.right(Position(0, 2, 7)) == document.up(Position(0, 2, 7)) == Position(0, 2, 7)


def test_there_is_no_such_position() -> None:
    document = Document(1, 4)
    document.type(0, "ab\ncd")
    for at in [Position(1, 0, 0), Position(0, 4, 0), Position(0, -1, 0), Position(-1, 0, 0), Position(6, 0, 0)]:
        for move in (document.right, document.left, document.up, document.down):
            with pytest.raises(IndexError) as raised:
                move(at)
            assert isinstance(raised.value, Fault)
    for row in (1, 6, -1):
        with pytest.raises(IndexError):
            document.position_in(row, 0)


def test_a_caret_leaves_the_window_as_it_was_laid_out() -> None:
    document = Document(1, 4)
    document.type(0, "a\nb\nc\nd\n")
    window = document.rows(2, 1, 1)
    at = document.position_at(4)
    assert document.down(at) == Position(6, 0, 6) and document.rows(2, 1, 1) == window
