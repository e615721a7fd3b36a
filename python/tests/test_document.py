"""Documents: each call with right and wrong arguments."""

from collections.abc import Callable
from typing import Any

import pytest
from bidigrid import Change, Document, Fault, Identifier, layout
from frames import A_AT_1, B_AFTER_A, HEADER, deletion, insertion


Calls = list[Callable[[], object]]


def test_typing_and_erasing_give_messages_byte_by_byte() -> None:
    document = Document(3)
    assert document.type(0, "a") == HEADER + insertion(1, 3, (0, 0), "a")
    assert document.type(1, "א") == HEADER + insertion(2, 3, (1, 3), "א")
    assert document.erase(0, 1) == HEADER + deletion(1, 3)
    assert document.text == "א" and len(document) == 1
    assert document.type(1, "") == HEADER and document.erase(1, 1) == HEADER


def test_a_replacement_is_one_message() -> None:
    document, other = Document(3), Document(4)
    other.take(document.type(0, "abc"))
    message = document.replace(1, 2, "א")
    assert message == HEADER + deletion(2, 3) + insertion(4, 3, (1, 3), "א")
    assert other.take(message) == [Change(1, None), Change(1, "א")]
    assert document.text == other.text == "aאc"


@pytest.mark.parametrize("place", [4, 2**31, 2**64, -1, -(2**70)])
def test_a_place_that_is_none_is_an_index_error(place: int) -> None:
    document = Document(1)
    document.type(0, "abc")
    calls: Calls = [
        lambda: document.type(place, "x"),
        lambda: document.erase(place, place + 1),
        lambda: document.erase(0, place),
        lambda: document.replace(0, place, "x"),
        lambda: document.id_at(place),
        lambda: document.rows(place),
        lambda: document.position_at(place),
    ]
    for call in calls:
        with pytest.raises(IndexError) as raised:
            call()
        assert isinstance(raised.value, Fault) and raised.value.name == "BadPlace"
    assert document.text == "abc"


def test_a_stretch_ends_behind_its_start() -> None:
    document = Document(1)
    document.type(0, "abc")
    for start, stop in [(2, 1), (1, 4), (4, 4)]:
        with pytest.raises(IndexError):
            document.erase(start, stop)
        with pytest.raises(IndexError):
            document.replace(start, stop, "x")
    assert document.text == "abc"


@pytest.mark.parametrize("site", [0, 65536, -1, 2**32 + 1])
def test_a_site_is_1_to_65535(site: int) -> None:
    calls: Calls = [lambda: Document(site), lambda: Document.load(HEADER, site)]
    for call in calls:
        with pytest.raises(ValueError) as raised:
            call()
        assert isinstance(raised.value, Fault) and raised.value.number == 112


@pytest.mark.parametrize("width", [1, 501, -2, 2**32 + 80])
def test_a_width_is_2_to_500(width: int) -> None:
    document = Document(1, 2)
    calls: Calls = [lambda: Document(1, width), lambda: document.resize(width), lambda: layout("", width)]
    for call in calls:
        with pytest.raises(ValueError) as raised:
            call()
        assert isinstance(raised.value, Fault) and raised.value.name == "BadWidth"
    assert document.width == 2
    assert Document(1, 500).width == 500


def test_a_base_is_one_of_three_words() -> None:
    document = Document(1, 4)
    document.type(0, "a")
    assert str(document.rows()) == "a   "
    document.base = "right"
    assert document.base == "right" and str(document.rows()) == "   a"
    document.base = "left"
    assert str(document.rows()) == "a   "
    wrong: Any = "ltr"
    calls: Calls = [lambda: Document(1, 80, wrong), lambda: layout("", 80, wrong), lambda: setattr(document, "base", wrong)]
    for call in calls:
        with pytest.raises(ValueError) as raised:
            call()
        assert isinstance(raised.value, Fault) and raised.value.name == "BadBase"
    assert document.base == "left"


def test_other_types_are_a_type_error() -> None:
    document: Any = Document(1)
    make: Any = Document
    lay: Any = layout
    calls: Calls = [
        lambda: document.type("0", "a"),
        lambda: document.type(0, b"a"),
        lambda: document.type(0.0, "a"),
        lambda: document.erase(None, 1),
        lambda: document.take("BGOP\x01"),
        lambda: document.take(5),
        lambda: document.merge("text"),
        lambda: document.resize("80"),
        lambda: document.rows([]),
        lambda: document.reserve(1.5),
        lambda: document.keep_rows("all"),
        lambda: document.place_of(7),
        lambda: make("1"),
        lambda: make(1, base=0),
        lambda: make(1, key=7),
        lambda: make.load("text", 1),
        lambda: lay(b"a", 80),
    ]
    for call in calls:
        with pytest.raises(TypeError):
            call()
    assert document.text == ""


def test_a_key_has_16_bytes() -> None:
    assert Document(1, key=bytes(range(16))).text == ""
    with pytest.raises(ValueError, match="16 bytes, not 3"):
        Document(1, key=b"abc")


def test_a_document_goes_on_from_what_was_saved() -> None:
    document = Document(4)
    document.type(0, "abcde")
    document.erase(1, 2)
    document.take(HEADER + B_AFTER_A)
    again = Document.load(document.save(), 4, 10, "right", wide_ambiguous=True, key=bytes(16))
    assert again.text == "acde" and again.save() == document.save()
    assert (again.site, again.width, again.base) == (4, 10, "right")
    again.type(4, "z")
    assert again.id_at(4) == Identifier(6, 4)
    assert again.take(HEADER + A_AT_1) == [Change(5, "a"), Change(6, "b")]


def test_identifiers_stay_with_their_characters() -> None:
    document = Document(9)
    document.type(0, "abc")
    named = document.id_at(2)
    assert named == Identifier(counter=3, site=9)
    document.erase(0, 1)
    assert document.place_of(named) == 1
    document.erase(1, 2)
    assert document.place_of(named) == 1
    with pytest.raises(Fault) as raised:
        document.place_of(Identifier(5, 5))
    assert raised.value.name == "NotPlaced"
    for wrong in [(0, 9), (1, 0), (1, 65536), (2**32, 9), (-1, 9)]:
        with pytest.raises(ValueError):
            document.place_of(Identifier(*wrong))


def test_rows_are_those_round_a_place() -> None:
    document = Document(1, width=4)
    document.type(0, "a\nbb\nאב\nd")
    window = document.rows(3, above=1, below=1)
    assert str(window) == "a   \nbb  \n  בא" and window.number == 1 and len(window) == 3
    assert [row.first_place for row in window] == [0, 2, 5] and [row.last_place for row in window] == [2, 5, 8]
    assert [row.level for row in window] == [0, 0, 1] and [row.column for row in window] == [0, 0, 2]
    assert [str(row) for row in document.rows(0, 0, 0)] == ["a   "]
    assert str(document.rows(9, 1000, 1000)) == "a   \nbb  \n  בא\nd   "
    for above, below in [(1001, 0), (0, 1001), (-1, 0)]:
        with pytest.raises(IndexError) as raised:
            document.rows(0, above, below)
        assert isinstance(raised.value, Fault) and raised.value.name == "BadRow"


def test_a_window_stays_as_it_is() -> None:
    document = Document(1, width=4)
    document.type(0, "ab")
    window = document.rows()
    document.erase(0, 2)
    document.resize(8)
    assert str(window) == "ab  " and [entry.shown for entry in window[0].entries] == ["a", "b"]
    assert str(document.rows()) == "        "
    assert window != document.rows() and document.rows() == document.rows()


def test_a_closed_document_is_a_value_error() -> None:
    with Document(1) as document:
        document.type(0, "a")
    document.close()
    calls: Calls = [lambda: document.text, lambda: len(document), lambda: document.type(0, "b"), lambda: document.rows()]
    for call in calls:
        with pytest.raises(ValueError, match="closed"):
            call()
    other = Document(2)
    with pytest.raises(ValueError, match="closed"):
        other.merge(document)
    with pytest.raises(ValueError, match="closed"), document:
        pass


class Unmade(Document):
    """Forgets to make what it stands on."""

    def __init__(self) -> None:
        self.name = "mine"


def test_what_was_never_made_says_so() -> None:
    document = Unmade()
    calls: Calls = [lambda: document.text, lambda: document.type(0, "a"), document.close, lambda: Document(2).merge(document)]
    for call in calls:
        with pytest.raises(ValueError, match="this Unmade was never made"):
            call()


def test_room_is_paid_in_advance() -> None:
    document = Document(1)
    document.reserve(0)
    document.reserve(1_000_000)
    for operations in (1_000_001, 2**64, -1):
        with pytest.raises(Fault) as raised:
            document.reserve(operations)
        assert raised.value.name == "TooMany"


def test_rows_are_kept_as_many_as_are_asked_for() -> None:
    document = Document(1, width=4)
    document.type(0, "a\nb")
    window = document.rows()
    for rows in (1_000_000, 0):
        document.keep_rows(rows)
        assert document.rows() == window
    for rows in (1_000_001, 2**64, -1):
        with pytest.raises(Fault) as raised:
            document.keep_rows(rows)
        assert raised.value.name == "TooMany"


def test_an_empty_document_is_true_and_has_a_row() -> None:
    document = Document(1, width=3)
    assert document and len(document) == 0 and document.text == "" and str(document.rows()) == "   "
    assert document.save() == b"BGOP\x02"
    assert repr(document) == "<Document of site 1, 3 columns wide>"


def test_ambiguous_characters_are_narrow_or_wide() -> None:
    for wide, rows in [(False, "±±"), (True, "±\n±")]:
        document = Document(1, 2, wide_ambiguous=wide)
        document.type(0, "±±")
        assert str(document.rows()) == rows == str(layout("±±", 2, wide_ambiguous=wide))
