"""Messages and merges, and the changes that are told of them."""

import pytest
from bidigrid import Change, Document
from frames import A_AT_1, B_AFTER_A, HEADER, deletion


def put(text: str, place: int = 0) -> list[Change]:
    """What a text that is typed at a place changes."""
    return [Change(place + number, character) for number, character in enumerate(text)]


def test_what_comes_early_waits() -> None:
    document = Document(2)
    assert document.take(HEADER) == []
    assert document.take(HEADER + B_AFTER_A) == [] and document.text == ""
    assert document.take(HEADER + A_AT_1) == put("ab") and document.text == "ab"
    assert document.take(HEADER + A_AT_1 + B_AFTER_A) == []


def test_changes_are_as_a_list() -> None:
    document = Document(2)
    document.type(0, "xyz")
    changes = document.take(HEADER + deletion(1, 2) + A_AT_1 + B_AFTER_A)
    told = [Change(0, None), Change(2, "a"), Change(3, "b")]
    assert changes == told and list(changes) == told and len(changes) == 3 and repr(changes) == repr(told)
    assert changes[0] == told[0] and changes[-1] == told[-1] and changes[1:] == told[1:] and changes[::-1] == told[::-1]
    assert changes != told[:2] and not document.take(HEADER)
    for none in (3, -4):
        with pytest.raises(IndexError):
            changes[none]


def test_a_message_may_be_any_bytes() -> None:
    for kind in (bytes, bytearray, memoryview):
        document = Document(2)
        assert document.take(kind(HEADER + A_AT_1)) == put("a")
        assert Document.load(kind(document.save()), 3).text == "a"


def test_documents_merge() -> None:
    one, other = Document(1), Document(2)
    one.type(0, "a")
    other.type(0, "b")
    assert one.merge(other) == put("b") and one.text == "ba" and other.text == "b"
    assert other.merge(one) == put("a", 1) and other.text == "ba"
    assert one.merge(one) == [] and one.text == "ba"
