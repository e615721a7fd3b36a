"""Nothing grows, and nothing is copied by pickle."""

import copy
import gc
import pickle
import tracemalloc
from collections.abc import Callable

import pytest
from bidigrid import Document, Entry, Fault, Identifier, Position, Window, layout
from bidigrid.thread import here
from process import held

CALLS = 100_000


def test_a_document_and_a_picture_are_not_pickled() -> None:
    document, picture = Document(1), layout("abc", 8)
    ways: list[Callable[[object], object]] = [pickle.dumps, copy.copy, copy.deepcopy]
    for copied in ways:
        with pytest.raises(TypeError, match=r"no two may have one site; send save\(\), and Document.load it"):
            copied(document)
        with pytest.raises(TypeError, match="its text, rows and str"):
            copied(picture)


def test_values_are_pickled() -> None:
    document = Document(1, 8)
    document.type(0, "aא(b")
    window = document.rows()
    again = pickle.loads(pickle.dumps(window))
    assert isinstance(again, Window) and again == window and again[0].entries == window[0].entries
    told = Document(2).take(document.save())
    for value in (told, told[0], Identifier(1, 2), Position(0, 0, 0), window[0].entries[0], window[0]):
        assert pickle.loads(pickle.dumps(value)) == value == copy.deepcopy(value)
    assert isinstance(window[0].entries[0], Entry)


def test_what_is_made_anew_frees_what_it_held() -> None:
    document, kept = Document(1), len(here()._held)
    document.type(0, "abc")
    Document.__init__(document, 2, width=8)
    assert (document.site, document.width, document.text) == (2, 8, "") and len(here()._held) == kept


def call_all(document: Document, other: Document, times: int) -> None:
    """Eight calls each time, right ones and wrong ones."""
    for _ in range(times):
        other.take(document.type(3, "x"))
        other.take(document.erase(3, 4))
        with pytest.raises(IndexError):
            document.type(10**6, "x")
        with pytest.raises(Fault):
            document.take(b"BGOP")
        document.position_at(2)
        with layout("aא", 8) as picture:
            str(picture)


def test_memory_does_not_grow_over_100_000_calls() -> None:
    document, other = Document(1, 20), Document(2, 20)
    other.take(document.type(0, "אבג tea"))
    call_all(document, other, 200)
    gc.collect()
    whole = held()
    tracemalloc.start()
    before = tracemalloc.get_traced_memory()[0]
    call_all(document, other, CALLS // 8)
    gc.collect()
    grown = tracemalloc.get_traced_memory()[0] - before
    tracemalloc.stop()
    assert not gc.garbage
    # The erased characters stay: two documents keep 25,000 operations more each.
    assert grown < 10_000 and held() - whole < 20_000_000
