"""Memory that Python refuses, at each of its requests in turn: what a call did is not lost."""

import gc
import subprocess
import sys
from collections.abc import Callable, Iterator

import pytest
from bidigrid import Document, Fault
from bidigrid.thread import Home, _End

Call = Callable[[], object]


@pytest.fixture
def refused() -> Iterator[Callable[[int, Call], Exception | None]]:
    """Makes a call while one of Python's requests for memory is refused, and returns what it raised."""
    testing = pytest.importorskip("_testcapi", reason="this Python can't refuse memory")

    def refused_at(number: int, call: Call) -> Exception | None:
        testing.set_nomemory(number, number + 1)
        try:
            call()
        except MemoryError as raised:
            return raised
        finally:
            testing.remove_mem_hooks()
        return None

    gc.disable()
    yield refused_at
    gc.enable()


Refused = Callable[[int, Call], Exception | None]
REQUESTS = 80


def test_an_edit_is_not_done_where_its_message_is_lost(refused: Refused) -> None:
    edits: list[Callable[[Document], bytes]] = [
        lambda document: document.type(1, "xyz" * 100),
        lambda document: document.erase(1, 900),
        lambda document: document.replace(1, 900, "xyz"),
    ]
    made = [b""]
    for edit in edits:
        raised = 0
        for number in range(REQUESTS):
            document, other = Document(1), Document(2)
            other.take(document.type(0, "abc" * 300))
            if refused(number, lambda: made.__setitem__(0, edit(document))):
                raised += 1
                assert document.text == "abc" * 300
            else:
                other.take(made[0])
                assert document.text == other.text != "abc" * 300
        assert 0 < raised < REQUESTS


def test_what_is_taken_is_told_or_said_to_be_untold(refused: Refused) -> None:
    typist, raised = Document(1), 0
    message = typist.type(0, "abc" * 300)
    takes: list[Callable[[Document], object]] = [lambda it: it.take(message), lambda it: it.merge(typist)]
    for take in takes:
        for number in range(REQUESTS):
            document = Document(2)
            fault = refused(number, lambda: take(document))
            assert fault or document.text == typist.text
            if fault and document.text:
                raised += 1
                assert isinstance(fault, Fault) and (fault.number, fault.changes) == (9, None)
                assert document.text == typist.text and fault.taken in (900, 0)
    assert raised > 0


def test_a_thread_that_can_not_begin_ends_in_silence(refused: Refused, monkeypatch: pytest.MonkeyPatch) -> None:
    ignored, home, raised = list[object](), Home(), 0
    monkeypatch.setattr(sys, "unraisablehook", ignored.append)
    for number in range(REQUESTS):
        made: list[object] = [None]
        raised += refused(number, lambda: made.__setitem__(0, _End(home))) is not None
    assert 0 < raised < REQUESTS and ignored == []


UNKEPT = """
import resource
from pathlib import Path
from bidigrid import layout
from bidigrid.thread import Home

def refuse(*_):
    raise MemoryError

def held():
    return int(Path("/proc/self/statm").read_text().split()[1]) * resource.getpagesize()

text = "אבג tea\\n" * 20_000
layout(text, 80)
before, Home.hold = held(), refuse
for _ in range(60):
    try:
        layout(text, 80)
    except MemoryError:
        pass
assert held() - before < 40_000_000, held() - before
"""


def test_what_can_not_be_kept_is_not_made() -> None:
    subprocess.run([sys.executable, "-c", UNKEPT], check=True, timeout=60)
