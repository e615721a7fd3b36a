"""What a thread made stays on it."""

import gc
import subprocess
import sys
import threading
from collections.abc import Callable
from concurrent.futures import ThreadPoolExecutor
from random import Random

import pytest
from bidigrid import Document, Picture, ThreadFault, layout
from bidigrid.thread import Home
from process import held
from texts import follow, mixed


def on_another_thread(call: Callable[[], object]) -> object:
    with ThreadPoolExecutor(1) as pool:
        return pool.submit(call).result()


def test_a_document_of_another_thread_is_refused() -> None:
    document, mine = Document(1), Document(2)
    document.type(0, "abc")
    for call in (
        lambda: document.text,
        lambda: len(document),
        lambda: document.type(3, "d"),
        lambda: document.take(document.save()),
        lambda: document.rows(),
        lambda: document.resize(7),
        lambda: document.position_at(0),
        lambda: document.close(),
        lambda: Document(3).merge(document),
        lambda: mine.merge(Document(3)),
        lambda: document.__enter__(),
    ):
        with pytest.raises(ThreadFault, match="belongs to the thread that made it"):
            on_another_thread(call)
    assert document.text == "abc" and document.width == 80 and issubclass(ThreadFault, RuntimeError)
    assert repr(document) == on_another_thread(lambda: repr(document))


def test_a_picture_of_another_thread_is_refused() -> None:
    picture = layout("abc", 8)
    for call in (lambda: picture.rows, lambda: str(picture), lambda: picture.caret_at(0), picture.close):
        with pytest.raises(ThreadFault):
            on_another_thread(call)
    rows = picture.rows
    assert on_another_thread(lambda: [entry.shown for entry in rows[0].entries]) == ["a", "b", "c"]
    assert str(picture) == "abc     "


def test_eight_threads_at_once() -> None:
    """Each writes a text of its own, and takes what the others wrote by messages; then all have one text."""
    count, edits = 8, 60
    sent: list[list[bytes]] = [[] for _ in range(count)]
    wrote = threading.Barrier(count)

    def write(number: int) -> tuple[str, bytes]:
        chance, document, plain = Random(number), Document(number + 1, 40), list[str]()
        for _ in range(edits):
            place, text = chance.randrange(len(plain) + 1), mixed(chance, 5)
            plain[place:place] = text
            sent[number].append(document.type(place, text))
            assert len(document.rows(place, 3, 3)) > 0 and layout(text, 10).rows
        wrote.wait(60)
        for messages in sent:
            for message in messages:
                follow(plain, document.take(message))
        assert document.text == "".join(plain)
        return document.text, document.save()

    with ThreadPoolExecutor(count) as pool:
        texts = {text for text, _ in pool.map(write, range(count))}
    assert len(texts) == 1 and len(texts.pop()) == count * edits * 5


def test_eight_threads_at_one_document() -> None:
    """All but the one that made it are refused, and nothing is lost."""
    document, refused = Document(1), []
    begun = threading.Barrier(9)

    def use() -> None:
        begun.wait(60)
        for _ in range(2_000):
            try:
                document.type(0, "x")
            except ThreadFault:
                refused.append(1)

    threads = [threading.Thread(target=use) for _ in range(8)]
    for thread in threads:
        thread.start()
    begun.wait(60)
    for number in range(500):
        document.type(number, "a")
    for thread in threads:
        thread.join()
    assert document.text == "a" * 500 and len(refused) == 16_000


def test_others_run_while_a_text_is_laid_out() -> None:
    ticks, ended = 0, threading.Event()

    def tick() -> None:
        nonlocal ticks
        while not ended.is_set():
            ticks += 1
            ended.wait(0.001)

    ticking, interval = threading.Thread(target=tick), sys.getswitchinterval()
    ticking.start()
    # So none runs but while another one waits, or calls the library.
    sys.setswitchinterval(60)
    try:
        before = ticks
        # Where the processors are busy, the other one may sleep through some of them.
        pictures = [layout("אבג tea " * 100_000, 80) for _ in range(20) if ticks == before]
        assert ticks > before and pictures
    finally:
        ended.set()
        sys.setswitchinterval(interval)
        ticking.join()


LARGE = "אבג tea\n" * 20_000


def test_what_is_dropped_elsewhere_is_freed_by_its_own_thread() -> None:
    """Objects that die on another thread wait for the next call of their own."""

    def drop_elsewhere(number: int) -> None:
        for _ in range(number):
            box: list[Document | Picture] = [Document(1), layout(LARGE, 80)]
            on_another_thread(box.clear)

    drop_elsewhere(3)
    before = held()
    drop_elsewhere(60)
    assert held() - before < 40_000_000


def test_cycles_are_collected_on_any_thread() -> None:
    def make_cycles() -> None:
        for _ in range(20):
            cycle: list[object] = [layout("abc", 8), Document(1)]
            cycle.append(cycle)

    gc.disable()
    try:
        make_cycles()
        assert on_another_thread(gc.collect) != 0
        on_another_thread(make_cycles)
        gc.collect()
    finally:
        gc.enable()
    assert layout("abc", 8).rows and Document(1).text == ""


def test_a_collection_may_come_while_a_thread_begins(monkeypatch: pytest.MonkeyPatch) -> None:
    begin, ignored = Home.__init__, list[object]()

    def collect_and_begin(home: Home) -> None:
        gc.collect()
        begin(home)

    cycle: list[object] = [Document(1)]
    cycle.append(cycle)
    del cycle
    monkeypatch.setattr(sys, "unraisablehook", ignored.append)
    monkeypatch.setattr(Home, "__init__", collect_and_begin)
    gc.disable()
    try:
        assert on_another_thread(lambda: str(layout("abc", 3))) == "abc"
    finally:
        gc.enable()
    assert ignored == []


def test_a_thread_that_ends_frees_what_it_made() -> None:
    kept: list[Picture] = []

    def make() -> None:
        kept.append(layout(LARGE, 80))

    def make_often(number: int) -> None:
        for _ in range(number):
            on_another_thread(make)

    make_often(3)
    before = held()
    make_often(60)
    assert held() - before < 40_000_000
    for picture in kept:
        with pytest.raises(ThreadFault):
            str(picture)
    kept.clear()


ENDING = """
import threading
from bidigrid import Document, layout
kept = [Document(1), layout("abc", 8)]
kept.append(kept)
thread = threading.Thread(target=lambda: kept.append(Document(2)))
thread.start()
thread.join()
ready = threading.Event()
threading.Thread(target=lambda: (kept.append(Document(3)), ready.set(), threading.Event().wait()), daemon=True).start()
ready.wait()
"""


def test_a_program_may_end_with_all_of_it() -> None:
    done = subprocess.run([sys.executable, "-c", ENDING], capture_output=True, timeout=60)
    assert (done.returncode, done.stdout, done.stderr) == (0, b"", b"")


FORKING = """
import os, threading
from bidigrid import Document, layout
from bidigrid.thread import Home
made, ended = threading.Event(), threading.Event()

def keep():
    kept = [Document(1), layout("abc", 8)]
    made.set()
    ended.wait()

other = threading.Thread(target=keep)
other.start()
made.wait()
mine, freed = Document(2), []
Home.end = lambda home: freed.append(home)
child = os.fork()
if not child:
    os._exit(len(freed))
_, status = os.waitpid(child, 0)
ended.set()
other.join()
assert status == 0 and len(freed) == 1
"""


def test_a_forked_child_frees_nothing_of_other_threads() -> None:
    done = subprocess.run([sys.executable, "-W", "ignore", "-c", FORKING], capture_output=True, timeout=60)
    assert (done.returncode, done.stdout, done.stderr) == (0, b"", b"")
