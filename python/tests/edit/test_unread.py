"""Keys that came to an editor that was killed before it got to them are pressed at its next start, each once."""

import os
from pathlib import Path

import pytest
from bidigrid import Document
from bidigrid.edit.__main__ import press, press_left
from bidigrid.edit.editor import Editor
from bidigrid.edit.keys import Keys
from bidigrid.edit.unread import Unread
from bidigrid.edit.watch import Watch
from desks import desk_at
from waiting import until

TYPED = b"tea" + "תה".encode() + b"\x1b[D\x7f\x1b[H\x1b[200~one\r\ntwo\x1b[201~\x1b[C!."


class Opened:
    """An editor, and what has come to it."""

    def __init__(self, path: Path) -> None:
        self.editor = Editor(desk_at(path, site=1), 10, "")
        self.unread = Unread(self.editor.desk.log)
        self.keys = Keys()
        press_left(self.editor, self.unread)

    def press(self, data: bytes) -> None:
        """These bytes come, and their keys are pressed."""
        self.unread.put(data)
        for key in self.keys.feed(self.unread.take()):
            press(self.editor, self.unread, self.keys, key)

    def kill(self) -> None:
        """Leaves all as a kill does."""
        log = self.editor.desk.log
        log.disk.close()
        log.staging.give_up()
        self.unread.file.give_up()
        os.close(log.file)

    def text(self) -> str:
        """Leaves, and answers the text."""
        text = self.editor.document.text
        self.unread.close(is_needed=False)
        self.editor.desk.close()
        return text


@pytest.fixture
def wanted(tmp_path: Path) -> str:
    """The text where nobody is killed."""
    opened = Opened(tmp_path / "whole.bgop")
    opened.press(TYPED)
    return opened.text()


@pytest.mark.parametrize("size", [1, 4, 100])
@pytest.mark.parametrize("cut", range(len(TYPED) + 1))
def test_what_has_come_is_pressed_at_the_next_start(tmp_path: Path, wanted: str, cut: int, size: int) -> None:
    first = Opened(tmp_path / "notes.bgop")
    for at in range(0, cut, size):
        first.press(TYPED[at : min(at + size, cut)])
    first.unread.put(TYPED[cut:])
    first.kill()
    assert Opened(tmp_path / "notes.bgop").text() == wanted


@pytest.mark.parametrize("is_in_log", [False, True])
@pytest.mark.parametrize("count", range(8))
def test_a_key_at_which_it_is_killed_is_pressed_once(tmp_path: Path, wanted: str, count: int, is_in_log: bool) -> None:
    first = Opened(tmp_path / "notes.bgop")
    first.unread.put(TYPED)
    keys = first.keys.feed(first.unread.take())
    for _ in range(count):
        press(first.editor, first.unread, first.keys, next(keys))
    key = next(keys)
    first.unread.begin(first.keys, first.editor.desk.caret)
    if is_in_log:
        first.editor.press(key)
    first.kill()
    assert Opened(tmp_path / "notes.bgop").text() == wanted


@pytest.mark.parametrize("count", range(5))
def test_a_text_of_which_the_front_is_in_the_log_is_typed_to_its_end(tmp_path: Path, count: int) -> None:
    first = Opened(tmp_path / "notes.bgop")
    first.press(b"(milk)\x1b[D\x1b[1;2D")
    first.unread.put(b"\x1b[200~te\x01a \x1b[201~")
    next(first.keys.feed(first.unread.take()))
    first.unread.begin(first.keys, first.editor.desk.caret)
    # The selected letter is erased, and not yet all is typed.
    first.editor.desk.replace(4, 5, "tea "[:count])
    first.kill()
    assert Opened(tmp_path / "notes.bgop").text() == "(miltea )"


def test_a_start_that_is_killed_too_loses_nothing(tmp_path: Path, wanted: str) -> None:
    first = Opened(tmp_path / "notes.bgop")
    first.unread.put(TYPED)
    first.kill()
    again = Editor(desk_at(tmp_path / "notes.bgop", site=1), 10, "")
    unread = Unread(again.desk.log)
    keys = unread.left().keys
    for _, key in zip(range(3), keys.feed(unread.take())):
        press(again, unread, keys, key)
    again.desk.log.flush()
    again.desk.log.close()
    unread.file.give_up()
    assert Opened(tmp_path / "notes.bgop").text() == wanted


def test_keys_for_another_log_are_left(tmp_path: Path) -> None:
    path = tmp_path / "notes.bgop"
    first = Opened(path)
    first.press(b"one")
    first.unread.put(b"never")
    first.kill()
    path.write_bytes(Document(1).type(0, "two"))
    assert Opened(path).text() == "two"


def test_what_is_left_is_not_left_again(tmp_path: Path) -> None:
    first = Opened(tmp_path / "notes.bgop")
    first.unread.put(b"a\x11b")
    first.kill()
    second = Opened(tmp_path / "notes.bgop")
    assert not second.editor.is_leaving and second.text() == "ab"
    assert Opened(tmp_path / "notes.bgop").text() == "ab"


@pytest.mark.parametrize("typed", [b"", b"te"])
def test_a_word_that_is_sought_is_never_typed(tmp_path: Path, typed: bytes) -> None:
    first = Opened(tmp_path / "notes.bgop")
    first.press(b"tea\x06" + typed)
    first.unread.put(b"am")
    first.kill()
    assert Opened(tmp_path / "notes.bgop").text() == "tea"


def test_a_search_that_had_not_begun_begins(tmp_path: Path) -> None:
    first = Opened(tmp_path / "notes.bgop")
    first.press(b"tea\x1b[H")
    first.unread.put(b"\x06ea\ris")
    first.kill()
    assert Opened(tmp_path / "notes.bgop").text() == "tis"


def test_keys_are_read_while_one_is_busy(tmp_path: Path) -> None:
    first = Opened(tmp_path / "notes.bgop")
    ear, mouth = os.pipe()
    watch = Watch(first.unread, ear)
    for text in (b"one", b"two"):
        assert not watch.rest() and watch.begin(False) == b""
        os.write(mouth, text)
        until(watch.has_more)
        until(lambda: first.unread.came)
        assert watch.rest() and watch.begin(False) == text
    os.write(mouth, b"three")
    os.close(mouth)
    with pytest.raises(EOFError):
        watch.begin(True)
    assert first.unread.take() == b"three"
    first.kill()
