"""What is long is done in pieces: a key that is pressed meanwhile is written at once, and all comes out as if at once."""

import threading
from collections.abc import Iterator
from pathlib import Path

import pytest
from bidigrid import Document, Window
from bidigrid.edit import desk as desks_module
from bidigrid.edit import undo
from bidigrid.edit.anew import whole_file
from bidigrid.edit.channel import Message
from bidigrid.edit.desk import Desk
from bidigrid.edit.editor import Editor
from bidigrid.edit.frames import gathered, operations
from bidigrid.edit.keys import Key
from bidigrid.edit.view import view_of
from desks import desk_at, kept
from program import text_of

LONG = "tea תה شاي " * 1000


@pytest.fixture
def editor(tmp_path: Path, monkeypatch: pytest.MonkeyPatch) -> Iterator[Editor]:
    """An editor that does one piece of what is long at each turn."""
    monkeypatch.setattr(desks_module, "AT_ONCE", 0.0)
    desk = desk_at(tmp_path / "notes.bgop", site=1)
    yield Editor(desk, 10, str(tmp_path / "notes.txt"))
    desk.close()


def press(editor: Editor, *keys: str) -> None:
    """Keys by their names, and texts in quotes."""
    for key in keys:
        editor.press(Key("text", key[1:-1]) if key[0] == "'" else Key(key))


def paste(editor: Editor, text: str, size: int = 700) -> None:
    """A paste that comes in pieces."""
    for at in range(0, len(text), size):
        editor.press(Key("paste", text[at : at + size]))
    press(editor, "pasted")


def finish(editor: Editor) -> int:
    """Goes on until nothing is left to do; answers how many turns that took."""
    turns = 0
    while editor.desk.jobs or editor.desk.is_behind:
        editor.turn()
        turns += 1
    return turns


def written(desk: Desk) -> str:
    """What the log types, whether or not it is erased."""
    return "".join(it.character or "" for it in operations(kept(desk.log)))


def test_each_piece_of_a_paste_is_written_at_once_and_all_are_one_edit(editor: Editor) -> None:
    press(editor, "'before'")
    editor.press(Key("paste", "one\n"))
    assert written(editor.desk) == "beforeone\n"
    editor.desk.take(Message("another", Document(2).type(0, "X")))
    editor.is_stale = True
    editor.press(Key("paste", "two"))
    press(editor, "pasted", "'!'", "ctrl-z", "ctrl-z")
    finish(editor)
    assert sorted(editor.document.text) == sorted("beforeX")


def test_nothing_is_laid_out_before_what_is_typed_is_kept(editor: Editor, monkeypatch: pytest.MonkeyPatch) -> None:
    rows, then = Document.rows, []

    def watched(document: Document, *words: int) -> Window:
        then.append(written(editor.desk))
        return rows(document, *words)

    monkeypatch.setattr(Document, "rows", watched)
    press(editor, "'tea'")
    paste(editor, "milk", 1)
    press(editor, "'s'", "ctrl-z", "'!'")
    assert not then
    assert str(view_of(editor).rows[0]).rstrip() == "teamilk!" and set(then) == {"teamilks!"}


def test_a_paste_replaces_what_is_selected(editor: Editor) -> None:
    press(editor, "'tea milk'", "home", "shift-ctrl-right")
    paste(editor, "hot", 1)
    assert editor.document.text == "hot milk"
    press(editor, "ctrl-z")
    finish(editor)
    assert editor.document.text == "tea milk"


def test_a_key_is_written_while_a_paste_is_taken_back(editor: Editor) -> None:
    paste(editor, LONG)
    press(editor, "ctrl-z")
    assert 0 < len(editor.document) < len(LONG)
    press(editor, "ctrl-home", "'x'")
    assert written(editor.desk) == LONG + "x" and editor.desk.jobs
    assert finish(editor) > 1 and editor.document.text == "x" and editor.at.place == 1


def test_what_is_pressed_meanwhile_is_about_what_is_being_taken_back(editor: Editor) -> None:
    text = LONG[:2000]
    press(editor, "'before'", "home")
    paste(editor, text)
    press(editor, "ctrl-z", "ctrl-y")
    assert editor.desk.jobs
    finish(editor)
    assert (editor.document.text, editor.desk.notice) == (f"{text}before", "")
    press(editor, "ctrl-z", "ctrl-y", "ctrl-z", "ctrl-z", "ctrl-y")
    finish(editor)
    assert editor.document.text == "before"
    press(editor, "ctrl-y", "ctrl-z")
    finish(editor)
    assert editor.document.text == "before"
    press(editor, "ctrl-y", "ctrl-home", "'!'")
    finish(editor)
    assert editor.document.text == f"!{text}before"


def test_what_is_going_on_is_done_before_one_leaves(editor: Editor) -> None:
    paste(editor, LONG[:2000])
    press(editor, "ctrl-a", "delete", "ctrl-z")
    editor.desk.log.flush()
    press(editor, "ctrl-q")
    while not editor.is_left:
        assert "is done first" in view_of(editor).status
        editor.turn()
    assert editor.document.text == LONG[:2000] and not editor.desk.log.waiting
    editor.is_left = editor.is_leaving = False
    press(editor, "ctrl-z", "ctrl-q", "ctrl-q", "ctrl-q")
    assert editor.is_left and not editor.desk.jobs and len(editor.document) == 2000 - undo.AT_ONCE


def test_what_is_going_on_is_done_also_where_the_terminal_is_gone(tmp_path: Path, monkeypatch: pytest.MonkeyPatch) -> None:
    monkeypatch.setattr(desks_module, "AT_ONCE", 0.0)
    monkeypatch.setattr(desks_module, "AGAIN", 0.1)
    desk = desk_at(tmp_path / "notes.bgop", site=1)
    editor = Editor(desk, 10, "")
    paste(editor, LONG)
    press(editor, "ctrl-a", "delete", "ctrl-z")
    desk.close()
    assert text_of([tmp_path / "notes.bgop"]) == LONG


def test_a_key_is_written_while_much_that_was_copied_is_typed(editor: Editor) -> None:
    paste(editor, LONG * 4)
    press(editor, "ctrl-a", "ctrl-x")
    finish(editor)
    assert editor.document.text == "" and editor.clipboard.text == LONG * 4
    press(editor, "'ab'", "left", "ctrl-v")
    assert editor.desk.jobs and editor.at.place == 1 + 2 * desks_module.LONG
    press(editor, "'x'")
    assert written(editor.desk)[-1] == "x" and editor.desk.jobs
    editor.desk.take(Message("another", Document(2).type(0, "Y")))
    assert finish(editor) >= len(LONG) * 4 // desks_module.LONG
    assert editor.document.text.replace("Y", "") == f"a{LONG * 4}xb"
    assert editor.at.place == editor.document.text.index("x") + 1
    press(editor, "ctrl-z", "ctrl-z")
    finish(editor)
    assert editor.document.text.replace("Y", "") == "ab"
    press(editor, "ctrl-y")
    finish(editor)
    assert editor.document.text.replace("Y", "") == f"a{LONG * 4}b"


def test_a_key_is_written_while_what_was_erased_is_typed_again(editor: Editor) -> None:
    other = Document(2)
    editor.desk.take(Message("another", gathered(other.type(0, LONG)[5:])))
    paste(editor, LONG)
    text = editor.document.text
    assert sorted(text) == sorted(LONG * 2)
    press(editor, "ctrl-a", "backspace", "ctrl-z", "ctrl-home", "'x'")
    assert written(editor.desk)[-1] == "x" and editor.desk.jobs
    # Its operations are gone through three times.
    assert finish(editor) >= 3 * len(text) // undo.AT_ONCE
    assert editor.document.text == "x" + text
    press(editor, "ctrl-z")
    finish(editor)
    assert editor.document.text == text
    # What was typed again is taken back under its new names.
    press(editor, "ctrl-z")
    finish(editor)
    assert editor.document.text == LONG


def test_what_is_erased_around_others_is_typed_again_around_them(editor: Editor) -> None:
    paste(editor, LONG)
    editor.desk.log.flush()
    other = Document(2)
    other.take(editor.desk.log.read(0, editor.desk.log.size))
    press(editor, "ctrl-a", "delete")
    for place in range(len(LONG), -1, -400):
        editor.desk.take(Message("another", other.type(place, "X")))
    press(editor, "ctrl-z")
    finish(editor)
    assert editor.document.text == other.text


def test_a_key_is_written_while_a_long_message_is_taken(editor: Editor) -> None:
    other = Document(2)
    editor.desk.came.append(Message("another", other.type(0, LONG * 3)))
    editor.desk.take_some()
    assert 0 < len(editor.document) < len(other) and editor.desk.patience() == 0.0
    press(editor, "'x'")
    assert written(editor.desk) == "x"
    while editor.desk.take_some():
        continue
    assert sorted(editor.document.text) == sorted(other.text + "x")


def test_a_key_is_written_while_the_other_width_is_laid_out(editor: Editor) -> None:
    other = Document(2)
    editor.desk.take(Message("another", other.type(0, LONG)))
    paste(editor, LONG)
    press(editor, "f3", "'x'")
    assert written(editor.desk)[-1] == "x" and editor.desk.jobs and not editor.desk.wide_ambiguous
    editor.turn()
    editor.desk.take(Message("another", other.type(0, "y")))
    before = editor.document.text
    finish(editor)
    assert editor.desk.wide_ambiguous and editor.document.text == before
    press(editor, "'z'")
    names = [it.identifier for it in operations(kept(editor.desk.log))]
    assert len(names) == len(set(names)) and len(editor.document) == len(before) + 1
    editor.desk.log.flush()
    assert sorted(text_of([Path(editor.desk.log.path)])) == sorted(LONG + "xz")


def test_another_thread_makes_the_whole_file(editor: Editor) -> None:
    other = Document(2)
    editor.desk.take(Message("another", other.type(0, LONG)))
    editor.desk.take(Message("another", other.erase(0, 5)))
    paste(editor, LONG)
    editor.desk.log.flush()
    text, made = editor.document.text, [b""]
    make = whole_file(editor.desk.log, editor.desk.held, 1)
    press(editor, "'not yet flushed'")

    def run() -> None:
        made[0] = make()

    thread = threading.Thread(target=run)
    thread.start()
    thread.join()
    assert Document.load(made[0], 3).text == text


def test_a_key_is_written_while_a_long_stretch_is_erased_and_what_others_wrote_in_it_stays(
    editor: Editor, monkeypatch: pytest.MonkeyPatch
) -> None:
    monkeypatch.setattr(desks_module, "LONG", 500)
    paste(editor, f"({LONG})")
    editor.desk.log.flush()
    other = Document(2)
    other.take(editor.desk.log.read(0, editor.desk.log.size))
    press(editor, "ctrl-home", "right", "shift-ctrl-end", "shift-left", "'<'")
    assert editor.desk.jobs
    editor.desk.came += [Message("another", other.type(place, "X")) for place in (len(LONG) - 5, 700, 3)]
    press(editor, "'>'", "right", "down", "'!'")
    assert written(editor.desk)[-3:] == "<>!" and editor.desk.jobs
    editor.turn()
    assert "X" not in editor.document.text
    finish(editor)
    while editor.desk.take_some():
        continue
    assert editor.document.text == "(<>!XXX)"
    press(editor, "ctrl-z", "ctrl-z", "ctrl-z")
    finish(editor)
    assert editor.document.text == other.text
