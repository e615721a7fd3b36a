"""What keys do while others write: the caret stays at its character, and one's own edits alone are taken back."""

import base64
import errno
import os
import threading
from pathlib import Path

import pytest
from bidigrid import Row
from bidigrid.edit.desk import AGAIN
from bidigrid.edit.keys import Key
from bidigrid.edit.view import view_of
from pairs import Pair
from waiting import BOUND, until


def test_a_caret_stays_behind_its_character(pair: Pair) -> None:
    pair.press("'tea milk'", "left", "left", "left", "left")
    pair.meet()
    assert pair.text() == "tea |milk"
    pair.take(pair.other.type(0, "hot "))
    assert pair.text() == "hot tea |milk"
    pair.take(pair.other.type(8, "and "))
    assert pair.text() == "hot tea |and milk"
    pair.take(pair.other.erase(3, 8))
    assert pair.text() == "hot|and milk"


def test_a_caret_stays_at_its_edge_where_a_key_does_nothing(pair: Pair) -> None:
    pair.press("'ab שלום'", "right", "right", "right", "right")
    assert (pair.text(), view_of(pair.editor).column) == ("ab |שלום", 7)
    for key in ("ctrl-x", "ctrl-c", "mark", "ctrl-x", "''", "ctrl-k"):
        pair.press(key)
        assert (pair.text(), view_of(pair.editor).column) == ("ab |שלום", 7)


def test_a_caret_stays_at_its_edge(pair: Pair) -> None:
    # A Hebrew word ends at its left, and begins at its right.
    pair.press("'ab שלום'")
    pair.meet()
    assert (pair.text(), view_of(pair.editor).column) == ("ab שלום|", 3)
    pair.take(pair.other.type(0, "x"))
    assert (pair.text(), view_of(pair.editor).column) == ("xab שלום|", 4)
    pair.press("right", "right", "right", "right")
    assert (pair.text(), view_of(pair.editor).column) == ("xab |שלום", 8)
    pair.take(pair.other.type(0, "y"))
    assert (pair.text(), view_of(pair.editor).column) == ("yxab |שלום", 9)


def test_a_word_that_is_not_there_is_not_sought_for_ever(pair: Pair) -> None:
    # Left of a row from right to left comes the next row, and left of one from left to right the row above.
    pair.press("'\u2067((\n\u2066))'")
    for key in ("ctrl-left", "ctrl-right", "ctrl-left"):
        pair.press(key, key, key, key)
        assert pair.desk.document.rows(pair.editor.at.row, 0, 0)[0].first_place == pair.editor.at.row


def test_what_one_typed_is_erased_where_it_stands_now(pair: Pair) -> None:
    pair.press("'tea'")
    pair.meet()
    pair.take(pair.other.type(1, "XY"))
    pair.take(pair.other.type(0, "Z"))
    assert pair.text() == "ZtXYea|"
    pair.press("ctrl-z")
    assert pair.text().replace("|", "") == "ZXY"


def test_what_one_erased_is_typed_again_and_what_others_wrote_stays(pair: Pair) -> None:
    pair.press("'tea'")
    pair.meet()
    pair.press("ctrl-a", "backspace")
    pair.take(pair.other.type(2, "X"))
    assert pair.desk.document.text == "X"
    pair.press("ctrl-z")
    assert pair.desk.document.text == "teXa"
    pair.press("ctrl-z")
    assert pair.desk.document.text == "X"
    pair.press("ctrl-z")
    assert pair.desk.notice == "nothing to take back"


def test_others_edits_are_not_taken_back(pair: Pair) -> None:
    pair.take(pair.other.type(0, "theirs"))
    pair.press("'mine'", "ctrl-z", "ctrl-z")
    assert pair.desk.document.text == "theirs"


def test_words_are_taken_back_one_by_one(pair: Pair) -> None:
    for character in "tea and":
        pair.press(f"'{character}'")
    pair.press("ctrl-z")
    assert pair.text() == "tea |"
    pair.press("ctrl-z")
    assert pair.text() == "|"


def test_what_was_taken_back_is_done_again(pair: Pair) -> None:
    for character in "tea and":
        pair.press(f"'{character}'")
    pair.press("ctrl-z", "ctrl-z")
    assert pair.text() == "|"
    pair.press("ctrl-y")
    assert pair.text() == "tea |"
    pair.press("ctrl-y", "ctrl-y")
    assert (pair.text(), pair.desk.notice) == ("tea and|", "nothing to do again")
    pair.press("ctrl-z", "ctrl-y", "ctrl-z")
    assert pair.text() == "tea |"
    pair.press("'!'", "ctrl-y")
    assert (pair.text(), pair.desk.notice) == ("tea !|", "nothing to do again")


def test_what_others_wrote_stays_where_an_edit_is_done_again(pair: Pair) -> None:
    pair.press("'tea'", "ctrl-a", "'milk'")
    pair.meet()
    pair.take(pair.other.type(2, "X"))
    pair.press("ctrl-z")
    pair.meet()
    pair.take(pair.other.type(0, "Y"))
    assert sorted(pair.desk.document.text) == sorted("teaXY")
    pair.press("ctrl-y")
    assert pair.desk.document.text.replace("Y", "") == "miXlk"
    pair.press("ctrl-z", "ctrl-z")
    assert sorted(pair.desk.document.text) == sorted("XY")
    pair.press("ctrl-y", "ctrl-y")
    assert pair.desk.document.text.replace("Y", "") == "miXlk"


def test_what_is_erased_or_typed_bit_by_bit_comes_back_in_its_order(pair: Pair) -> None:
    pair.press("'tea milk'", "home", *["delete"] * 8, *["ctrl-z"] * 8)
    assert pair.desk.document.text == "tea milk"
    pair.press(*["ctrl-y"] * 8, *["ctrl-z"] * 5)
    assert pair.desk.document.text == " milk"
    pair.press("ctrl-a", "delete", "'b'", "home", "'a'", "end", "'c'", *["ctrl-z"] * 3)
    assert pair.desk.document.text == ""
    pair.press(*["ctrl-y"] * 3)
    assert pair.desk.document.text == "abc"


def test_what_comes_back_stands_in_its_order_among_what_others_wrote(pair: Pair) -> None:
    pair.press("'tea milk'", "home", *["delete"] * 4)
    pair.meet()
    pair.take(pair.other.type(0, "(hot)"))
    pair.press("end", *["backspace"] * 4)
    assert pair.desk.document.text == "(hot)"
    pair.press(*["ctrl-z"] * 8)
    assert pair.desk.document.text.replace("(hot)", "") == "tea milk"


def test_what_is_copied_is_typed_elsewhere_as_it_is_read(pair: Pair) -> None:
    pair.press("'ab שלום cd'", "ctrl-c")
    assert (pair.desk.notice, pair.editor.clipboard.tell()) == ("", b"")
    pair.press("home", "shift-ctrl-right", "shift-ctrl-right", "shift-ctrl-right", "ctrl-c")
    start, stop = pair.editor.selected()
    copied = "ab שלום cd"[start:stop]
    assert "של" in copied and pair.desk.notice == f"{len(copied)} characters copied"
    assert pair.editor.clipboard.tell() == b"\x1b]52;c;" + base64.b64encode(copied.encode()) + b"\x07"
    assert pair.editor.clipboard.tell() == b""
    pair.press("ctrl-end", "ctrl-v", "ctrl-v")
    assert pair.text() == f"ab שלום cd{copied}{copied}|"
    pair.press("ctrl-z")
    assert pair.text() == f"ab שלום cd{copied}|"


def test_what_is_cut_is_gone_and_typed_in_place_of_what_is_selected(pair: Pair) -> None:
    pair.press("'tea, milk'", "home", "shift-ctrl-right", "ctrl-x")
    assert (pair.text(), pair.editor.clipboard.text) == ("|, milk", "tea")
    pair.press("ctrl-x", "end", "shift-ctrl-left", "ctrl-v")
    assert pair.text() == ", tea|"
    pair.press("ctrl-z", "ctrl-z")
    assert pair.desk.document.text == "tea, milk"


def test_nothing_is_typed_where_nothing_was_copied(pair: Pair) -> None:
    pair.press("'tea'", "ctrl-a", "ctrl-v")
    assert (pair.desk.document.text, pair.desk.notice) == ("tea", "nothing is copied")


def test_what_is_copied_steers_no_terminal(pair: Pair) -> None:
    pair.take(pair.other.type(0, "\x1b[2Jtea\x07"))
    pair.press("ctrl-a", "ctrl-c")
    assert pair.editor.clipboard.text == "[2Jtea"


def test_much_is_copied_for_this_editor_alone(pair: Pair) -> None:
    pair.take(pair.other.type(0, "x" * 75_000))
    pair.press("ctrl-a", "ctrl-c")
    assert pair.editor.clipboard.tell() == b"" and "too many for the terminal's clipboard" in pair.desk.notice


def test_no_room_stays_empty_below_while_there_are_rows_above(pair: Pair) -> None:
    pair.press("'1\n2\n3\n4\n5\n6'")

    def seen() -> list[str]:
        return [str(row).rstrip() for row in view_of(pair.editor).rows]

    assert seen() == ["1", "2", "3", "4", "5", "6"]
    for height, wanted in [(1, ["6"]), (3, ["4", "5", "6"]), (5, ["2", "3", "4", "5", "6"]), (9, ["1", "2", "3", "4", "5", "6"])]:
        pair.editor.resize(40, height)
        assert seen() == wanted and view_of(pair.editor).line == len(wanted) - 1
    pair.editor.resize(40, 3)
    pair.press("up", "up", "shift-ctrl-end", "shift-up", "delete")
    assert pair.text() == "1\n2\n3\n4|\n6" and seen() == ["3", "4", "6"]


def test_the_keys_are_shown_page_by_page_where_they_find_no_room(pair: Pair) -> None:
    pair.editor.resize(80, 24)
    pair.press("'tea'", "f1")
    whole = view_of(pair.editor).rows
    pair.press("f1")
    assert str(view_of(pair.editor).rows[0]).rstrip() == "tea"
    pair.editor.resize(12, 3)
    pages: list[tuple[Row, ...]] = []
    for _ in range(100):
        pair.press("f1")
        seen = view_of(pair.editor)
        if not seen.status.startswith(f"keys, {len(pages) + 1} of "):
            break
        pages.append(seen.rows)
    shown = "".join(str(row) for page in pages for row in page)
    assert len(pages) > 1 and shown.replace(" ", "") == "".join(map(str, whole)).replace(" ", "")
    assert str(seen.rows[0]).rstrip() == "tea" and pair.desk.document.text == "tea"
    pair.press("f1", "f1", "escape")
    assert str(view_of(pair.editor).rows[0]).rstrip() == "tea"


def test_typing_replaces_what_is_selected(pair: Pair) -> None:
    pair.press("'tea milk'", "home", "shift-ctrl-right", "'hot'")
    assert pair.text() == "hot| milk"
    pair.press("ctrl-z")
    assert pair.desk.document.text == "tea milk"
    pair.press("home", "mark", "right", "right", "escape", "right", "delete")
    assert pair.text() == "tea|milk"


def test_a_cluster_is_erased_whole(pair: Pair) -> None:
    pair.press("'ae\u0301👩\u200d👧'", "backspace")
    assert pair.text() == "ae\u0301|"
    pair.press("left", "delete")
    assert pair.text() == "a|"


def test_a_selected_stretch_follows_its_characters(pair: Pair) -> None:
    pair.press("'tea milk'", "home", "shift-right", "shift-right", "shift-right")
    pair.meet()
    pair.take(pair.other.type(0, "hot "))
    pair.take(pair.other.type(7, "!"))
    assert pair.text() == "hot tea|! milk" and pair.editor.selected() == (4, 7)
    pair.press("delete")
    assert pair.desk.document.text == "hot ! milk"


def test_a_stretch_that_is_selected_backwards_follows_too(pair: Pair) -> None:
    pair.press("'tea milk'", "shift-home")
    pair.meet()
    pair.take(pair.other.type(0, "hot "))
    pair.take(pair.other.type(12, "!"))
    assert pair.editor.selected() == (4, 12)


def test_no_key_waits_until_the_text_is_written(pair: Pair, monkeypatch: pytest.MonkeyPatch) -> None:
    may_end, flush = threading.Event(), os.fsync
    monkeypatch.setattr(os, "fsync", lambda file: may_end.wait(BOUND) and flush(file))
    pair.press("'tea'", "ctrl-s", "'m'")
    assert (pair.text(), pair.desk.notice) == ("team|", "")
    may_end.set()
    until(lambda: pair.desk.turn() or pair.desk.notice)
    assert pair.desk.notice == f"{pair.editor.text_path} is written"
    assert Path(pair.editor.text_path).read_text(encoding="utf-8") == "tea"


def test_a_text_that_can_not_be_written_is_told(pair: Pair) -> None:
    pair.editor.text_path = "/nowhere/notes.txt"
    pair.press("ctrl-s")
    until(lambda: pair.desk.turn() or pair.desk.notice)
    assert pair.desk.notice == "/nowhere/notes.txt is not written: No such file or directory"


def test_what_is_reported_while_the_log_can_not_be_written_stays_until_a_key(
    pair: Pair, monkeypatch: pytest.MonkeyPatch
) -> None:
    tried: list[int] = []

    def fail(file: int) -> None:
        tried.append(file)
        raise OSError(errno.ENOSPC, os.strerror(errno.ENOSPC))

    def turned() -> bool:
        pair.editor.turn()
        return True

    def turn() -> None:
        pair.desk.failed_at -= AGAIN
        tries = len(tried)
        until(lambda: turned() and len(tried) > tries and not pair.desk.log.flushing)

    monkeypatch.setattr(os, "fdatasync", fail)
    pair.press("'tea'")
    turn()
    assert "is not written, what you type is kept" in pair.desk.notice
    pair.press("ctrl-q")
    for _ in range(3):
        turn()
        assert "Ctrl-Q again leaves without it" in pair.desk.notice and not pair.editor.is_left
    pair.press("left")
    assert "is not written, what you type is kept" in pair.desk.notice
    monkeypatch.undo()
    pair.desk.failed_at -= AGAIN
    until(lambda: turned() and pair.desk.notice == "the log is written again")
    pair.press("left")
    assert pair.desk.notice == ""


def test_a_file_that_was_there_is_written_over_at_the_second_time(pair: Pair) -> None:
    path = Path(pair.editor.text_path)
    path.write_text("another's")

    def told() -> str:
        pair.press("ctrl-s")
        until(lambda: pair.desk.turn() or pair.desk.notice)
        return pair.desk.notice

    pair.press("'tea'")
    asked = f"{path} is not written: File exists; Ctrl-S again writes over it"
    assert (told(), path.read_text()) == (asked, "another's")
    assert (told(), path.read_text()) == (f"{path} is written", "tea")
    pair.press("'m'")
    assert (told(), path.read_text()) == (f"{path} is written", "team")
    path.write_text("another's again")
    assert (told(), path.read_text()) == (asked, "another's again")


def test_a_file_is_written_over_where_its_link_leads_and_stays_private(pair: Pair) -> None:
    path = Path(pair.editor.text_path)
    there = path.with_name("elsewhere")
    there.write_text("another's")
    there.chmod(0o600)
    path.symlink_to(there)
    for _ in range(2):
        pair.press("ctrl-a", "'tea'", "ctrl-s")
        until(lambda: pair.desk.turn() or pair.desk.notice)
    assert path.is_symlink() and there.read_text() == "tea" and there.stat().st_mode & 0o777 == 0o600


def test_what_can_not_be_written_leaves_no_other_file(pair: Pair, monkeypatch: pytest.MonkeyPatch) -> None:
    def fail(file: int) -> None:
        raise OSError(errno.ENOSPC, os.strerror(errno.ENOSPC))

    monkeypatch.setattr(os, "fsync", fail)
    pair.press("'tea'", "ctrl-s")
    until(lambda: pair.desk.turn() or pair.desk.notice)
    assert "No space left on device" in pair.desk.notice
    assert not list(Path(pair.editor.text_path).parent.glob("notes.txt*"))


def test_a_text_that_is_full_is_told(pair: Pair) -> None:
    pair.take(pair.other.type(0, "x" * 999_999))
    pair.press("'ab'")
    assert "202 Full" in pair.desk.notice and len(pair.desk.document) == 999_999
    # What finds no room in the middle of a paste would be missed there.
    for piece in ("ab", "c"):
        pair.editor.press(Key("paste", piece))
    pair.press("pasted")
    assert "202 Full" in pair.desk.notice and len(pair.desk.document) == 999_999
    pair.press("'a'")
    assert len(pair.desk.document) == 1_000_000 and not pair.desk.notice
