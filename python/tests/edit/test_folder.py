"""Desks over a folder: whole frames are taken as files grow, and what is wrong with one stops nobody."""

import os
import threading
import time
from pathlib import Path
from typing import Any

import pytest
from bidigrid import Document
from bidigrid.edit.channel import Message
from bidigrid.edit import carrier
from bidigrid.edit.desk import AT_ONCE
from bidigrid.edit.editor import Editor
from bidigrid.edit.fault import EditFault
from bidigrid.edit.folder import Folder
from bidigrid.edit.view import view_of
from desks import desk_at, have_met, in_folder, look
from waiting import BOUND, until

STRANGER = bytes.fromhex("42474f5001 0011 01 00000001 0009 00000000 0000 00000058")


def test_three_desks_meet(tmp_path: Path) -> None:
    shared = tmp_path / "shared"
    shared.mkdir()
    desks = [in_folder(tmp_path / f"{name}.bgop", shared) for name in ("english", "hebrew", "arabic")]
    for desk, words in zip(desks, ("tea (2), milk\n", "תה (2), חלב\n", "شاي (2), حليب\n")):
        desk.replace(0, 0, words)
    have_met(*desks)
    assert sorted(desks[0].document.text.splitlines()) == ["tea (2), milk", "תה (2), חלב", "شاي (2), حليب"]
    desks[1].replace(0, 4, "")
    have_met(*desks)
    for desk in desks:
        desk.close()
        copy = shared / f"notes.{desk.site}.bgop"
        assert copy.read_bytes() == Path(desk.log.path).read_bytes()


def test_a_cut_frame_is_one_that_is_being_written(tmp_path: Path) -> None:
    desk = in_folder(tmp_path / "notes.bgop", tmp_path)
    theirs = tmp_path / "notes.9.bgop"
    for size in range(len(STRANGER) + 1):
        theirs.write_bytes(STRANGER[:size])
        look(desk)
        assert (desk.document.text, desk.notice) == ("X" if size == len(STRANGER) else "", "")
    desk.close()


@pytest.mark.parametrize(
    ("data", "said"),
    [
        (b"Dear all, ..", "notes.9.bgop: 301 BadMagic"),
        (b"BGOP\x07....", "notes.9.bgop: 302 BadVersion"),
        (STRANGER + b"\x00\x05\x09hello", "notes.9.bgop: 304 UnknownKind"),
        (STRANGER + bytes.fromhex("0011 01 00000001 0009 00000000 0000 00000059"), "notes.9.bgop: 201 IdentifierReused"),
    ],
)
def test_a_faulty_file_is_told_and_stops_nobody(tmp_path: Path, data: bytes, said: str) -> None:
    one, other = in_folder(tmp_path / "one.bgop", tmp_path), in_folder(tmp_path / "other.bgop", tmp_path)
    (tmp_path / "notes.9.bgop").write_bytes(data)
    one.replace(0, 0, "tea")
    have_met(one, other)
    until(lambda: other.turn() or other.notice)
    assert said in other.notice and "left out" in other.notice
    assert ("X" in other.document.text) == data.startswith(STRANGER)
    other.notice = ""
    one.replace(0, 0, "hot ")
    have_met(one, other)
    assert other.notice == "" and "hot tea" in other.document.text
    one.close()
    other.close()


def test_what_follows_a_refused_operation_is_taken(tmp_path: Path) -> None:
    reused = bytes.fromhex("0011 01 00000001 0009 00000000 0000 00000059")
    behind = bytes.fromhex("0011 01 00000002 0009 00000001 0009 0000005a")
    (tmp_path / "notes.9.bgop").write_bytes(STRANGER + reused + behind)
    desk = in_folder(tmp_path / "notes.bgop", tmp_path)
    assert desk.document.text == "XZ" and "201 IdentifierReused" in desk.notice
    desk.close()


def test_a_desk_goes_on_after_its_copy_was_cut_or_lost(tmp_path: Path) -> None:
    desk = in_folder(tmp_path / "one.bgop", tmp_path)
    desk.replace(0, 0, "tea")
    have_met(desk)
    site = desk.site
    desk.close()
    copy = tmp_path / f"notes.{site}.bgop"
    for held in (copy.read_bytes()[:30], b"", None):
        copy.unlink() if held is None else copy.write_bytes(held)
        desk = in_folder(tmp_path / "one.bgop", tmp_path)
        have_met(desk)
        assert desk.site == site and copy.read_bytes() == (tmp_path / "one.bgop").read_bytes()
        desk.close()


def test_another_desk_of_this_site_is_told(tmp_path: Path) -> None:
    desk = in_folder(tmp_path / "one.bgop", tmp_path)
    desk.replace(0, 0, "tea")
    have_met(desk)
    copy = tmp_path / f"notes.{desk.site}.bgop"
    desk.close()
    kept = (tmp_path / "one.bgop").read_bytes()
    copy.write_bytes(kept[:-1] + b"z" + kept[5:24])
    with pytest.raises(EditFault, match=f"another desk has site {desk.site}"):
        in_folder(tmp_path / "one.bgop", tmp_path)
    assert (tmp_path / "one.bgop").read_bytes() == kept


def test_a_folder_that_is_none_is_told(tmp_path: Path) -> None:
    for path, said in ((tmp_path / "nowhere", "No such file or directory"), (Path("/dev/null"), "Not a directory")):
        with pytest.raises(EditFault, match=f"cannot .* {path}: {said}"):
            desk_at(tmp_path / "one.bgop", Folder(str(path), "notes", "someone"))


def test_a_file_that_can_not_be_read_is_told_and_stops_nobody(tmp_path: Path) -> None:
    one, other = in_folder(tmp_path / "one.bgop", tmp_path), in_folder(tmp_path / "other.bgop", tmp_path)
    (tmp_path / "notes.9.bgop").mkdir()
    one.replace(0, 0, "tea")
    have_met(one, other)
    assert other.document.text == "tea" and other.state() == "folder: notes.9.bgop: Is a directory"
    one.close()
    other.close()


def test_typing_goes_on_while_the_folder_is_away(tmp_path: Path) -> None:
    shared = tmp_path / "shared"
    shared.mkdir()
    one, other = in_folder(tmp_path / "one.bgop", shared), in_folder(tmp_path / "other.bgop", shared)
    one.replace(0, 0, "tea")
    have_met(one, other)
    shared.rename(tmp_path / "away")
    one.replace(3, 3, "m")
    until(lambda: one.turn() or "No such file" in one.state())
    other.replace(0, 0, "a ")
    (tmp_path / "away").rename(shared)
    have_met(one, other)
    assert one.document.text == "a team" and one.state() == "folder"
    one.close()
    other.close()


def test_keys_are_looked_for_while_much_comes(tmp_path: Path, monkeypatch: pytest.MonkeyPatch) -> None:
    desk, other = in_folder(tmp_path / "own.bgop", tmp_path), Document(9)
    desk.came += [Message("the other", other.type(number, "x")) for number in range(20)]
    take = desk.take

    def take_long(message: Message) -> None:
        time.sleep(AT_ONCE)
        take(message)

    monkeypatch.setattr(desk, "take", take_long)
    turns = 0
    while desk.turn():
        turns += 1
        assert len(desk.document) == turns and desk.patience() == 0.0
    assert turns == 20 and desk.document.text == "x" * 20 and desk.patience() != 0.0
    desk.close()


def test_typing_goes_on_while_the_folder_hangs(tmp_path: Path, monkeypatch: pytest.MonkeyPatch) -> None:
    one, other = in_folder(tmp_path / "one.bgop", tmp_path), in_folder(tmp_path / "other.bgop", tmp_path)
    have_met(one, other)
    may_go_on, scan, main = threading.Event(), os.scandir, threading.main_thread()

    def scan_long(path: str) -> Any:
        assert threading.current_thread() is not main
        may_go_on.wait(BOUND)
        return scan(path)

    monkeypatch.setattr(os, "scandir", scan_long)
    monkeypatch.setattr(carrier, "SLOW", 0.1)
    for place, letter in enumerate("tea"):
        one.replace(place, place, letter)
        until(lambda: one.turn() or not one.log.waiting)
    until(lambda: one.turn() or one.state() == "folder: no answer")
    may_go_on.set()
    have_met(one, other)
    until(lambda: one.turn() or one.state() == "folder")
    assert other.document.text == "tea"
    one.close()
    other.close()


def test_a_pipe_that_nobody_writes_to_stops_nobody(tmp_path: Path) -> None:
    one, other = in_folder(tmp_path / "one.bgop", tmp_path), in_folder(tmp_path / "other.bgop", tmp_path)
    os.mkfifo(tmp_path / "notes.9.bgop")
    os.mkfifo(tmp_path / ".notes.8.here")
    (tmp_path / "notes.8.bgop").write_bytes(STRANGER)
    one.replace(0, 0, "tea")
    have_met(one, other)
    assert sorted(other.document.text) == sorted("teaX") and one.state() == other.state() == "folder"
    one.close()
    other.close()


@pytest.mark.parametrize("sign", ["", "{", "[]", '{"name": 1, "caret": [1, 2, 3]}', '{"name": 1, "caret": ["x", 1]}',
                                  '{"name": "x", "caret": [-1, 1e300]}', '{"name": "x", "caret": [Infinity, 1]}', "[" * 1000,
                                  "\x00" * 2000, "\udcff"])  # fmt: skip
def test_hostile_signs_do_no_harm(tmp_path: Path, sign: str) -> None:
    one, other = in_folder(tmp_path / "one.bgop", tmp_path), in_folder(tmp_path / "other.bgop", tmp_path)
    one.replace(0, 0, "tea")
    have_met(one, other)
    one.close()
    (tmp_path / f".notes.{one.site}.here").write_text(sign, errors="surrogateescape")
    one = in_folder(tmp_path / "third.bgop", tmp_path)
    until(lambda: (one.turn(), other.turn()) and one.site in other.here())
    assert one.site in [site for _, _, site in view_of(Editor(other, 5, "")).others]
    one.close()
    other.close()


def test_who_is_here_is_seen_and_where(tmp_path: Path) -> None:
    one, other = in_folder(tmp_path / "one.bgop", tmp_path), in_folder(tmp_path / "other.bgop", tmp_path)
    one.replace(0, 0, "tea")
    have_met(one, other)
    one.caret = one.document.id_at(1)
    until(lambda: (one.turn(), other.turn()) and other.here() and other.here()[one.site].caret == one.caret)
    one.close()
    until(lambda: other.turn() or not other.here())
    other.close()
    assert not [name for name in os.listdir(tmp_path) if name.endswith(".here")]
