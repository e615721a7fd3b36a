"""Random keys at three desks, whose folders are brought together by someone who copies at random moments and lengths."""

import random
import re
import shutil
from pathlib import Path

import pytest
from bidigrid import Document, layout
from bidigrid.edit import desk as desks_module
from bidigrid.edit import undo
from bidigrid.edit.channel import Message
from bidigrid.edit.editor import Editor
from bidigrid.edit.keys import Key
from bidigrid.edit.view import view_of
from desks import desk_at, in_folder, look
from program import text_of

KEYS = 10_000
HEIGHT = 12
WORDS = ["\n", "\t", "tea", "milk ", "שלום", "חלב ", "شاي", "حليب ", "١٢٣", "42", " ", "(", ")", "é", "e\u0301", "茶", "\u200f", "\u2067",
         "\u2069", "ש\u05b8", "👩\u200d👧"]  # fmt: skip
MOVES = ["left", "right", "up", "down", "home", "end", "ctrl-left", "ctrl-right", "page-up", "page-down", "ctrl-home",
         "ctrl-end"]  # fmt: skip
EDITS = ["backspace", "delete", "ctrl-z", "ctrl-y", "ctrl-c", "ctrl-f", "ctrl-r"]


def drawn_key(chance: random.Random) -> Key:
    """A key: half of them type."""
    kind = chance.random()
    if kind < 0.5:
        return Key("text", chance.choice(WORDS))
    if kind < 0.75:
        return Key(chance.choice(MOVES))
    if kind < 0.8:
        return Key("shift-" + chance.choice(MOVES[:8]))
    if kind < 0.98:
        return Key(chance.choice(EDITS))
    return chance.choice([Key("text", "".join(chance.choices(WORDS, k=30))), Key("f2"), Key("escape"), Key("mark"),
                          Key("ctrl-x"), Key("ctrl-v")])


def deliver(chance: random.Random, source: Path, target: Path, whole: bool) -> None:
    """Brings the files of one desk's folder to another's: some not at all, some cut anywhere."""
    for file in source.glob("notes.*.bgop"):
        there = target / file.name
        held = there.stat().st_size if there.exists() else 0
        size = file.stat().st_size
        if size > held and (whole or chance.random() < 0.7):
            end = size if whole else chance.randint(held, size)
            with open(file, "rb") as read, open(there, "ab") as written:
                read.seek(held)
                written.write(read.read(end - held))


@pytest.mark.parametrize("seed", [71, 72])
def test_random_keys_at_three_desks(tmp_path: Path, seed: int) -> None:
    chance = random.Random(seed)
    folders = [tmp_path / name for name in ("one", "two", "three")]
    for folder in folders:
        folder.mkdir()
    desks = [in_folder(folder / "own.bgop", folder, number) for number, folder in enumerate(folders, 1)]
    editors = [Editor(desk, HEIGHT, str(desk.log.path)) for desk in desks]
    for _ in range(KEYS):
        editor = chance.choice(editors)
        editor.press(drawn_key(chance))
        while editor.desk.jobs:
            editor.turn()
        assert editor.selected()[1] <= len(editor.document)
        if chance.random() < 0.1:
            seen = view_of(editor)
            assert seen.rows == tuple(editor.document.rows(seen.rows[0].first_place, 0, HEIGHT - 1))
            assert seen.rows[seen.line].first_place <= editor.at.place <= seen.rows[seen.line].last_place
        if chance.random() < 0.1:
            source, target = chance.sample(folders, 2)
            deliver(chance, source, target, whole=False)
        if chance.random() < 0.1:
            look(editor.desk)
            editor.is_stale = True
    for _ in range(2):
        for desk in desks:
            look(desk)
        for source in folders:
            for target in folders:
                if source != target:
                    deliver(chance, source, target, whole=True)
    for desk in desks:
        look(desk)
        assert desk.notice == "" or re.fullmatch("nothing (to take back|to do again|is copied)|[0-9,]+ characters? copied", desk.notice)
    text = desks[0].document.text
    assert text == text_of([Path(desk.log.path) for desk in desks])
    for width in (12, 40):
        for desk in desks:
            desk.document.base = "auto"
            desk.document.resize(width)
            assert desk.document.text == text
            assert str(desk.document.rows(0, 0, 1000)) == str(layout(text, width))[: len(str(desk.document.rows(0, 0, 1000)))]
    for desk in desks:
        desk.close()
    shutil.rmtree(tmp_path)


@pytest.mark.parametrize("seed", range(20))
def test_all_is_taken_back_and_done_again_step_by_step(tmp_path: Path, seed: int, monkeypatch: pytest.MonkeyPatch) -> None:
    # Short pieces meet within words.
    monkeypatch.setattr(undo, "AT_ONCE", 3)
    monkeypatch.setattr(desks_module, "LONG", 4)
    chance = random.Random(seed)
    desk, other = desk_at(tmp_path / "notes.bgop", site=1), Document(2)
    editor = Editor(desk, HEIGHT, "")

    def press(key: Key) -> str:
        editor.press(key)
        while desk.jobs:
            editor.turn()
        return desk.document.text.replace("*", "")

    def write() -> None:
        desk.log.flush()
        other.take(desk.log.read(0, desk.log.size))
        desk.take(Message("another", other.type(chance.randint(0, len(other)), "*")))
        editor.is_stale = True

    for _ in range(40):
        press(drawn_key(chance))
    seen = [press(Key("escape"))]
    while desk.notice != "nothing to take back":
        write()
        seen.append(press(Key("ctrl-z")))
    assert seen.pop() == seen[-1] == ""
    for wanted in seen[-2::-1]:
        write()
        assert press(Key("ctrl-y")) == wanted
    desk.close()
