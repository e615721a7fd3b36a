"""Bytes of a terminal become keys, in pieces of any size."""

import pytest
from bidigrid.edit.keys import Key, Keys

ROWS = [
    (b"tea", [Key("text", "tea")]),
    ("תה".encode(), [Key("text", "תה")]),
    (b"\r\n\x7f\x08\t", [Key("text", "\n\n"), Key("backspace"), Key("backspace"), Key("text", "\t")]),
    (b"\x11\x13\x1a\x01", [Key("ctrl-q"), Key("ctrl-s"), Key("ctrl-z"), Key("ctrl-a")]),
    (b"\x1b[A\x1bOB\x1b[C\x1bOD", [Key("up"), Key("down"), Key("right"), Key("left")]),
    (b"\x1b[1;5C\x1b[1;2D\x1b[1;6D", [Key("ctrl-right"), Key("shift-left"), Key("shift-ctrl-left")]),
    (b"\x1b[H\x1b[4~\x1bOF\x1b[7~", [Key("home"), Key("end"), Key("end"), Key("home")]),
    (b"\x1b[3~\x1b[5~\x1b[6~\x1b[1;2H", [Key("delete"), Key("page-up"), Key("page-down"), Key("shift-home")]),
    (b"\x1bOQ\x1b[13~", [Key("f2"), Key("f3")]),
    # As `infocmp rxvt-unicode` and `infocmp linux` have them.
    (b"\x1b[d\x1b[c\x1b[7$\x1b[8$", [Key("shift-left"), Key("shift-right"), Key("shift-home"), Key("shift-end")]),
    (b"\x1b[5$\x1b[3$\x1b[8^a", [Key("shift-page-up"), Key("shift-delete"), Key("ctrl-end"), Key("text", "a")]),
    (b"\x1b[[A\x1b[[B\x1b[[Ca", [Key("f1"), Key("f2"), Key("f3"), Key("text", "a")]),
    (b"a\x1b[200~one\r\ntwo\x1b[A\r\x1b[201~b", [Key("text", "a"), Key("paste", "one\ntwo\x1b[A\n"), Key("pasted"),
                                                   Key("text", "b")]),
    (b"\x1b[99~\x1b[Ia", [Key("text", "a")]),
    (b"\x1b[97;5:3u\x1b[>1;2c\x1b[[Ea", [Key("text", "a")]),
    (b"\x1b\x1b[A", [Key("escape"), Key("up")]),
]


def joined(found: list[Key]) -> list[Key]:
    """Texts and pieces of a paste that follow each other as one."""
    made: list[Key] = []
    for key in found:
        if made and key.name == made[-1].name and key.text:
            made[-1] = Key(key.name, made[-1].text + key.text)
        else:
            made.append(key)
    return made


@pytest.mark.parametrize(("data", "wanted"), ROWS)
def test_bytes_are_keys(data: bytes, wanted: list[Key]) -> None:
    assert list(Keys().feed(data)) == wanted
    for size in (1, 2, 3):
        keys = Keys()
        found = [key for at in range(0, len(data), size) for key in keys.feed(data[at : at + size])]
        assert joined(found) == wanted and not keys.is_waiting()


def test_an_escape_that_nothing_follows_is_the_key() -> None:
    keys = Keys()
    assert list(keys.feed(b"a\x1b")) == [Key("text", "a")] and keys.is_waiting()
    assert list(keys.give_up(0)) == [Key("escape")] and not keys.is_waiting()
    assert not list(keys.feed(b"\x1b[")) and list(keys.give_up(0)) == [Key("escape"), Key("text", "[")]


def test_bytes_that_are_no_utf_8_are_replaced() -> None:
    assert list(Keys().feed(b"a\xffb")) == [Key("text", "a\ufffdb")]
