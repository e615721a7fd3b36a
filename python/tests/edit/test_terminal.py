"""Editors in a terminal: one alone, with each key, as a person sees it."""

from pathlib import Path

from bidigrid import layout
from program import text_of
from terminal import Pane, Terminal
from waiting import until

MIXED = "Menu: תה (2), חלב and شاي (2), حليب for 3 guests"


def test_each_key(terminal: Terminal) -> None:
    pane = terminal.run("dana").started()
    pane.type("tea, milk")
    pane.press("Enter", "Tab", "x", "BSpace", "Home", "DC")
    pane.shows("tea, milk")
    pane.press("Up", "End")
    pane.type(" (2)")
    pane.press("Home")
    pane.type("1 ")
    pane.press("C-Right", "C-Right")
    pane.type("y")
    pane.shows("1 tea, milky (2)")
    pane.press("C-Left", "S-Right", "S-Right", "S-Right", "S-Right", "Delete")
    pane.shows("1 tea, y (2)")
    pane.press("C-z")
    pane.shows("1 tea, milky (2)")
    pane.press("C-a", "BSpace")
    pane.shows("")
    pane.press("C-z", "C-z")
    pane.shows("1 tea, milk (2)")
    pane.press("C-s")
    pane.tells("notes.txt is written")
    assert (pane.own / "notes.txt").read_text() == "1 tea, milk (2)\n"
    pane.leave()
    assert text_of([pane.log]) == "1 tea, milk (2)\n"


def test_a_caret_goes_as_the_eye_sees_it(terminal: Terminal) -> None:
    pane = terminal.run("dana").started()
    pane.type("ab שלום cd")
    pane.shows("ab םולש cd")
    assert pane.cursor() == (0, 10)
    for column in range(9, -1, -1):
        pane.press("Left")
        pane.stands(0, column)
    for column in range(1, 11):
        pane.press("Right")
        pane.stands(0, column)
    pane.press("C-a")
    pane.type("שלום")
    until(lambda: pane.rows()[0] == "םולש".rjust(pane.width() - 1), pane.screen)
    assert pane.cursor() == (0, pane.width() - 5)
    pane.press("Home")
    pane.stands(0, pane.width() - 1)
    pane.press("Left")
    pane.stands(0, pane.width() - 2)


def test_a_paste_is_one_edit(terminal: Terminal) -> None:
    pane = terminal.run("dana").started()
    pane.type("before")
    pane.tells("6 characters")
    pane.paste("one\r\ntwo\tשלום\n" + "long " * 30)
    pane.tells(f"{6 + 4 + 9 + 150:,} characters")
    pane.press("C-z")
    pane.shows("before")


def test_what_is_copied_is_in_the_terminal_s_clipboard_as_it_is_read(terminal: Terminal) -> None:
    pane = terminal.run("dana").started()
    terminal.tmux("set", "-g", "set-clipboard", "on")
    pane.type("ab שלום cd")
    pane.shows("ab םולש cd")
    pane.press("C-a", "C-c")
    pane.tells("10 characters copied")
    until(lambda: terminal.tmux("list-buffers") and terminal.tmux("show-buffer") == "ab שלום cd", pane.screen)
    pane.press("End", "Enter", "C-v")
    pane.shows("ab םולש cd", "ab םולש cd")
    pane.press("C-z", "C-z", "C-y")
    pane.tells("11 characters")


def test_a_word_is_asked_for_in_the_last_line(terminal: Terminal) -> None:
    pane = terminal.run("dana").started()
    pane.type("tea, חלב and milk")
    pane.press("Home", "C-f")
    pane.type("חלב")
    pane.tells("find: בלח |")
    pane.press("Enter")
    pane.tells("site ")
    pane.type("שלום")
    pane.shows("tea, םולש and milk")
    pane.press("C-f")
    pane.type("nowhere")
    pane.tells("find: nowhere (is not there)")
    pane.press("Escape")
    pane.tells("site ")
    pane.leave()
    assert text_of([pane.log]) == "tea, שלום and milk"


def test_the_keys_are_shown_until_one_is_pressed(terminal: Terminal) -> None:
    pane = terminal.run("dana").started()
    pane.type("tea")
    pane.tells("3 characters")
    pane.press("F1")
    until(lambda: pane.rows()[0].startswith("arrows,") and any("Ctrl-F: find" in row for row in pane.rows()), pane.screen)
    pane.type("s")
    pane.shows("teas")
    pane.press("F1", "F1")
    pane.shows("teas")


def test_a_name_that_is_no_text_is_shown(terminal: Terminal) -> None:
    pane = terminal.run("dana", is_started=False)
    pane.words[3] = "notes\udcff"
    pane.start()
    pane.started().press("C-s")
    pane.tells("is written")


def test_a_long_text_is_scrolled_by_place(terminal: Terminal) -> None:
    pane = terminal.run("dana").started()
    height = len(pane.rows())
    pane.paste("".join(f"line {number}\n" for number in range(1000)))
    pane.shows(*(f"line {number}" for number in range(1001 - height, 1000)), "")
    pane.press("C-Home")
    pane.shows(*(f"line {number}" for number in range(height)))
    pane.press("NPage", "NPage")
    until(lambda: pane.cursor()[0] == height - 1 and f"line {2 * (height - 1)}" in pane.rows(), pane.screen)
    pane.press("Down")
    until(lambda: pane.rows()[-1] == f"line {2 * height - 1}", pane.screen)
    pane.press("PPage", "PPage")
    until(lambda: "line 1" in pane.rows() and pane.cursor()[1] == 0, pane.screen)


def test_base_and_width_are_changed_at_once(terminal: Terminal) -> None:
    pane = terminal.run("dana").started()
    pane.type(MIXED)
    width = pane.width() - 1
    pane.shows(*rows_at(width, "auto"))
    for base in ("left", "right"):
        pane.press("F2")
        pane.tells(f"F2 {base}")
        pane.shows(*rows_at(width, base))
    pane.press("F2", "F3")
    pane.tells("F3 wide")
    for width in (30, 17, 3, 2, 60):
        terminal.tmux("resize-window", "-x", str(width))
        if width > 10:
            pane.shows(*rows_at(width - 1, "auto"))


def test_a_terminal_of_very_many_lines_will_do(terminal: Terminal) -> None:
    pane = terminal.run("dana").started()
    pane.paste("".join(f"line {number}\n" for number in range(1300)))
    pane.tells("characters")
    terminal.tmux("resize-window", "-y", "1200")
    pane.shows(*(f"line {number}" for number in range(301, 1300)), "")
    pane.press("PPage", "Home")
    pane.stands(0, 0)
    assert pane.rows()[0] == "line 301"


def test_a_terminal_of_one_column_or_line_will_do(terminal: Terminal) -> None:
    pane = terminal.run("dana").started()
    pane.type("tea, חלב")
    pane.press("C-a")
    for size in (("-x", "1"), ("-x", "2", "-y", "1"), ("-x", "1"), ("-x", "60", "-y", "14")):
        terminal.tmux("resize-window", *size)
        pane.press("S-Left")
    pane.shows("tea, בלח")


def test_a_terminal_without_colours_or_size_will_do(terminal: Terminal) -> None:
    pane = terminal.run("dana", is_started=False)
    pane.words[:0] = ["env", "TERM=vt100", "LANG=C"]
    pane.start()
    pane.started().type("tea תה")
    pane.shows("tea הת")
    pane.leave()
    pane.words[1] = "TERM=nonesuch"
    pane.start()
    until(pane.is_dead, pane.screen)
    assert pane.said() == "bidigrid-edit: cannot use the terminal: setupterm: could not find terminal\n"


def rows_at(width: int, base: str) -> list[str]:
    """The rows of the mixed text."""
    picture = layout(MIXED, width, base, wide_ambiguous=False)  # type: ignore[arg-type]
    return [line.rstrip() for line in str(picture).split("\n")]


def test_a_terminal_that_reorders_gets_the_text_as_it_is_read(terminal: Terminal) -> None:
    pane = terminal.run("dana", "--logical").started()
    pane.type("ab (שלום) cd")
    pane.shows("ab (שלום) cd")
    pane.press("Enter")
    pane.type("שלום עולם (x)  ab")
    pane.shows("ab (שלום) cd", "שלום עולם (x)  ab")


def test_what_a_stranger_types_can_not_steer_the_terminal(terminal: Terminal, tmp_path: Path) -> None:
    pane = terminal.run("dana", "--folder", str(tmp_path)).started()
    frames = [f"0011 01 {number:08x} 0009 {number - 1:08x} {9 if number > 1 else 0:04x} {ord(character):08x}"
              for number, character in enumerate("\x1b[2Jtea\x07", 1)]  # fmt: skip
    (tmp_path / "notes.9.bgop").write_bytes(bytes.fromhex("42474f5001" + "".join(frames)))
    pane.tells("8 characters")
    until(lambda: "[2Jtea" in pane.screen(), pane.screen)
