"""Editors in panes side by side: people write one text at once, one is killed, Redis goes away and comes back."""

import random
from pathlib import Path

import pytest
from bidigrid import layout
from program import rows_of, text_of
from servers import Server
from terminal import Pane, Terminal
from waiting import until

HEBREW = "תה (2), חלב"
ARABIC = "شاي (2), حليب ١٢٣"
LATIN = "tea (2), milk"


def have_met(*panes: Pane, size: int | None = None, has: tuple[str, ...] = ()) -> None:
    """Waits until all panes show the rows of what `bidigrid` says of the logs, and that is so long and has these words; then
    panes of one width show the same rows, and `bidigrid` draws them too."""
    logs = [pane.log for pane in panes]
    seen: list[list[str]] = []
    text = ""

    def is_so() -> bool:
        nonlocal text
        text = text_of(logs)
        seen[:] = [pane.rows() for pane in panes]
        is_all = (size is None or len(text) == size) and all(word in text for word in has)
        return is_all and all(rows == rows_at(text, pane) for rows, pane in zip(seen, panes))

    until(is_so, lambda: "\n".join([text, *(pane.screen() for pane in panes)]))
    if len({pane.width() for pane in panes}) == 1:
        assert all(rows == seen[0] for rows in seen)
        # `replay` draws each desk after all have met, one after the other.
        drawn = [row.rstrip() for row in rows_of(logs, panes[0].width() - 1)]
        count = len(str(layout(text, panes[0].width() - 1)).split("\n"))
        assert size is None or drawn[-count:] == seen[0][:count]


def rows_at(text: str, pane: Pane) -> list[str]:
    """The rows of a short text as a pane has to show them."""
    rows = [row.rstrip() for row in str(layout(text, pane.width() - 1)).split("\n")]
    return rows + [""] * (len(pane.lines()) - 1 - len(rows))


def test_two_desks_over_a_folder(terminal: Terminal, tmp_path: Path) -> None:
    shared = tmp_path / "shared"
    shared.mkdir()
    terminal.size = ("-x", "121", "-y", "12")
    dana, omar = (terminal.run(name, "--folder", str(shared)).started() for name in ("dana", "omar"))
    dana.tells("with omar")
    omar.tells("with dana")
    # Both write at the front, and neither has seen what the other writes.
    dana.type(HEBREW)
    omar.type(ARABIC)
    size = len(HEBREW) + len(ARABIC)
    have_met(dana, omar, size=size, has=(HEBREW, ARABIC))
    # Each erases in the other's word, or in its own.
    dana.press("C-Home")
    omar.press("C-End")
    for _ in range(4):
        dana.press("DC")
        omar.press("BSpace")
    have_met(dana, omar, size=size - 8)
    dana.press("End", "Enter")
    dana.type("ab")
    have_met(dana, omar, size=size - 5, has=("ab",))
    dana.leave()
    until(lambda: "with" not in omar.status(), omar.screen)
    omar.press("C-a", "BSpace")
    omar.shows("")
    dana.start()
    dana.started().shows("")
    omar.press("C-z")
    have_met(dana, omar, size=size - 5, has=("ab",))


def test_three_desks_over_redis_that_is_stopped_and_started(terminal: Terminal, server: Server) -> None:
    panes = [terminal.run(name, "--redis", server.url).started() for name in ("dana", "omar", "eve")]
    for pane, words in zip(panes, (HEBREW, ARABIC, LATIN)):
        pane.type(words)
    have_met(*panes, size=len(HEBREW + ARABIC + LATIN), has=(HEBREW, ARABIC, LATIN))
    server.stop()
    ends = ("Q1", "Q2", "Q3")
    for pane, words, end in zip(panes, ("חם ", "٤٥ ", "hot "), ends):
        pane.tells("redis away")
        pane.press("Home")
        pane.type(words)
        pane.press("Right", "Right", "DC")
        pane.type(end)
    server.start()
    have_met(*panes, has=ends)
    size = len(text_of([pane.log for pane in panes]))
    for pane in panes:
        pane.tells("| redis |")
        pane.leave()
        pane.start()
        pane.started()
    have_met(*panes, size=size, has=ends)


def test_one_is_killed_and_started_again(terminal: Terminal, server: Server) -> None:
    chance = random.Random(71)
    dana, omar = (terminal.run(name, "--redis", server.url).started() for name in ("dana", "omar"))
    for _ in range(4):
        omar.type(ARABIC[: chance.randint(1, 8)])
        for word in HEBREW.split()[: chance.randint(1, 3)]:
            dana.type(word)
        shown = dana.rows()
        dana.kill()
        dana.start()
        dana.started()
        # What one sees was kept before, and what another sees of it was flushed: it stays.
        held = letters(text_of([dana.log, omar.log]))
        for seen in (letters("".join(shown)), letters("".join(omar.rows()))):
            assert all(held.count(letter) >= seen.count(letter) for letter in seen)
        have_met(dana, omar)


def letters(text: str) -> str:
    """The letters and digits of a text, which no row shows mirrored."""
    return "".join(filter(str.isalnum, text))


def test_a_narrower_pane_shows_the_same_text(terminal: Terminal, server: Server) -> None:
    dana, omar = (terminal.run(name, "--redis", server.url).started() for name in ("dana", "omar"))
    dana.type(f"{HEBREW} and {ARABIC}")
    size = len(f"{HEBREW} and {ARABIC}")
    have_met(dana, omar, size=size)
    for turn, width in enumerate((20, 12, 40), 1):
        terminal.tmux("resize-pane", "-t", dana.number, "-x", str(width))
        until(lambda width=width: dana.width() == width)  # type: ignore[misc]
        omar.type("x ")
        have_met(dana, omar, size=size + 2 * turn)
    terminal.tmux("select-layout", "even-horizontal")
    have_met(dana, omar, size=size + 6)


def test_a_caret_stays_at_its_character(terminal: Terminal, server: Server) -> None:
    dana, omar = (terminal.run(name, "--redis", server.url).started() for name in ("dana", "omar"))
    dana.type("tea milk")
    have_met(dana, omar, size=8)
    dana.press("Home", "C-Right", "Right")
    dana.stands(0, 4)
    omar.press("Home")
    omar.type("hot ")
    have_met(dana, omar, size=12)
    dana.stands(0, 8)
    dana.type("and ")
    have_met(dana, omar, size=16)
    assert dana.rows()[0] == "hot tea and milk"


@pytest.mark.parametrize("way", ["folder", "redis"])
def test_others_carets_are_seen_in_their_colour(terminal: Terminal, server: Server, tmp_path: Path, way: str) -> None:
    words = ("--redis", server.url) if way == "redis" else ("--folder", str(tmp_path))
    dana, omar = (terminal.run(name, *words).started() for name in ("dana", "omar"))
    dana.type("tea")
    have_met(dana, omar, size=3)
    omar.press("Home", "Right")

    def is_coloured() -> bool:
        line = terminal.tmux("capture-pane", "-e", "-p", "-t", dana.number).split("\n")[0]
        # A background colour before the second letter, and none behind it.
        before, letter, _ = line.partition("e")
        return bool(letter) and "\x1b[" in before and before.rstrip("m0123456789;[\x1b") == "t" and "4" in before

    until(is_coloured, dana.screen)
