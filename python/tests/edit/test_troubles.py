"""What keeps an editor from starting, or stands in its way: one clear line, and nothing lost."""

import os
import subprocess
import tempfile
from collections.abc import Iterator
from pathlib import Path

import pytest
from program import text_of
from servers import Server, Way
from terminal import Pane, Terminal
from waiting import until

NOBODY = 65534


def refused(pane: Pane) -> str:
    """The one line that it ended with."""
    until(pane.is_dead, pane.screen)
    [line] = pane.said().splitlines()
    assert line.startswith("bidigrid-edit: ")
    return line.removeprefix("bidigrid-edit: ")


@pytest.fixture
def small_disk(tmp_path: Path) -> Iterator[Path]:
    """A disk that is soon full."""
    disk = tmp_path / "disk"
    disk.mkdir()
    if subprocess.run(["mount", "-t", "tmpfs", "-o", "size=16k", "none", str(disk)], check=False).returncode:
        pytest.skip("a tmpfs can't be mounted here")
    yield disk
    subprocess.run(["umount", "-l", str(disk)], check=True)


def test_a_folder_that_is_none(terminal: Terminal, tmp_path: Path) -> None:
    pane = terminal.run("dana", "--folder", str(tmp_path / "nowhere"))
    assert refused(pane) == f"cannot write to {tmp_path}/nowhere: No such file or directory"
    assert not pane.log.exists()


def test_an_unreadable_folder() -> None:
    with tempfile.TemporaryDirectory() as name:
        folder = Path(name)
        folder.chmod(0o711)
        shut = folder / "shut"
        shut.mkdir(mode=0o300)
        terminal = Terminal(folder, 80, 14)
        pane = terminal.run("dana", "--folder", str(shut), is_started=False)
        if os.getuid() == 0:
            # Root reads everything, so nobody in particular tries it.
            pane.words[:0] = ["setpriv", f"--reuid={NOBODY}", f"--regid={NOBODY}", "--clear-groups"]
            for own in (shut, pane.own):
                os.chown(own, NOBODY, NOBODY)
        pane.start()
        assert refused(pane) == f"cannot read {shut}: Permission denied"
        terminal.close()


def test_a_full_disk(terminal: Terminal, small_disk: Path) -> None:
    pane = terminal.run("dana", "--log", str(small_disk / "notes.bgop")).started()
    filler = small_disk / "filler"
    pane.type("tea")
    pane.tells("3 characters")
    with open(filler, "wb") as file:
        while True:
            try:
                os.write(file.fileno(), bytes(512))
            except OSError:
                break
    pane.paste("hot " * 2000)
    pane.tells("No space left on device")
    pane.press("C-q")
    pane.tells("Ctrl-Q again")
    pane.type("!")
    pane.tells("8,004 characters")
    filler.unlink()
    subprocess.run(["mount", "-o", "remount,size=1m", str(small_disk)], check=True)
    pane.tells("the log is written again")
    pane.leave()
    assert text_of([small_disk / "notes.bgop"]) == "tea" + "hot " * 2000 + "!"


def test_a_folder_on_a_full_disk(terminal: Terminal, small_disk: Path) -> None:
    dana = terminal.run("dana", "--folder", str(small_disk)).started()
    omar = terminal.run("omar", "--folder", str(small_disk)).started()
    dana.paste("hot " * 2000)
    dana.tells("folder: No space left on device")
    subprocess.run(["mount", "-o", "remount,size=4m", str(small_disk)], check=True)
    omar.tells("8,000 characters")
    dana.tells("| folder |")
    for pane in (dana, omar):
        pane.leave()
    assert text_of([dana.log, omar.log]) == "hot " * 2000


def test_a_log_of_another_site(terminal: Terminal) -> None:
    pane = terminal.run("dana", "--site", "1").started()
    pane.type("tea")
    pane.tells("3 characters")
    pane.leave()
    kept = pane.log.read_bytes()
    pane.words += ["--site", "2"]
    pane.start()
    assert refused(pane) == "notes.bgop is the log of site 1, not of 2: name another by --log"
    assert pane.log.read_bytes() == kept


def test_a_log_that_is_open(terminal: Terminal) -> None:
    terminal.run("dana").started()
    second = terminal.run("dana")
    assert refused(second) == "notes.bgop is open in another editor: name another log by --log"


def test_a_redis_that_wants_a_password(terminal: Terminal, locked_server: Server) -> None:
    url = locked_server.url
    pane = terminal.run("dana", "--redis", url)
    wanted = "it wants a password, as redis://:PASSWORD@HOST:PORT/0"
    assert refused(pane) == f"{url}, which gives a new desk its site: {wanted}"
    pane.words[-1] = url.replace("//", "//:secret@")
    pane.start()
    pane.started().tells("| redis |")


def test_a_start_that_takes_long_is_ended_by_ctrl_c(terminal: Terminal, server: Server) -> None:
    way = Way(server)
    way.flows.clear()
    pane = terminal.run("dana", "--redis", way.url)
    until(way.is_stopped.is_set)
    pane.press("C-c")
    until(pane.is_dead)
    assert pane.said() == ""
    way.close()


def test_no_redis_for_a_new_desk(terminal: Terminal, tmp_path: Path) -> None:
    server = Server(tmp_path)
    server.stop()
    pane = terminal.run("dana", "--redis", server.url)
    assert "gives a new desk its site: " in refused(pane)
    assert "Connection refused" in pane.said() and not pane.log.exists()
