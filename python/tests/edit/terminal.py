"""Editors in panes of a tmux of the tests' own, written into and looked at as people do."""

import os
import shlex
import subprocess
import sys
from pathlib import Path

from waiting import until


class Terminal:
    """A tmux server with one window; each pane of it runs a command, and stays when that ends."""

    def __init__(self, folder: Path, columns: int, lines: int) -> None:
        self.socket = str(folder / "tmux")
        self.folder = folder
        self.size = ("-x", str(columns), "-y", str(lines))
        self.panes: list[Pane] = []

    def tmux(self, *words: str) -> str:
        """What a command of tmux writes."""
        path = os.environ.get("PYTHONPATH", "")
        around = {"PATH": os.environ["PATH"], "LANG": "C.UTF-8", "TERM": "screen", "PYTHONPATH": path}
        command = ["tmux", "-S", self.socket, "-f", "/dev/null", *words]
        done = subprocess.run(command, env=around, capture_output=True, text=True, check=False)
        assert done.returncode == 0, f"{words}: {done.stderr}"
        return done.stdout

    def run(self, name: str, *words: str, is_started: bool = True) -> "Pane":
        """A new pane with an editor, whose own folder has this name; where it isn't started yet, it sleeps."""
        own = self.folder / name
        own.mkdir(exist_ok=True)
        pane = Pane(self, name, own, [sys.executable, "-m", "bidigrid.edit", "notes", "--name", name, *words])
        if not self.panes:
            words = ("new-session", "-d", *self.size, "-P", "-F", "#{pane_id}", "-c", str(own), "sleep infinity")
            pane.number = self.tmux("set", "-g", "remain-on-exit", "on", ";", *words).strip()
        else:
            words = ("split-window", "-h", "-P", "-F", "#{pane_id}", "-c", str(own), "sleep infinity")
            pane.number = self.tmux(*words).strip()
            self.tmux("select-layout", "even-horizontal")
        self.panes.append(pane)
        if is_started:
            pane.start()
        return pane

    def close(self) -> None:
        """Ends it with all that runs in it."""
        if self.panes:
            self.tmux("kill-server")


class Pane:
    """An editor in a pane."""

    number = ""

    def __init__(self, terminal: Terminal, name: str, own: Path, words: list[str]) -> None:
        self.terminal = terminal
        self.name = name
        self.own = own
        self.words = words
        self.log = own / "notes.bgop"

    def start(self) -> None:
        """Starts the editor, also after it has ended."""
        command = f"exec {shlex.join(self.words)} 2>{shlex.quote(str(self.own / 'said'))}"
        self.terminal.tmux("respawn-pane", "-k", "-t", self.number, "-c", str(self.own), command)

    def started(self) -> "Pane":
        """Waits until it shows its status."""
        until(lambda: self.status().startswith("site "), self.screen)
        return self

    def type(self, text: str) -> None:
        """Types characters."""
        for at in range(0, len(text), 200):
            self.terminal.tmux("send-keys", "-t", self.number, "-l", "--", text[at : at + 200])

    def press(self, *keys: str) -> None:
        """Presses keys by tmux's names for them."""
        self.terminal.tmux("send-keys", "-t", self.number, *keys)

    def paste(self, text: str) -> None:
        """Pastes a text, with the brackets of a terminal that says so."""
        held = self.terminal.folder / "pasted"
        held.write_text(text, encoding="utf-8")
        self.terminal.tmux("load-buffer", str(held), ";", "paste-buffer", "-p", "-r", "-t", self.number)

    def lines(self) -> list[str]:
        """All lines of the pane, without the blanks at their ends."""
        return self.terminal.tmux("capture-pane", "-p", "-t", self.number).split("\n")[:-1]

    def screen(self) -> str:
        """The same as one text."""
        return "\n".join(line.rstrip() for line in self.lines())

    def rows(self) -> list[str]:
        """The lines of the text."""
        return [line.rstrip() for line in self.lines()[:-1]]

    def status(self) -> str:
        """The line about it all; of a notice, which stands before it, too."""
        return self.lines()[-1]

    def shows(self, *rows: str) -> None:
        """Waits until these are the rows, and blanks below."""
        until(lambda: self.rows()[: len(rows)] == list(rows) and not any(self.rows()[len(rows) :]), self.screen)

    def tells(self, words: str) -> None:
        """Waits until the status has these words."""
        until(lambda: words in self.status(), self.screen)

    def cursor(self) -> tuple[int, int]:
        """The caret's line and column."""
        line, column = self.terminal.tmux("display", "-p", "-t", self.number, "#{cursor_y} #{cursor_x}").split()
        return int(line), int(column)

    def stands(self, line: int, column: int) -> None:
        """Waits until the caret is there."""
        until(lambda: self.cursor() == (line, column), lambda: f"{self.cursor()}\n{self.screen()}")

    def width(self) -> int:
        """How many columns the pane has."""
        return int(self.terminal.tmux("display", "-p", "-t", self.number, "#{pane_width}"))

    def kill(self) -> None:
        """kill -9."""
        process = self.terminal.tmux("display", "-p", "-t", self.number, "#{pane_pid}").strip()
        subprocess.run(["kill", "-9", process], check=True)
        until(self.is_dead)

    def is_dead(self) -> bool:
        """Whether the editor has ended."""
        return self.terminal.tmux("display", "-p", "-t", self.number, "#{pane_dead}").strip() == "1"

    def leave(self) -> None:
        """Ctrl-Q, and waits until it has ended."""
        self.press("C-q")
        until(self.is_dead, self.screen)

    def said(self) -> str:
        """What it wrote to standard error."""
        return (self.own / "said").read_text(encoding="utf-8")
