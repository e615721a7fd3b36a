"""What the editor's tests share."""

from collections.abc import Iterator
from pathlib import Path

import pytest
from bidigrid.edit.memory import FOLDER
from pairs import Pair
from servers import Server
from terminal import Terminal


@pytest.fixture(autouse=True)
def memory(tmp_path: Path) -> Iterator[None]:
    """Has no file stay in memory of an editor that was killed."""
    yield
    for log in tmp_path.rglob("*.bgop"):
        for left in Path(FOLDER).glob(f"bidigrid-edit.*.{log.stat().st_dev:x}.{log.stat().st_ino:x}*"):
            left.unlink(missing_ok=True)


@pytest.fixture
def server(tmp_path: Path) -> Iterator[Server]:
    """A running redis-server."""
    made = Server(tmp_path)
    yield made
    made.stop()


@pytest.fixture
def locked_server(tmp_path: Path) -> Iterator[Server]:
    """A running redis-server that wants a password."""
    made = Server(tmp_path, "--requirepass", "secret")
    yield made
    made.stop()


@pytest.fixture
def terminal(tmp_path: Path) -> Iterator[Terminal]:
    """A tmux of three panes of 60 columns and 14 lines."""
    made = Terminal(tmp_path, 182, 14)
    yield made
    made.close()


@pytest.fixture
def pair(tmp_path: Path) -> Iterator[Pair]:
    """An editor of site 1, and a document of site 2."""
    made = Pair(tmp_path)
    yield made
    made.desk.close()
