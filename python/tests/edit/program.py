"""The program `bidigrid`, which reads what desks have logged."""

import os
import subprocess
from collections.abc import Iterable
from pathlib import Path

PROGRAM = os.environ.get("BIDIGRID", str(Path(__file__).parents[3] / "build/bin/bidigrid"))


def text_of(logs: Iterable[Path]) -> str:
    """What `bidigrid text` writes of some logs."""
    words = [PROGRAM, "text", *map(str, logs)]
    return subprocess.run(words, check=True, capture_output=True).stdout.decode()


def rows_of(logs: Iterable[Path], width: int) -> list[str]:
    """The rows that `bidigrid replay` draws last: those of the desks that have met."""
    words = [PROGRAM, "replay", "--width", str(width), *map(str, logs)]
    drawn = subprocess.run(words, check=True, capture_output=True).stdout.decode()
    return drawn.split("\n")[:-1]
