"""What was typed more than 50 ms before a `kill -9` is kept, beside what the machine stood still, and no identifier is given
twice, whatever else goes on."""

import os
import re
import subprocess
import sys
from pathlib import Path

import pytest

KILLS = Path(__file__).parents[3] / "bench" / "kills"


@pytest.mark.parametrize(
    ("kind", "flush"),
    [("alone", "0"), ("alone", "1000"), ("unread", "0"), ("pastes", "0"), ("folder", "0"), ("paragraph", "0"), ("redis", "0"), ("snapshots", "0")],
)
def test_a_kill_takes_nothing_but_the_last_50_ms(kind: str, flush: str) -> None:
    words = [sys.executable, str(KILLS), kind, "6", flush, "1"]
    done = subprocess.run(words, capture_output=True, text=True, check=False)
    # Its status goes by the whole loss; a test has to bear that others fill the processors.
    told = re.search(r"; ([0-9.]+) ms less what the machine stood still", done.stdout)
    assert told and float(told[1]) <= 50, done.stdout + done.stderr
