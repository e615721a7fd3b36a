"""Waiting for what is wanted, asked for again and again, with a bound."""

import time
from collections.abc import Callable

BOUND = 60.0  # seconds


def until(is_so: Callable[[], object], what: Callable[[], object] = lambda: "", pause: float = 0.01) -> None:
    """Returns once it is so."""
    end = time.monotonic() + BOUND
    while not is_so():
        assert time.monotonic() < end, f"not so after {BOUND} seconds: {what()}"
        time.sleep(pause)
