"""The process that tests run in."""

import resource
from pathlib import Path


def held() -> int:
    """The memory that this process holds now, in bytes."""
    return int(Path("/proc/self/statm").read_text(encoding="ascii").split()[1]) * resource.getpagesize()
