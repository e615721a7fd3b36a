"""What was copied or cut, as it is read: for this editor, and for the clipboard of a terminal that takes it (OSC 52)."""

from __future__ import annotations

import base64

from .keys import plain

MOST = 74_994  # bytes: in base64 a sequence of 100,000, and some terminals take none that is longer


class Clipboard:
    """The text that was copied last. `told` is what the terminal is still to be told of it."""

    def __init__(self) -> None:
        self.text = ""
        self.told = b""

    def put(self, text: str) -> str:
        """Takes a text in place of the one before; answers what is to be reported."""
        self.text = plain(text)
        data = self.text.encode()
        count = f"{len(self.text):,} character{'s' if len(self.text) != 1 else ''} copied"
        if len(data) > MOST:
            self.told = b""
            return f"{count}, too many for the terminal's clipboard: Ctrl-V types them"
        self.told = b"\x1b]52;c;" + base64.b64encode(data) + b"\x07"
        return count

    def tell(self) -> bytes:
        """What the terminal is to be told, once."""
        told, self.told = self.told, b""
        return told
