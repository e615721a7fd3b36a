"""An editor beside another's document, as the tests make them."""

from pathlib import Path

from bidigrid import Document
from bidigrid.edit.channel import Message
from bidigrid.edit.desk import Desk
from bidigrid.edit.editor import Editor
from bidigrid.edit.keys import Key
from desks import desk_at


class Pair:
    """An editor, and another's document whose messages it takes."""

    def __init__(self, folder: Path) -> None:
        self.desk: Desk = desk_at(folder / "notes.bgop", site=1)
        self.editor = Editor(self.desk, 10, str(folder / "notes.txt"))
        self.other = Document(2)
        self.sent = 0

    def press(self, *keys: str) -> None:
        """Keys by their names, and texts in quotes."""
        for key in keys:
            self.editor.press(Key("text", key[1:-1]) if key[0] == "'" else Key(key))
            while self.desk.jobs:
                self.editor.turn()

    def meet(self) -> None:
        """The other takes all that was typed here so far."""
        self.desk.log.flush()
        self.other.take(self.desk.log.read(0, self.desk.log.size))

    def take(self, message: bytes) -> None:
        """Takes what the other wrote."""
        self.desk.take(Message("the other", message))
        self.editor.is_stale = True

    def text(self) -> str:
        """The text, with the caret as |."""
        text, place = self.desk.document.text, self.editor.at.place
        return f"{text[:place]}|{text[place:]}"
