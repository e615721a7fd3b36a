"""Desks over a shared or synchronised folder: each writes a file of its own there, and reads the others'."""

from __future__ import annotations

import dataclasses
import json
import os
import random
import re
import time
from collections.abc import Callable

from .. import Identifier
from .channel import Here, Message, plain_name
from .fault import EditFault, reason
from .frames import HEADER_SIZE, whole_end
from .log import Log

POLL = 0.05  # seconds between two looks into the folder
SIGN = 10.0  # seconds between two signs of being here
MOVED = 0.5  # seconds between two signs while the caret moves
PIECE = 1 << 20  # bytes of a file that are read at once
MAX_SITE = 65535


@dataclasses.dataclass
class Other:
    """Another desk's file: which it was, how far it was read, and whether it is left out from there on."""

    number: int
    read: int = 0
    version: bytes = b""
    is_left_out: bool = False


class Folder:
    """The folder PATH, where the desk of site S of the text NAME has the file NAME.S.bgop, a copy of its log."""

    def __init__(self, path: str, name: str, who: str) -> None:
        self.path = path
        self.name = name
        self.who = who
        self.site = 0
        self.here: dict[int, Here] = {}
        self.others: dict[str, Other] = {}
        self.sent = 0
        self.trouble = ""
        self.looked = self.signed = 0.0
        self.sign = ""
        self.signs: dict[str, str] = {}
        self.pattern = re.compile(re.escape(name) + r"\.([1-9][0-9]{0,4})\.bgop")

    def draw_site(self) -> int:
        """A site that has no file here. Its own is made at once, so that a second desk doesn't draw it too."""
        while True:
            site = random.SystemRandom().randint(1, MAX_SITE)
            try:
                os.close(os.open(self.file_of(site), os.O_CREAT | os.O_EXCL | os.O_WRONLY, 0o666))
                return site
            except FileExistsError:
                continue
            except OSError as error:
                raise EditFault(f"cannot write to {self.path}: {reason(error)}") from None

    def open(self, log: Log, site: int) -> list[Message]:
        """Looks whether this site's file is a beginning of the log, and reads the others'."""
        self.site = site
        try:
            self.sent = self.sent_of(log)
            found: list[Message] = []
            while fresh := self.read_others():
                found += fresh
        except OSError as error:
            raise EditFault(f"cannot read {self.path}: {reason(error)}") from None
        return found

    def sent_of(self, log: Log) -> int:
        """How much of the log this site's file has."""
        try:
            with open(self.file_of(self.site), "rb") as file:
                held = file.read()
        except FileNotFoundError:
            return 0
        if held != log.read(0, len(held)):
            raise EditFault(
                f"{self.file_of(self.site)} is not of {log.path}: another desk has site {self.site}; "
                "name a new log by --log"
            )
        return len(held)

    def turn(self, log: Log, caret: Identifier | None) -> list[Message]:
        """Writes the rest of the log, and reads what others wrote, if the last look is long enough ago."""
        now = time.monotonic()
        is_due = now - self.looked >= POLL
        found: list[Message] = []
        try:
            if is_due:
                self.looked, self.trouble = now, ""
                found = self.read_others()
            if self.sent < log.size and (is_due or not self.trouble):
                self.append(log)
            if is_due:
                self.give_sign(caret, now)
        except OSError as error:
            self.trouble = reason(error)
        return found

    def append(self, log: Log) -> None:
        """Appends what the log has further. A full disk may cut it: the next turn goes on from there."""
        file = os.open(self.file_of(self.site), os.O_CREAT | os.O_WRONLY | os.O_APPEND | os.O_CLOEXEC, 0o666)
        try:
            self.sent = os.fstat(file).st_size
            while self.sent < log.size:
                self.sent += os.write(file, log.read(self.sent, min(log.size, self.sent + PIECE)))
        finally:
            os.close(file)

    def read_others(self) -> list[Message]:
        """A piece of each file of another that has grown. One that can't be read is reported, and keeps no other from it."""
        found = []
        with os.scandir(self.path) as entries:
            named = [(entry, self.pattern.fullmatch(entry.name)) for entry in entries]
        for entry, match in named:
            if match and int(match[1]) != self.site:
                try:
                    found += self.read_file(entry.name, entry.path)
                except OSError as error:
                    self.trouble = f"{entry.name}: {reason(error)}"
        return found

    def read_file(self, name: str, path: str) -> list[Message]:
        """The whole frames of the next piece of a file. A frame that is cut is one that is being written."""
        status = os.stat(path)
        other = self.others.get(name)
        if other is None or other.number != status.st_ino or status.st_size < other.read:
            other = self.others[name] = Other(status.st_ino)
        if other.is_left_out or status.st_size == other.read:
            return []
        with open(path, "rb") as file:
            file.seek(other.read)
            piece = file.read(PIECE)
        at = 0 if other.version else HEADER_SIZE
        header = other.version or piece[:HEADER_SIZE]
        end, is_sound = whole_end(piece, at, header[-1]) if len(header) == HEADER_SIZE else (0, True)
        other.is_left_out = not is_sound or not b"BGOP".startswith(header[:4])
        if other.is_left_out:
            end = len(piece)
        if end <= at and not other.is_left_out:
            return []
        other.version, other.read = header, other.read + end
        return [Message(name, header + piece[at:end])]

    def give_sign(self, caret: Identifier | None, now: float) -> None:
        """Writes where the caret stands, and reads where the others' do."""
        sign = json.dumps({"name": self.who, "caret": caret})
        if now - self.signed >= (MOVED if sign != self.sign else SIGN):
            with open(self.sign_of(self.site), "w", encoding="utf-8") as file:
                file.write(json.dumps({"name": self.who, "caret": caret, "time": now}))
            self.sign, self.signed = sign, now
        for name in self.others:
            site = int(name.split(".")[-2])
            try:
                with open(self.sign_of(site), encoding="utf-8", errors="replace", opener=opened) as file:
                    self.note(site, file.read(1000), now)
            except OSError:
                self.here.pop(site, None)

    def note(self, site: int, sign: str, now: float) -> None:
        """Keeps what another's sign says, where it is another than before."""
        if self.signs.get(str(site)) == sign:
            return
        try:
            said = json.loads(sign)
            caret = Identifier(*map(int, said["caret"])) if said["caret"] else None
            self.here[site] = Here(site, plain_name(str(said["name"])), caret, now)
            self.signs[str(site)] = sign
        except (ValueError, TypeError, KeyError, OverflowError, RecursionError):
            return

    def file_of(self, site: int) -> str:
        """The path of a site's file .."""
        return os.path.join(self.path, f"{self.name}.{site}.bgop")

    def sign_of(self, site: int) -> str:
        """.. and of its sign."""
        return os.path.join(self.path, f".{self.name}.{site}.here")

    def state(self) -> str:
        """The connection in a few words."""
        return f"folder: {self.trouble}" if self.trouble else "folder"

    def sent_size(self) -> int:
        """How many bytes of the log went out."""
        return self.sent

    def reaches(self) -> bytes:
        """Nothing that has a name."""
        return b""

    def readers(self) -> list[int]:
        """Nothing: a folder is looked into again and again, since a synchronised one gives no sign."""
        return []

    def patience(self) -> float:
        """How many seconds the next look may be waited for at most."""
        return POLL

    def wants_snapshot(self, operations: int) -> bool:
        """Never: the files are all there."""
        return False

    def snapshot(self, make: Callable[[], bytes], upto: bytes) -> None:
        """Nothing is saved."""

    def close(self) -> None:
        """Takes the sign away."""
        try:
            os.unlink(self.sign_of(self.site))
        except OSError:
            return


def opened(path: str, flags: int) -> int:
    """Opens a file, also one that is a pipe nobody writes to."""
    return os.open(path, flags | os.O_NONBLOCK)
