"""bidigrid-edit: an editor in the terminal that people write in together."""

from __future__ import annotations

import argparse
import gc
import getpass
import locale
import os
import select
import signal
import sys
import time

from .carets import place_behind
from .channel import Channel
from .desk import Desk
from .editor import Editor
from .fault import EditFault
from .folder import Folder
from .keys import WAIT, Key, Keys, plain
from .log import Log
from .screen import Screen
from .start import MAX_SITE
from .unread import Unread
from .view import view_of
from .watch import Watch

STATUS_FAULT = 3  # as the program's, where a file can't be read
SWITCH = 0.0001  # seconds that a thread may compute on: a key calls the library often, and each call lets the threads go on
DRAWN = 0.02  # seconds from one drawing to the next at least, while there is more to do


def asked(words: list[str] | None) -> argparse.Namespace:
    """What the command line asks for."""
    parser = argparse.ArgumentParser("bidigrid-edit", description=__doc__, epilog="F1 shows the keys, Ctrl-Q leaves.")
    parser.add_argument("text", help="the text's name: its log is TEXT.bgop, its plain text TEXT.txt")
    way = parser.add_mutually_exclusive_group()
    way.add_argument("--folder", metavar="PATH", help="write it with others over a shared or synchronised folder")
    way.add_argument("--redis", metavar="URL", help="write it with others over Redis, as redis://127.0.0.1:6379/0")
    parser.add_argument("--log", metavar="FILE", help="another log than TEXT.bgop")
    parser.add_argument("--site", type=site, metavar="N", help="the site, 1 to 65535; else that of the log, or a new one")
    parser.add_argument("--name", default=own_name(), help="your name, as the others see it")
    parser.add_argument("--base", choices=("auto", "left", "right"), default="auto", help="the base direction")
    parser.add_argument("--logical", action="store_true", help="for a terminal that can't stop reordering")
    wanted = parser.parse_args(words)
    if not os.path.basename(wanted.text):
        parser.error("TEXT ends without a name")
    return wanted


def site(word: str) -> int:
    """A site that the command line names."""
    if not word.isdecimal() or not 1 <= int(word) <= MAX_SITE:
        raise argparse.ArgumentTypeError(f"a site is 1 to {MAX_SITE}")
    return int(word)


def own_name() -> str:
    """The name that the system has for who is here."""
    try:
        return getpass.getuser()
    except (KeyError, OSError):
        return "someone"


def channel_of(wanted: argparse.Namespace) -> Channel | None:
    """The way to the others, if there is one."""
    name = os.path.basename(wanted.text)
    if wanted.folder is not None:
        return Folder(wanted.folder, name, wanted.name)
    if wanted.redis is not None:
        try:
            from .redis_stream import RedisStream
        except ImportError:
            raise EditFault("--redis needs the package redis (Debian: python3-redis)") from None
        return RedisStream(wanted.redis, name, wanted.name)
    return None


def run(editor: Editor, screen: Screen, watch: Watch, waker: int, is_ended: list[int]) -> None:
    """Goes on until one leaves. What a key types is saved before the next is read, and nothing that may be long is waited
    for: it is done in pieces, or by a thread."""
    desk, keys, due = editor.desk, Keys(), 0.0
    while not editor.is_left and not is_ended:
        patience = 0.0 if desk.is_changed and not screen.outlet.rest else desk.patience()
        if keys.is_waiting():
            patience = WAIT if patience is None else min(WAIT, patience)
        writers = [screen.outlet] if screen.outlet.rest else []
        if watch.rest():
            patience = 0.0
        ready, writable, _ = select.select([0, waker, *desk.readers()], writers, [], patience)
        data = watch.begin(0 in ready)
        if writable:
            screen.outlet.flush()
        if waker in ready:
            os.read(waker, select.PIPE_BUF)
            screen.resize()
            editor.resize(*screen.size())
        for key in keys.feed(data) if data or ready or writable else keys.give_up():
            press(editor, watch.unread, keys, key)
            if key.name == "ctrl-l":
                screen.redraw()
        # While there is more to do, as when much is pasted, the screen is drawn now and then, for a fifth of the time at most.
        begun = time.monotonic()
        is_due = begun >= due or not (desk.patience() == 0.0 or watch.has_more())
        if desk.is_changed and is_due and not screen.outlet.rest:
            desk.is_changed = False
            screen.tell(editor.clipboard.tell())
            screen.draw(view_of(editor))
            ended = time.monotonic()
            due = ended + max(DRAWN, 4 * (ended - begun))
        editor.turn()


def press(editor: Editor, unread: Unread, keys: Keys, key: Key) -> None:
    """Presses a key, whose bytes are unread until that is done."""
    unread.begin(keys, editor.desk.caret)
    editor.press(key)
    unread.is_word = editor.is_seeking
    unread.end(keys, editor.desk.caret)


def press_left(editor: Editor, unread: Unread) -> None:
    """Presses what came to an editor that was killed before it got to that, where one stood; but it isn't left again."""
    keys, caret, typed = unread.left()
    if unread.came:
        editor.stand_behind(place_behind(editor.document, caret) or 0)
    while data := unread.take():
        for key in keys.feed(data):
            if typed:
                text = plain(key.text)
                key, typed = Key(key.name, text[typed:]), max(0, typed - len(text))
            if key.name != "ctrl-q":
                press(editor, unread, keys, key)
    if keys.is_pasting:
        editor.press(Key("pasted"))
    unread.end(Keys(), editor.desk.caret)


def speak_utf_8() -> None:
    """Has curses write UTF-8, whatever the locale is or is missing."""
    try:
        locale.setlocale(locale.LC_ALL, "")
    except locale.Error:
        pass
    if locale.nl_langinfo(locale.CODESET) != "UTF-8":
        locale.setlocale(locale.LC_CTYPE, "C.UTF-8")


def refuse(fault: EditFault) -> int:
    """Says why there is nothing to edit."""
    print(f"bidigrid-edit: {fault}", file=sys.stderr)
    return STATUS_FAULT


def heed(is_ended: list[int]) -> int:
    """Lets signals wake the editor through the file that is answered, and notes those that end it."""
    waker, wake = os.pipe2(os.O_NONBLOCK | os.O_CLOEXEC)
    signal.set_wakeup_fd(wake, warn_on_full_buffer=False)
    signal.signal(signal.SIGWINCH, lambda number, frame: None)
    for number in (signal.SIGTERM, signal.SIGHUP, signal.SIGINT):
        signal.signal(number, lambda number, frame: is_ended.append(number))
    return waker


def main(words: list[str] | None = None) -> int:
    """Edits a text, and answers the status."""
    # Ctrl-C is a key as soon as there is a screen.
    signal.signal(signal.SIGINT, signal.SIG_DFL)
    wanted = asked(words)
    speak_utf_8()
    try:
        if not (os.isatty(0) and os.isatty(1)):
            raise EditFault("it needs a terminal")
        channel = channel_of(wanted)
        desk = Desk(Log(wanted.log or f"{wanted.text}.bgop"), channel, wanted.site, base=wanted.base)
    except EditFault as fault:
        return refuse(fault)
    is_ended: list[int] = []
    waker = heed(is_ended)
    try:
        screen = Screen(wanted.logical)
    except EditFault as fault:
        desk.close()
        return refuse(fault)
    unread = Unread(desk.log)
    watch, is_needed = Watch(unread), False
    try:
        width, height = screen.size()
        desk.document.resize(min(500, width))
        sys.setswitchinterval(SWITCH)
        # What lives long isn't looked through between two keys.
        gc.freeze()
        gc.set_threshold(700, 10, 1 << 30)
        editor = Editor(desk, height, f"{wanted.text}.txt")
        press_left(editor, unread)
        run(editor, screen, watch, waker, is_ended)
        is_needed = not editor.is_left
    except EOFError:
        is_needed = True
    finally:
        watch.rest()
        # A key at which the editor itself fails must not come again at each start.
        unread.close(is_needed)
        desk.close()
        screen.close()
    return 0


if __name__ == "__main__":
    sys.exit(main())
