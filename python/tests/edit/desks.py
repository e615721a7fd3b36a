"""Desks without a screen, as the tests make them."""

import time
from pathlib import Path

from bidigrid.edit.carrier import Carrier
from bidigrid.edit.channel import Channel
from bidigrid.edit.desk import Desk
from bidigrid.edit.folder import Folder
from bidigrid.edit.log import Log
from bidigrid.edit.redis_stream import RedisStream
from bidigrid.edit.staging import OVERLAP
from servers import Server
from waiting import until


def desk_at(log: Path, channel: Channel | None = None, site: int | None = None) -> Desk:
    """A desk with this log."""
    return Desk(Log(str(log)), channel, site, width=40)


def in_folder(log: Path, folder: Path, site: int | None = None) -> Desk:
    """A desk of the text `notes` over a folder."""
    return desk_at(log, Folder(str(folder), "notes", "someone"), site)


def over_redis(log: Path, server: Server) -> Desk:
    """A desk of the text `notes` over Redis."""
    return desk_at(log, RedisStream(server.url, "notes", "someone"))


def carrier_of(desk: Desk) -> Carrier:
    """What carries a desk's messages."""
    assert desk.carrier
    return desk.carrier


def folder_of(desk: Desk) -> Folder:
    """The folder that a desk is over."""
    channel = carrier_of(desk).channel
    assert isinstance(channel, Folder)
    return channel


def redis_of(desk: Desk) -> RedisStream:
    """The Redis that a desk is over."""
    channel = carrier_of(desk).channel
    assert isinstance(channel, RedisStream)
    return channel


def kept(log: Log) -> bytes:
    """The log as it would be after a kill."""
    held = log.read(0, log.size)
    return held + log.staging.beyond(held[-OVERLAP:], log.size)


def look(desk: Desk) -> None:
    """Has all flushed, and the folder looked into now; takes what is found there."""
    folder, carrier = folder_of(desk), carrier_of(desk)
    desk.log.flush()
    began, folder.looked = time.monotonic(), 0.0
    carrier.wake.ring()
    until(lambda: folder.looked >= began and carrier.began is None, pause=0.0005)
    desk.turn()
    while desk.is_behind:
        desk.turn()


def have_met(*desks: Desk) -> None:
    """Waits until all have sent all, and show the same."""

    def is_so() -> bool:
        for desk in desks:
            desk.turn()
        return all(desk.is_idle() for desk in desks) and len({desk.document.text for desk in desks}) == 1

    until(is_so, lambda: [(desk.site, desk.state(), desk.notice, desk.document.text[:200]) for desk in desks])
