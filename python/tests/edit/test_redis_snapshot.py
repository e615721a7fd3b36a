"""A snapshot, and a stream that is cut behind it: who comes later, or was away for long, has the whole text all the same."""

from pathlib import Path

import pytest
import redis  # type: ignore[import]
from bidigrid.edit.anew import whole_file
from bidigrid.edit.desk import Desk
from bidigrid.edit.fault import EditFault
from bidigrid.edit.redis_link import Link
from bidigrid.edit.redis_snapshot import is_later
from bidigrid.edit.redis_stream import RedisStream
from desks import carrier_of, desk_at, have_met, over_redis, redis_of
from servers import Server
from waiting import until

STREAM, SNAPSHOT = "bidigrid:{notes}:stream", "bidigrid:{notes}:snapshot"


def write(desk: Desk, text: str) -> None:
    """Types a text at the end, a message each letter."""
    for letter in text:
        desk.replace(len(desk.document), len(desk.document), letter)
        have_met(desk)


def addresses(desk: Desk) -> set[str]:
    """The addresses of a desk's connections."""
    links = (redis_of(desk).writer, redis_of(desk).reader)
    return {":".join(map(str, link.connection._sock.getsockname())) for link in links if link}


def keep(desk: Desk, store: "redis.Redis[bytes]") -> None:
    """Has a desk keep all that is in the stream."""
    carrier, last = carrier_of(desk), store.xrevrange(STREAM, count=1)[0][0]
    until(lambda: (desk.turn(), carrier.told.reaches == last)[1])
    store.delete(f"{SNAPSHOT}:lock")
    carrier.keep(whole_file(desk.log, desk.held, desk.site))
    until(lambda: not carrier.wanted)


def test_a_newcomer_reads_the_snapshot_and_the_tail(tmp_path: Path, server: Server) -> None:
    one, store = over_redis(tmp_path / "one.bgop", server), redis.Redis.from_url(server.url)
    write(one, "tea")
    keep(one, store)
    assert store.xlen(STREAM) == 3
    write(one, "ms")
    keep(one, store)
    # What stands before the snapshot before this one is cut off.
    assert [fields[b"message"][-1:] for _, fields in store.xrange(STREAM)] == [b"a", b"m", b"s"]
    write(one, "!")
    store.xtrim(STREAM, maxlen=1, approximate=False)
    late = over_redis(tmp_path / "late.bgop", server)
    assert late.document.text == "teams!" and late.state() == "redis" and late.notice == ""
    store.hset(SNAPSHOT, "file", b"Dear all")
    later = over_redis(tmp_path / "later.bgop", server)
    assert "the snapshot: 301 BadMagic" in later.notice and not later.is_whole and late.is_whole
    for desk in (one, late, later):
        desk.close()


@pytest.mark.parametrize("is_cut", [False, True])
def test_a_desk_that_was_away_longer_than_the_stream_holds(tmp_path: Path, server: Server, is_cut: bool) -> None:
    one, other = over_redis(tmp_path / "one.bgop", server), over_redis(tmp_path / "other.bgop", server)
    store = redis.Redis.from_url(server.url)
    write(one, "tea")
    have_met(one, other)
    # The other one sleeps; its connections do, or are closed meanwhile.
    if is_cut:
        theirs = addresses(other)
        for client in store.client_list():
            if client["id"] != store.client_id() and client["addr"] in theirs:
                store.client_kill_filter(_id=client["id"])
    write(one, "ms and ")
    keep(one, store)
    write(one, "more")
    keep(one, store)
    write(one, "!")
    other.replace(0, 0, "hot ")
    have_met(one, other)
    assert other.document.text == "hot teams and more!" and other.state() == "redis" and other.notice == ""
    one.close()
    other.close()


def test_an_older_snapshot_is_not_kept(tmp_path: Path, server: Server) -> None:
    one, other = over_redis(tmp_path / "one.bgop", server), over_redis(tmp_path / "other.bgop", server)
    store = redis.Redis.from_url(server.url)
    write(one, "tea")
    have_met(one, other)
    write(one, "m")
    keep(one, store)
    kept = store.hgetall(SNAPSHOT)
    store.delete(f"{SNAPSHOT}:lock")
    redis_of(other).kept.keep(Link(server.url), store.xrange(STREAM)[1][0], other.document.save)
    assert store.hgetall(SNAPSHOT) == kept
    one.close()
    other.close()


def test_what_is_gone_is_told_and_no_snapshot_is_made_of_the_rest(tmp_path: Path, server: Server) -> None:
    one, store = over_redis(tmp_path / "one.bgop", server), redis.Redis.from_url(server.url)
    write(one, "tea")
    store.xtrim(STREAM, maxlen=1, approximate=False)
    late = over_redis(tmp_path / "late.bgop", server)
    redis_of(late).kept.since = 10**6
    assert late.state() == "redis, where some of the text is gone"
    assert not redis_of(late).wants_snapshot(0)
    # One who has it all keeps it, for those who come then.
    keep(one, store)
    later = over_redis(tmp_path / "later.bgop", server)
    assert later.document.text == "tea" and later.state() == "redis"
    for desk in (one, late, later):
        desk.close()


@pytest.mark.parametrize("upto", [b"", b"x", b"5-", b"99999999999999999999-1", b"\xff"])
def test_a_hostile_snapshot_stops_nobody(tmp_path: Path, server: Server, upto: bytes) -> None:
    store = redis.Redis.from_url(server.url)
    store.hset(SNAPSHOT, mapping={"upto": upto, "file": b"Dear all"})
    one = over_redis(tmp_path / "one.bgop", server)
    write(one, "tea")
    keep(one, store)
    late = over_redis(tmp_path / "late.bgop", server)
    assert late.document.text == "tea" and late.state() == "redis"
    one.close()
    late.close()


def test_what_is_not_flushed_is_in_no_snapshot(tmp_path: Path, server: Server, monkeypatch: pytest.MonkeyPatch) -> None:
    one, store = over_redis(tmp_path / "one.bgop", server), redis.Redis.from_url(server.url)
    write(one, "tea")
    redis_of(one).kept.since = 10**6

    def refuse() -> None:
        raise OSError(28, "No space left on device")

    monkeypatch.setattr(one.log, "turn", refuse)
    one.replace(0, 0, "a ")
    one.typed_at = -1e9
    one.turn()
    assert not store.exists(SNAPSHOT)
    monkeypatch.undo()
    one.failed_at = 0.0
    until(lambda: (one.turn(), store.exists(SNAPSHOT))[1])
    one.close()


def test_a_desk_that_could_not_take_all_makes_no_snapshot(tmp_path: Path, server: Server) -> None:
    one, other = over_redis(tmp_path / "one.bgop", server), over_redis(tmp_path / "other.bgop", server)
    one.replace(0, 0, "x" * 999_999)
    other.replace(0, 0, "ab")
    until(lambda: (one.turn(), other.turn(), "202 Full" in one.notice and one.is_idle())[2])
    redis_of(one).kept.since, one.typed_at = 10**6, -1e9
    one.turn()
    assert not redis.Redis.from_url(server.url).exists(SNAPSHOT)
    one.close()
    other.close()


def test_names_of_messages_have_an_order() -> None:
    names = [b"", b"1-0", b"1-2", b"1-10", b"9", b"10-0", b"1764279000000-1"]
    for number, name in enumerate(names):
        assert [is_later(name, it) for it in names] == [it < number for it in range(len(names))]


def test_a_redis_without_this_text_is_told(tmp_path: Path, server: Server) -> None:
    redis.Redis.from_url(server.url).set(STREAM, "another thing")
    with pytest.raises(EditFault, match="WRONGTYPE"):
        desk_at(tmp_path / "one.bgop", RedisStream(server.url, "notes", "someone"))
