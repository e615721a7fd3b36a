"""Desks over Redis: all meet, whatever Redis does meanwhile, and what is wrong with a message stops nobody."""

import socket
import subprocess
import threading
from pathlib import Path
from typing import Any

import pytest
import redis  # type: ignore[import]
from bidigrid.edit import redis_link
from bidigrid.edit.editor import Editor
from bidigrid.edit.fault import EditFault
from bidigrid.edit.redis_stream import RedisStream
from bidigrid.edit.view import view_of
from desks import desk_at, have_met, over_redis
from servers import Server, Way
from waiting import BOUND, until


def test_three_desks_meet(tmp_path: Path, server: Server) -> None:
    desks = [over_redis(tmp_path / f"{number}.bgop", server) for number in range(3)]
    assert [desk.site for desk in desks] == [1, 2, 3]
    for desk, words in zip(desks, ("tea (2), milk\n", "תה (2), חלב\n", "شاي (2), حليب\n")):
        desk.replace(0, 0, words)
    have_met(*desks)
    assert sorted(desks[0].document.text.splitlines()) == ["tea (2), milk", "תה (2), חלב", "شاي (2), حليب"]
    for desk in desks:
        desk.close()


def test_messages_are_files_of_version_2(tmp_path: Path, server: Server) -> None:
    desk = over_redis(tmp_path / "notes.bgop", server)
    desk.replace(0, 0, "tea")
    have_met(desk)
    [(_, fields)] = redis.Redis.from_url(server.url).xrange("bidigrid:{notes}:stream")
    run = "42474f5002 0019 03 00000001 0001 00000000 0000 00000074 00000065 00000061"
    assert fields[b"message"] == bytes.fromhex(run)
    desk.close()


def test_typing_goes_on_while_redis_is_away(tmp_path: Path, server: Server) -> None:
    one, other = over_redis(tmp_path / "one.bgop", server), over_redis(tmp_path / "other.bgop", server)
    one.replace(0, 0, "tea")
    have_met(one, other)
    server.stop()
    one.replace(3, 3, "m")
    other.replace(0, 0, "a ")
    until(lambda: (one.turn(), other.turn()) and one.state().startswith("redis away") and "away" in other.state())
    server.start()
    have_met(one, other)
    assert one.document.text == "a team" and one.state() == other.state() == "redis"
    one.close()
    other.close()


def test_a_redis_that_lost_all_gets_it_again(tmp_path: Path, server: Server) -> None:
    one, other = over_redis(tmp_path / "one.bgop", server), over_redis(tmp_path / "other.bgop", server)
    one.replace(0, 0, "tea")
    have_met(one, other)
    redis.Redis.from_url(server.url).flushall()
    other.replace(3, 3, "m")
    one.replace(0, 0, "a ")
    have_met(one, other)
    late = over_redis(tmp_path / "late.bgop", server)
    have_met(one, other, late)
    assert late.document.text == "a team" and late.site == 3
    for desk in (one, other, late):
        desk.close()


def test_a_desk_that_starts_while_redis_is_away_goes_on_from_its_log(tmp_path: Path, server: Server) -> None:
    one, other = over_redis(tmp_path / "one.bgop", server), over_redis(tmp_path / "other.bgop", server)
    one.replace(0, 0, "tea")
    have_met(one, other)
    one.close()
    server.stop()
    one = over_redis(tmp_path / "one.bgop", server)
    one.replace(3, 3, "m")
    with pytest.raises(EditFault, match="gives a new desk its site"):
        over_redis(tmp_path / "new.bgop", server)
    server.start()
    have_met(one, other)
    assert other.document.text == "team"
    one.close()
    other.close()


@pytest.mark.parametrize(
    ("message", "said"),
    [
        (b"Dear all, ..", "301 BadMagic"),
        (b"", "303 Truncated"),
        (bytes.fromhex("42474f5001 0011 01 00000001 0001 00000000 0000 00000059"), "201 IdentifierReused"),
    ],
)
def test_a_faulty_message_is_told_and_stops_nobody(tmp_path: Path, server: Server, message: bytes, said: str) -> None:
    one, other = over_redis(tmp_path / "one.bgop", server), over_redis(tmp_path / "other.bgop", server)
    one.replace(0, 0, "tea")
    have_met(one, other)
    store = redis.Redis.from_url(server.url)
    store.xadd("bidigrid:{notes}:stream", {"by": "a stranger", "site": 9, "message": message})
    until(lambda: (one.turn(), other.turn()) and one.notice and other.notice)
    assert other.notice.startswith("site 9, ") and said in other.notice and other.notice.endswith("left out")
    # A number with more digits than Python takes.
    store.xadd("bidigrid:{notes}:stream", {"by": "a stranger", "site": "9" * 5000, "message": message})
    one.replace(3, 3, "m")
    have_met(one, other)
    assert other.document.text == "team"
    one.close()
    other.close()


def test_a_redis_that_wants_a_password_is_told(tmp_path: Path, locked_server: Server) -> None:
    address = f"127.0.0.1:{locked_server.port}/0"
    for url in (f"redis://{address}", f"redis://:wrong@{address}"):
        locked_server.url = url
        with pytest.raises(EditFault, match=f"^redis://{address}.*: it wants a password, as redis://:PASSWORD@HOST:PORT/0$"):
            over_redis(tmp_path / "one.bgop", locked_server)
    locked_server.url = f"redis://:secret@{address}"
    desk = over_redis(tmp_path / "one.bgop", locked_server)
    desk.replace(0, 0, "tea")
    have_met(desk)
    desk.close()


def test_a_log_that_is_older_than_what_went_out_is_told(tmp_path: Path, server: Server) -> None:
    path = tmp_path / "one.bgop"
    desk = over_redis(path, server)
    desk.replace(0, 0, "tea")
    have_met(desk)
    old = path.read_bytes()
    desk.replace(3, 3, "m")
    have_met(desk)
    desk.close()
    path.write_bytes(old)
    with pytest.raises(EditFault, match="is not what site 1 has sent"):
        over_redis(path, server)
    assert path.read_bytes() == old
    assert over_redis(tmp_path / "new.bgop", server).site == 2
    for told in ("x", "5", "9" * 5000 + ":1", b"\xff:1"):
        redis.Redis.from_url(server.url).hset("bidigrid:{notes}:sent", "1", told)
        with pytest.raises(EditFault, match="is not what site 1 has sent"):
            over_redis(path, server)


def test_names_that_are_no_text_are_told_or_shown_without_that(tmp_path: Path, server: Server) -> None:
    with pytest.raises(EditFault, match="^over Redis the name of a text has to be UTF-8$"):
        RedisStream(server.url, "notes\udcff", "someone")
    one = desk_at(tmp_path / "one.bgop", RedisStream(server.url, "notes", "da\udcffna"))
    other = over_redis(tmp_path / "other.bgop", server)
    one.replace(0, 0, "tea")
    have_met(one, other)
    until(lambda: (one.turn(), other.turn()) and other.here())
    assert other.here()[1].name == "dana"
    one.close()
    other.close()


def test_who_is_here_is_seen_and_where(tmp_path: Path, server: Server) -> None:
    one, other = over_redis(tmp_path / "one.bgop", server), over_redis(tmp_path / "other.bgop", server)
    one.replace(0, 0, "tea")
    have_met(one, other)
    one.caret = one.document.id_at(1)
    until(lambda: (one.turn(), other.turn()) and other.here() and other.here()[1].caret == one.caret)
    one.close()
    until(lambda: other.turn() or not other.here())
    other.close()


def test_a_connection_that_is_closed_is_made_anew(tmp_path: Path, server: Server) -> None:
    one, other = over_redis(tmp_path / "one.bgop", server), over_redis(tmp_path / "other.bgop", server)
    store = redis.Redis.from_url(server.url)
    for kind in ("normal", "normal"):
        store.execute_command("CLIENT", "KILL", "TYPE", kind, "SKIPME", "yes")
        one.replace(0, 0, "tea ")
        other.replace(0, 0, "hot ")
        have_met(one, other)
    assert len(one.document) == 16
    one.close()
    other.close()


def test_hostile_signs_do_no_harm(tmp_path: Path, server: Server) -> None:
    one, other = over_redis(tmp_path / "one.bgop", server), over_redis(tmp_path / "other.bgop", server)
    one.replace(0, 0, "tea")
    have_met(one, other)
    store = redis.Redis.from_url(server.url)
    for site, counter, caret in (("x", 1, 1), (7, "", 1), (7, -5, 70000), (7, 10**30, 1), (7, 9, 9), (8, 0, 0)):
        store.xadd("bidigrid:{notes}:carets", {"site": site, "name": "\x1b[2J" * 99, "counter": counter, "caret": caret})
    store.xadd("bidigrid:{notes}:carets", {"site": 9})
    until(lambda: other.turn() or 8 in other.here())
    seen = view_of(Editor(other, 5, ""))
    assert [site for _, _, site in seen.others if site not in (1, 8)] == [] and "\x1b" not in seen.status
    one.close()
    other.close()


def test_a_redis_that_hangs_is_away(tmp_path: Path, server: Server) -> None:
    one, other = over_redis(tmp_path / "one.bgop", server), over_redis(tmp_path / "other.bgop", server)
    subprocess.run(["kill", "-STOP", str(server.process.pid)], check=True)
    try:
        one.replace(0, 0, "tea")
        until(lambda: one.turn() or one.state().startswith("redis away"))
    finally:
        subprocess.run(["kill", "-CONT", str(server.process.pid)], check=True)
    have_met(one, other)
    assert other.document.text == "tea"
    one.close()
    other.close()


def test_typing_goes_on_while_the_name_of_redis_is_sought(
    tmp_path: Path, server: Server, monkeypatch: pytest.MonkeyPatch
) -> None:
    one = over_redis(tmp_path / "one.bgop", server)
    is_sought, is_found, seek = threading.Event(), threading.Event(), socket.getaddrinfo

    def seek_long(*about: Any, **more: Any) -> Any:
        assert threading.current_thread() is not threading.main_thread()
        is_sought.set()
        is_found.wait(BOUND)
        return seek(*about, **more)

    monkeypatch.setattr(socket, "getaddrinfo", seek_long)
    server.stop()
    until(lambda: one.turn() or is_sought.is_set())
    one.replace(0, 0, "tea")
    until(lambda: one.turn() or not one.log.waiting)
    assert one.document.text == "tea" and one.state().startswith("redis away")
    is_found.set()
    server.start()
    have_met(one)
    assert one.state() == "redis"
    one.close()


def test_typing_goes_on_while_an_answer_stops_in_the_middle(
    tmp_path: Path, server: Server, monkeypatch: pytest.MonkeyPatch
) -> None:
    monkeypatch.setattr(redis_link, "TIMEOUT", BOUND)
    way = Way(server)
    one = desk_at(tmp_path / "one.bgop", RedisStream(way.url, "notes", "someone"))
    other = over_redis(tmp_path / "other.bgop", server)
    have_met(one, other)
    way.flows.clear()
    other.replace(0, 0, "hot ")
    until(lambda: (other.turn(), way.is_stopped.is_set())[1])
    for place, letter in enumerate("tea"):
        one.replace(place, place, letter)
        until(lambda: one.turn() or not one.log.waiting)
    assert one.document.text == "tea" and not one.is_idle()
    way.flows.set()
    have_met(one, other)
    one.close()
    other.close()
    way.close()
