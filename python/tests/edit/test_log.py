"""The log: what is written stays, what was cut is cut off, and no site is used twice."""

import errno
import os
import signal
import subprocess
import sys
import threading
from pathlib import Path

import pytest
from bidigrid import Document
from bidigrid.edit.fault import EditFault
from bidigrid.edit.frames import operations
from bidigrid.edit.log import Log
from bidigrid.edit.staging import Staging
from desks import desk_at, have_met, in_folder, kept
from waiting import BOUND, until

TEA = bytes.fromhex(
    "42474f5001" "0011 01 00000001 0001 00000000 0000 00000074" "0011 01 00000002 0001 00000001 0001 00000065"
    "0011 01 00000003 0001 00000002 0001 00000061"
)  # fmt: skip

# A desk whose disk takes nothing more, and that is killed then; what could be staged is told.
KILLED = """
import errno, os, pathlib, signal, sys, threading
from desks import desk_at
desk = desk_at(pathlib.Path(sys.argv[1]), site=1)
desk.replace(0, 0, "t")
desk.log.flush()
os.fdatasync = lambda file: threading.Event().wait()
def pwrite(file, data, at, write=os.pwrite):
    if threading.current_thread() is not threading.main_thread():
        threading.Event().wait()
    if file == desk.log.staging.file and desk.log.end() > int(sys.argv[2]):
        raise OSError(errno.ENOSPC, os.strerror(errno.ENOSPC))
    return write(file, data, at)
os.pwrite = pwrite
for place, letter in enumerate(" and tea", 1):
    desk.replace(place, place, letter)
    desk.turn()
desk.replace(1, 5, "")
os.kill(os.getpid(), signal.SIGKILL)
"""


def test_a_desk_goes_on_from_its_log(tmp_path: Path) -> None:
    path = tmp_path / "notes.bgop"
    path.write_bytes(TEA)
    desk = desk_at(path)
    assert (desk.site, desk.document.text) == (1, "tea")
    desk.replace(3, 3, "m")
    desk.close()
    assert path.read_bytes() == TEA + bytes.fromhex("0011 01 00000004 0001 00000003 0001 0000006d")


@pytest.mark.parametrize("cut", range(len(TEA)))
def test_a_cut_frame_is_cut_off(tmp_path: Path, cut: int) -> None:
    path = tmp_path / "notes.bgop"
    path.write_bytes(TEA[:cut])
    whole = max(0, (cut - 5) // 19)
    desk = desk_at(path, site=1)
    assert desk.document.text == "tea"[:whole]
    desk.replace(whole, whole, "tea"[whole:])
    desk.close()
    assert path.read_bytes() == TEA


def test_zeros_of_a_power_cut_are_cut_off(tmp_path: Path) -> None:
    path = tmp_path / "notes.bgop"
    path.write_bytes(TEA + bytes(100))
    desk_at(path).close()
    assert path.read_bytes() == TEA


def test_a_file_of_version_2_is_spelled_anew(tmp_path: Path) -> None:
    path = tmp_path / "notes.bgop"
    path.write_bytes(bytes.fromhex("42474f5002 0019 03 00000001 0001 00000000 0000 00000074 00000065 00000061"))
    desk_at(path).close()
    assert path.read_bytes() == TEA


@pytest.mark.parametrize(
    ("data", "said"),
    [
        (b"Dear all", "is no operation file"),
        (TEA + b"\x00\x05\x09hello", "is damaged behind its first 62 bytes"),
        (TEA[:20] + b"\xff" + TEA[21:], "8 NotAScalar"),
    ],
)
def test_a_faulty_file_is_told_and_left(tmp_path: Path, data: bytes, said: str) -> None:
    path = tmp_path / "notes.bgop"
    path.write_bytes(data)
    with pytest.raises(EditFault, match=said):
        desk_at(path)
    assert path.read_bytes() == data


def test_a_log_is_open_once(tmp_path: Path) -> None:
    first = Log(str(tmp_path / "notes.bgop"))
    with pytest.raises(EditFault, match="open in another editor"):
        Log(first.path)
    first.close()
    Log(first.path).close()


def test_a_log_of_another_site_is_told(tmp_path: Path) -> None:
    path = tmp_path / "notes.bgop"
    path.write_bytes(TEA)
    with pytest.raises(EditFault, match="is the log of site 1, not of 2"):
        desk_at(path, site=2)
    assert path.read_bytes() == TEA


def test_a_log_of_several_sites_is_gone_on_with_as_a_new_one(tmp_path: Path) -> None:
    path = tmp_path / "notes.bgop"
    other = Document(2)
    other.take(TEA)
    path.write_bytes(TEA + other.type(3, "m")[5:])
    desk = desk_at(path)
    assert desk.site not in (1, 2) and desk.document.text == "team"
    desk.close()


def test_a_log_that_is_gone_makes_a_new_site(tmp_path: Path) -> None:
    sites = set()
    for _ in range(5):
        desk = desk_at(tmp_path / "notes.bgop")
        sites.add(desk.site)
        desk.replace(0, 0, "a")
        desk.close()
        os.unlink(tmp_path / "notes.bgop")
    assert len(sites) > 1


@pytest.mark.parametrize("is_there", [True, False])
def test_a_refused_start_takes_away_only_what_it_made(tmp_path: Path, is_there: bool) -> None:
    log = tmp_path / "notes.bgop"
    if is_there:
        log.touch()
    with pytest.raises(EditFault):
        in_folder(log, tmp_path / "nowhere", site=1)
    assert log.exists() == is_there


def letters(log: bytes) -> str:
    """The letters that a log of insertions has."""
    return "".join(it.character or "" for it in operations(log))


def test_a_key_is_kept_before_it_is_flushed_and_sent_after(tmp_path: Path, monkeypatch: pytest.MonkeyPatch) -> None:
    log, copy = tmp_path / "own.bgop", tmp_path / "notes.1.bgop"
    desk = in_folder(log, tmp_path, site=1)
    have_met(desk)
    flushes, may_end, flush = [], threading.Event(), os.fdatasync

    def flush_long(file: int) -> None:
        flushes.append(file)
        may_end.wait(BOUND)
        flush(file)

    monkeypatch.setattr(os, "fdatasync", flush_long)
    for place, letter in enumerate("tea"):
        desk.replace(place, place, letter)
        assert letters(kept(desk.log)) == "tea"[: place + 1]
        desk.turn()
    for _ in range(100):
        desk.turn()
    assert desk.log.size == 5 and not desk.is_idle() and letters(copy.read_bytes()) == ""
    may_end.set()
    have_met(desk)
    assert copy.read_bytes() == log.read_bytes() and len(flushes) == 2
    desk.close()


def test_what_could_not_be_flushed_is_written_anew(tmp_path: Path, monkeypatch: pytest.MonkeyPatch) -> None:
    log = tmp_path / "notes.bgop"
    desk = desk_at(log)

    def fail(file: int) -> None:
        raise OSError(errno.EIO, os.strerror(errno.EIO))

    monkeypatch.setattr(os, "fdatasync", fail)
    desk.replace(0, 0, "t")
    until(lambda: desk.turn() or "Input/output error" in desk.notice)
    desk.replace(1, 1, "e")
    assert not desk.is_saved() and desk.log.size == 5
    # As a disk may have it that lost what it could not write.
    os.truncate(log, 5)
    monkeypatch.undo()
    desk.failed_at -= 1
    until(lambda: desk.turn() or "the log is written again" in desk.notice)
    assert letters(log.read_bytes()) == "te" and desk.is_idle()
    desk.close()


def test_what_a_killed_editor_wrote_is_flushed_at_the_start(tmp_path: Path, monkeypatch: pytest.MonkeyPatch) -> None:
    path = tmp_path / "notes.bgop"
    path.write_bytes(TEA)
    flushed = []
    monkeypatch.setattr(os, "fdatasync", lambda file: flushed.append(os.fstat(file).st_size))
    Log(str(path)).close()
    assert flushed == [len(TEA)]


@pytest.mark.parametrize("room", [1000, 5 + 19 * 4, 0])
def test_a_killed_editor_loses_nothing_that_its_disk_did_not_take(tmp_path: Path, room: int) -> None:
    path = tmp_path / "notes.bgop"
    for text in ("t tea", "t teat tea"):
        done = subprocess.run([sys.executable, "-c", KILLED, str(path), str(room)], cwd=Path(__file__).parent, check=False)
        assert done.returncode == -signal.SIGKILL
        desk = desk_at(path)
        assert (desk.site, len(desk.document)) == (1, len(text)) and sorted(desk.document.text) == sorted(text)
        names = [it.identifier for it in operations(path.read_bytes()) if it.character]
        assert len(names) == len(set(names)) and list(Path("/dev/shm").glob(f"bidigrid-edit.*.{path.stat().st_ino:x}"))
        desk.close()
        assert not list(Path("/dev/shm").glob(f"bidigrid-edit.*.{path.stat().st_ino:x}"))


@pytest.mark.parametrize("cut", range(len(TEA)))
def test_what_is_staged_goes_on_where_the_log_was_cut(tmp_path: Path, cut: int) -> None:
    path = tmp_path / "notes.bgop"
    path.write_bytes(TEA[:24])
    log = Log(str(path))
    log.append(b"BGOP\x01" + TEA[24:])
    assert kept(log) == TEA
    leave(log)
    path.write_bytes(TEA[:cut])
    Log(str(path)).close()
    assert path.read_bytes() == (TEA if cut >= 5 else b"")


def test_what_is_staged_for_another_log_is_left(tmp_path: Path) -> None:
    path = tmp_path / "notes.bgop"
    path.write_bytes(TEA)
    log = Log(str(path))
    log.append(TEA)
    leave(log)
    other = TEA[:-1] + b"b"
    path.write_bytes(other)
    Log(str(path)).close()
    assert path.read_bytes() == other


def test_a_staging_that_is_anothers_or_no_file_is_left(tmp_path: Path) -> None:
    path = tmp_path / "notes.bgop"
    path.write_bytes(TEA)
    with open(path, "rb") as file:
        first = Staging(file.fileno())
        first.close(is_needed=False)
        os.symlink(path, first.path)
        assert not Staging(file.fileno()).put(b"x", 0)
        os.unlink(first.path)
    assert path.read_bytes() == TEA


def test_what_is_staged_is_begun_anew_once_it_is_flushed(tmp_path: Path) -> None:
    log = Log(str(tmp_path / "notes.bgop"))
    log.flush()
    made = Document(1).type(0, "tea" * 30_000)
    log.append(made)
    log.flush()
    assert os.stat(log.staging.path).st_blocks * 512 < 10_000
    log.append(TEA)
    assert kept(log) == made + TEA[5:]
    log.close()


def leave(log: Log) -> None:
    """Leaves a log as a kill does."""
    log.disk.close()
    log.staging.give_up()
    os.close(log.file)
