"""Frames: the files of FORMATS.md, parted, gathered, and looked into."""

import pytest
from bidigrid import Identifier
from bidigrid.edit.frames import (
    HEADER,
    Operation,
    Sought,
    gathered,
    last_identifier,
    operations,
    pieces,
    spelled,
    survey,
    whole_end,
    without_frame,
)

# (1,1) after the root, a; (2,2) after (1,1), x; (3,2) after (2,2), y; and (2,1) after (1,1), b.
IN_VERSION_1 = bytes.fromhex(
    "42474f5001 0011 01 00000001 0001 00000000 0000 00000061 0011 01 00000002 0002 00000001 0001 00000078"
    "0011 01 00000003 0002 00000002 0002 00000079 0011 01 00000002 0001 00000001 0001 00000062"
)
IN_VERSION_2 = bytes.fromhex(
    "42474f5002 0011 01 00000001 0001 00000000 0000 00000061 0015 03 00000002 0002 00000001 0001 00000078 00000079"
    "0011 01 00000002 0001 00000001 0001 00000062"
)
ERASURE = bytes.fromhex("0007 02 00000002 0001")
OPERATIONS = [
    Operation(Identifier(1, 1), "a", (0, 0)),
    Operation(Identifier(2, 2), "x", (1, 1)),
    Operation(Identifier(3, 2), "y", (2, 2)),
    Operation(Identifier(2, 1), "b", (1, 1)),
]


def chain(count: int) -> bytes:
    """The frames of a text that is typed in one go."""
    return spelled(Operation(Identifier(k, 1), "a", (k - 1, 1 if k > 1 else 0)) for k in range(1, count + 1))[5:]


def test_both_versions_have_the_same_operations() -> None:
    assert (len(IN_VERSION_1), len(IN_VERSION_2)) == (81, 66)
    assert list(operations(IN_VERSION_1)) == list(operations(IN_VERSION_2)) == OPERATIONS
    assert spelled(OPERATIONS) == IN_VERSION_1 and gathered(IN_VERSION_1[5:]) == IN_VERSION_2
    assert gathered(ERASURE) == b"BGOP\x02" + ERASURE and spelled([Operation(Identifier(2, 1), None, (0, 0))])[5:] == ERASURE


@pytest.mark.parametrize(("count", "sizes"), [(1, [19]), (1024, [4111]), (1025, [4111, 19]), (3000, [4111, 4111, 3823])])
def test_a_run_has_at_most_1024_characters(count: int, sizes: list[int]) -> None:
    file, at, found = gathered(chain(count)), 5, []
    while at < len(file):
        found.append(2 + (file[at] << 8 | file[at + 1]))
        at += found[-1]
    assert found == sizes


def test_what_is_cut_is_waited_for_and_what_is_wrong_is_not() -> None:
    for version, file in ((1, IN_VERSION_1), (2, IN_VERSION_2)):
        ends = [end for end in range(5, len(file) + 1) if whole_end(file[:end], 5, version) == (end, True)]
        assert ends == {1: [5, 24, 43, 62, 81], 2: [5, 24, 47, 66]}[version]
    assert whole_end(IN_VERSION_2, 5, 1) == (24, False)
    assert whole_end(HEADER + b"\x00\x12\x01", 5, 1) == (5, False)


def test_a_frame_is_left_out() -> None:
    assert list(operations(without_frame(IN_VERSION_2, 2))) == [OPERATIONS[0], OPERATIONS[3]]
    assert without_frame(IN_VERSION_1, 0) == HEADER and without_frame(HEADER + b"\x00\x05\x09hello", 1) == HEADER


@pytest.mark.parametrize("file", [IN_VERSION_1, IN_VERSION_2])
def test_a_file_is_looked_into(file: bytes) -> None:
    sought = Sought()
    sought.want([Identifier(3, 2), Identifier(2, 1), Identifier(2, 2)])
    sought.begin()
    assert sought.look(file) and sought.found == {Identifier(3, 2): "y", Identifier(2, 1): "b", Identifier(2, 2): "x"}
    sought.want([Identifier(9, 2), Identifier(1, 3)])
    assert not sought.look(file) and len(sought.found) == 3
    assert last_identifier(file) == (2, 1) and last_identifier(file[:47]) in ((3, 2), None)
    for cut in range(len(file)):
        last_identifier(file[:cut])


@pytest.mark.parametrize("file", [IN_VERSION_1, IN_VERSION_2])
def test_a_message_is_parted_between_frames(file: bytes) -> None:
    for size in range(1, len(file) + 1):
        parts = list(pieces(file, size))
        assert [it for part in parts for it in operations(part)] == OPERATIONS
        assert all(len(part) < 5 + size + 28 for part in parts)
    # What can't be parted is left to who takes it.
    assert b"".join(part[5:] for part in pieces(file + b"\x00", 1)) == file[5:] + b"\x00"
    assert list(pieces(b"Dear all, ..", 1)) == [b"Dear all, .."]
    assert list(pieces(HEADER + b"\x00\x12\x01" + file[5:], 1)) == [HEADER + b"\x00\x12\x01" + file[5:]]


def test_a_log_has_marks_at_frames() -> None:
    log = HEADER + chain(10_000)
    assert survey(log) == ({1}, [5, 5 + 19 * 3450, 5 + 19 * 6900]) and survey(HEADER) == (set(), [5])
