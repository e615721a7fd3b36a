"""Messages that are refused, and what is reported of them."""

import pickle
import subprocess
import sys
from collections.abc import Callable

import pytest
from bidigrid import Change, Document, Fault, taking
from frames import A_AT_1, B_AFTER_A, C_IN_ITS_PLACE, HEADER, insertion

# Faulty bytes as FORMATS.md has them: the message, the fault's number and name, and its frame.
FAULTY = [
    (b"", 303, "Truncated", 0),
    (b"BGOQ\x01", 301, "BadMagic", 0),
    (b"BGOP\x03", 302, "BadVersion", 0),
    ((HEADER + A_AT_1 + B_AFTER_A)[:42], 303, "Truncated", 2),
    (HEADER + A_AT_1 + b"\x00\x11\x04", 304, "UnknownKind", 2),
    (HEADER + b"\x00\x12\x01", 305, "BadLength", 1),
    (HEADER + b"\x00\x07\x02\x00\x00\x00\x00\x00\x01", 306, "ZeroField", 1),
    (HEADER + insertion(1, 1, (2, 2), "a"), 307, "ParentNotBefore", 1),
    (HEADER + insertion(1, 1, (0, 0), "\ud800"), 308, "NotAScalar", 1),
    (b"BGOP\x02\x00\x15\x03" + b"\xff" * 4 + b"\x00\x01" + bytes(6) + b"\x00\x00\x00a" * 2, 310, "CounterOverflow", 1),
    (b"BGOP\x02" + A_AT_1 + B_AFTER_A, 311, "NotJoined", 2),
]


@pytest.mark.parametrize(("message", "number", "name", "frame"), FAULTY)
def test_faulty_bytes_change_nothing(message: bytes, number: int, name: str, frame: int) -> None:
    document = Document(2)
    document.type(0, "x")
    calls: list[Callable[[bytes], object]] = [document.take, lambda it: Document.load(it, 3)]
    for call in calls:
        with pytest.raises(Fault) as raised:
            call(message)
        fault = raised.value
        assert (fault.number, fault.name, fault.frame) == (number, name, frame)
        assert fault.taken == 0 and fault.changes == []
        assert str(fault).startswith(f"{number} {name}: ") and str(fault).endswith(f"(frame {frame})")
    assert document.text == "x"


def test_what_came_before_a_refused_operation_stands() -> None:
    document = Document(2)
    document.type(0, "x")
    document.take(HEADER + B_AFTER_A)
    with pytest.raises(Fault) as raised:
        document.take(HEADER + A_AT_1 + C_IN_ITS_PLACE + insertion(5, 3, (0, 0), "z"))
    fault = raised.value
    assert (fault.number, fault.name, fault.frame, fault.taken) == (201, "IdentifierReused", None, 1)
    assert fault.changes == [Change(1, "a"), Change(2, "b")] and document.text == "xab"
    assert "its identifier is there with another parent or character" in str(fault)


def test_a_fault_of_bytes_tells_no_older_changes() -> None:
    document = Document(2)
    document.take(HEADER + A_AT_1)
    for message in (b"BGOP", HEADER + C_IN_ITS_PLACE):
        with pytest.raises(Fault) as raised:
            document.take(message)
        assert raised.value.changes == [] and raised.value.taken == 0


def test_a_merge_that_is_refused_changes_nothing() -> None:
    one, other = Document(1), Document(1)
    one.type(0, "a")
    other.type(0, "bc")
    with pytest.raises(Fault) as raised:
        one.merge(other)
    assert raised.value.name == "IdentifierReused" and raised.value.changes == []
    assert one.text == "a" and other.text == "bc"


def test_counters_end() -> None:
    document = Document(1)
    document.take(HEADER + insertion(2**32 - 1, 2, (2**32 - 2, 2), "a"))
    with pytest.raises(Fault) as raised:
        document.type(0, "z")
    assert raised.value.name == "CounterSpent" and document.text == ""


def test_a_message_has_at_most_67_108_864_bytes() -> None:
    document = Document(1)
    for size, name in [(67_108_864, "BadMagic"), (67_108_865, "MessageTooLong")]:
        with pytest.raises(Fault) as raised:
            document.take(bytes(size))
        assert raised.value.name == name
    assert "more than 67108864 bytes" in str(raised.value)


def test_a_document_that_is_full_takes_what_it_can() -> None:
    document, other = Document(1), Document(2)
    document.type(0, "a" * 999_998)
    with pytest.raises(Fault) as raised:
        document.type(0, "abc")
    assert str(raised.value) == "202 Full: there would be more than 1000000 operations" and len(document) == 999_998
    with pytest.raises(Fault) as raised:
        document.take(other.type(0, "xyz"))
    fault = raised.value
    assert (fault.name, fault.taken) == ("Full", 2) and fault.changes == [Change(0, "x"), Change(1, "y")]
    with pytest.raises(Fault) as raised:
        document.erase(0, 1)
    assert raised.value.name == "Full" and document.text[:3] == "xya"


def test_faults_are_the_exceptions_of_python() -> None:
    document = Document(1)
    with pytest.raises(IndexError):
        document.type(1, "a")
    with pytest.raises(ValueError):
        document.resize(0)
    assert issubclass(Fault, Exception) and not issubclass(Fault, (IndexError, ValueError, MemoryError))


def test_a_fault_can_be_pickled() -> None:
    with pytest.raises(Fault) as raised:
        Document(2).take(HEADER + A_AT_1 + C_IN_ITS_PLACE)
    again = pickle.loads(pickle.dumps(raised.value))
    assert type(again) is type(raised.value) and vars(again) == vars(raised.value) and str(again) == str(raised.value)


SHORT_OF_MEMORY = """
import resource
from pathlib import Path
from bidigrid import Document, Fault
document = Document(1)
document.type(0, "abc")
pages = int(Path("/proc/self/statm").read_text().split()[0])
resource.setrlimit(resource.RLIMIT_AS, (pages * resource.getpagesize() + 4_000_000, -1))
try:
    document.reserve(1_000_000)
except MemoryError as refused:
    assert isinstance(refused, Fault) and (refused.number, refused.name) == (9, "Memory"), refused
else:
    raise SystemExit("not refused")
document.type(3, "d")
assert document.text == "abcd"
"""


def test_a_lack_of_memory_is_a_memory_error() -> None:
    subprocess.run([sys.executable, "-c", SHORT_OF_MEMORY], check=True, timeout=60)


TOO_LONG = """
import resource
from pathlib import Path
from bidigrid import Document, Fault
document, text = Document(1), "a" * 4_000_000
pages = int(Path("/proc/self/statm").read_text().split()[0])
resource.setrlimit(resource.RLIMIT_AS, (pages * resource.getpagesize() + 30_000_000, -1))
for edit in (lambda: document.type(0, text), lambda: document.replace(0, 0, text)):
    try:
        edit()
    except Fault as refused:
        assert refused.name == "Full" and document.text == ""
    else:
        raise SystemExit("not refused")
"""


def test_a_text_that_is_too_long_asks_for_no_room() -> None:
    subprocess.run([sys.executable, "-c", TOO_LONG], check=True, timeout=60)


def test_what_stands_is_told_where_its_changes_are_not(monkeypatch: pytest.MonkeyPatch) -> None:
    def refuse(*_: object) -> bytes:
        raise MemoryError

    document = Document(2)
    monkeypatch.setattr(taking, "written", refuse)
    with pytest.raises(MemoryError) as raised:
        document.take(HEADER + A_AT_1 + B_AFTER_A)
    fault = raised.value
    assert isinstance(fault, Fault) and (fault.number, fault.taken, fault.changes) == (9, 2, None)
    monkeypatch.undo()
    assert document.text == "ab"
