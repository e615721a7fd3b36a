"""What comes into the middle of a call, as a signal handler may, is refused."""

from collections.abc import Callable
from typing import Any

import pytest
from bidigrid import Change, Document, room, row, taking
from frames import A_AT_1, HEADER


def test_what_comes_into_the_middle_of_a_call_is_refused(monkeypatch: pytest.MonkeyPatch) -> None:
    document, other, met = Document(1, 4), Document(2), list[Any]()

    def interrupted(*words: Any) -> bytes:
        met.append(words[0])
        calls: list[Callable[[], object]] = [
            lambda: document.type(0, "x"),
            lambda: document.take(HEADER + A_AT_1),
            lambda: document.rows(),
            lambda: document.text,
            document.close,
        ]
        for call in calls:
            with pytest.raises(RuntimeError, match="this Document is in the middle of a call"):
                call()
        return room.written(*words)

    monkeypatch.setattr(taking, "written", interrupted)
    monkeypatch.setattr(row, "written", interrupted)
    assert document.take(other.type(0, "ab")) == [Change(0, "a"), Change(1, "b")]
    other.type(2, "c")
    assert document.merge(other) == [Change(2, "c")] and str(document.rows()) == "abc "
    assert len(met) == 3 and document.erase(0, 1) and document.text == "bc"
