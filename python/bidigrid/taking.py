"""What a message or another document brings: what it changes, or why it is refused."""

from typing import Any

from ._bidigrid import ffi, lib
from .change import Changes
from .fault import fault
from .room import written


def taken(handle: Any, message: bytes) -> Changes:
    """Takes a message, and returns what it changed."""
    told = ffi.new("bidigrid_taken *")
    answer = lib.bidigrid_document_take(handle, message, len(message), told)
    if answer and not told.taken:
        raise fault(answer, faulty_frame(answer, told))
    return _changed(handle, answer, told)


def merged(handle: Any, other: Any) -> Changes:
    """Takes all that another document has, and returns what that changed. Nobody counts its operations."""
    told = ffi.new("bidigrid_taken *")
    return _changed(handle, lib.bidigrid_document_merge(handle, other), told)


def faulty_frame(answer: int, told: Any) -> int | None:
    """The faulty frame of a message, where an answer is of its bytes."""
    return int(told.frame) if lib.BIDIGRID_FAULT_BAD_MAGIC <= answer < lib.BIDIGRID_FAULT_BAD_UTF8 else None


def _changed(handle: Any, answer: int, told: Any) -> Changes:
    """What the last take or merge changed, or its fault with that."""
    changes: Changes | None = None
    try:
        # As many as there are operations, if these neither wait nor release others.
        changes = Changes(written(lib.bidigrid_document_changes, "bidigrid_change", told.operations, handle))
    except MemoryError:
        answer = answer or lib.BIDIGRID_FAULT_MEMORY
    if answer or changes is None:
        raise fault(answer, None, told.taken, changes)
    return changes
