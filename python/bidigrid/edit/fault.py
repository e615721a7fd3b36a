"""What keeps the editor from starting, and the words about an error."""

import os


class EditFault(Exception):
    """Why there is nothing to edit, in one line."""


def reason(error: OSError) -> str:
    """What the system says of an error, without the path."""
    return os.strerror(error.errno) if error.errno else str(error)
