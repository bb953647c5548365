"""Files that a person names; `-` is the standard input."""

import sys

from .shown import plain
from .trouble import Status, Trouble


def bytes_of(path):
    """The bytes of a file."""
    if path == "-":
        return sys.stdin.buffer.read()
    try:
        with open(path, "rb") as file:
            return file.read()
    except OSError as fault:
        raise Trouble(f"{plain(path)} can't be read: {fault.strerror}", "Look at its name and its rights", Status.WORDS) from None


def name_of(path):
    """What a file is called in a message."""
    return "stdin" if path == "-" else path
