"""The version: what the release wrote beside this file."""

import os


def version():
    """The version of the release; of a clone, that there is none."""
    path = f"{os.path.dirname(os.path.realpath(__file__))}/VERSION"
    try:
        with open(path, encoding="utf-8") as file:
            return file.read().strip()
    except OSError:
        return "of a clone, not released"
