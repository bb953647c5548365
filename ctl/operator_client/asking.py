"""Asking who sits at the terminal."""

import sys

from .trouble import Status, Trouble


def is_agreed(words, question):
    """Whether a person agrees; with `--yes` nobody is asked, and without a terminal nothing is done."""
    if words.yes:
        return True
    if not sys.stdin.isatty():
        raise Trouble("nobody can be asked, since there is no terminal", "With --yes it is done without asking", Status.NOT_DONE)
    if answer_to(f"{question} [y/N] ") in ("y", "yes"):
        return True
    raise Trouble("nothing was changed", "", Status.NOT_DONE)


def answer_to(question):
    """What a person answers, in small letters; the end of the input is no answer."""
    print(question, end="", file=sys.stderr, flush=True)
    return sys.stdin.readline().strip().lower()
