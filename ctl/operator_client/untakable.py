"""Texts of policies that no server keeps.

A policy is kept only if all its tests pass. The impossible test passes over no machines at all: it wants that one and
the same flow is let through, and isn't. So a text that ends with it is never kept, and what the server answers says how
far the text was sound.
"""

import re

from . import hujson

IMPOSSIBLE = b'{"src":"x@","accept":["x@:1"],"deny":["x@:1"]}'
# Behind any text it leaves none that is a policy, since that ends with a brace outside of strings and comments.
SPOILED = b"\n]"
MOST_BYTES = 262144
MOST_TESTS = 256


def has_comma(text, start, end):
    """Whether a comma stands between two places, outside of comments."""
    return b"," in re.sub(rb"//[^\n]*|/\*.*?\*/", b"", text[start:end], flags=re.DOTALL)


def put_last(text, node, addition):
    """A text with one more element, or member, at the end of a list or an object."""
    last = node.items[-1] if node.items else node.members[-1][1] if node.members else None
    at = node.end - 1
    comma = b"," if last and not has_comma(text, last.end, at) else b""
    return text[:at] + comma + addition + text[at:]


def with_impossible_test(text, top):
    """A text whose top is an object, with the impossible test behind its tests, and the index of that test. Where there is
    no room it takes the place of the last test; where `tests` is no list, that stays a fault, and there is no index."""
    tests = top.member("tests")
    if tests is None:
        return put_last(text, top, b'"tests":[' + IMPOSSIBLE + b"]"), 0
    if tests.kind != "list":
        return text[: tests.start] + b"0" + text[tests.end :], None
    if len(tests.items) < MOST_TESTS:
        return put_last(text, tests, IMPOSSIBLE), len(tests.items)
    last = tests.items[-1]
    return text[: last.start] + IMPOSSIBLE + text[last.end :], len(tests.items) - 1


def with_tests(text, tests):
    """A policy with other tests in place of its own."""
    top, listed = hujson.read(text), b"[" + b",".join(tests) + b"]"
    found = top.member("tests")
    if found is None:
        return put_last(text, top, b'"tests":' + listed)
    return text[: found.start] + listed + text[found.end :]


def shortened(text):
    """The text, or, if it is over the limit, the same without comments and blanks; none if that is over it, too."""
    if len(text) > MOST_BYTES:
        text = hujson.compact(text, hujson.read(text))
    return text if len(text) <= MOST_BYTES else None
