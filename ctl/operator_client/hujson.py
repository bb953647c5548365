"""HuJSON with places: JSON with comments and trailing commas, and where each value of it stands in the text.

The text is standardised as the server does it, each comment and trailing comma to blanks of the same length, so that a
place in the one is the same place in the other. All places are counted in bytes.
"""

import json
import re
from dataclasses import dataclass, field

TOKEN = re.compile(rb'"(?:\\.|[^"\\])*"|//[^\n]*|/\*.*?\*/|.', re.DOTALL)
BLANKS = re.compile(rb"[ \t\n\r]*")
STRING = re.compile(rb'"(?:\\.|[^"\\\x00-\x1f])*"', re.DOTALL)
NUMBER = re.compile(rb"-?(?:0|[1-9][0-9]*)(?:\.[0-9]+)?(?:[eE][+-]?[0-9]+)?")
WORDS = {b"true": True, b"false": False, b"null": None}
DEEPEST = 127


class NoJson(Exception):
    """A text is no HuJSON: at which byte, and whether the server names that byte, too."""

    def __init__(self, offset, is_offset):
        super().__init__(offset)
        self.offset, self.is_offset = offset, is_offset


@dataclass
class Node:
    """A value of the text, from its first byte to behind its last. Members are pairs of a key and a value."""

    kind: str
    start: int
    end: int = 0
    value: object = None
    members: list = field(default_factory=list)
    items: list = field(default_factory=list)

    def member(self, name):
        """The value at a key, without regard to ASCII case; of several the last."""
        found = [value for key, value in self.members if lower(key.value) == lower(name)]
        return found[-1] if found else None


def lower(text):
    """A text with ASCII capitals as small letters."""
    return re.sub("[A-Z]", lambda found: found.group().lower(), text)


def blank(comment):
    return re.sub(rb"[^\r\n]", b" ", comment)


def standard(text):
    """The JSON text of the same length."""
    out, last, comma = bytearray(), b"", None
    for found in TOKEN.finditer(text):
        token, at = found.group(), found.start()
        if token == b'"' or text[at : at + 2] == b"/*" and len(token) < 4:
            raise NoJson(at, True)
        if token[:2] in (b"//", b"/*"):
            out += blank(token)
            continue
        if token == b"," and last in (b"", b"[", b"{", b",", b":"):
            raise NoJson(at, True)
        if token in (b"]", b"}") and comma is not None:
            out[comma : comma + 1] = b" "
        if token not in (b" ", b"\t", b"\n", b"\r"):
            comma, last = at if token == b"," else None, token[-1:]
        out += token
    return bytes(out)


def decoded(text):
    """The text in UTF-8; where it isn't, the place of the first byte that is at fault."""
    try:
        return text.decode("utf-8")
    except UnicodeDecodeError as fault:
        raise NoJson(fault.start, False) from None


class Reader:
    """Reads standardised text."""

    def __init__(self, text):
        self.text = text

    def behind_blanks(self, at):
        return BLANKS.match(self.text, at).end()

    def wanted(self, at, mark):
        """The place behind a mark, with blanks before it."""
        at = self.behind_blanks(at)
        if self.text[at : at + 1] != mark:
            raise NoJson(at, False)
        return at + 1

    def value(self, at, depth=0):
        at = self.behind_blanks(at)
        mark = self.text[at : at + 1]
        if mark in (b"{", b"[") and mark:
            if depth >= DEEPEST:
                raise NoJson(at, False)
            return self.listed(at, depth, is_object=mark == b"{")
        if mark == b'"':
            return self.string(at)
        return self.word(at)

    def string(self, at):
        found = STRING.match(self.text, at)
        try:
            text = json.loads(found.group().decode()) if found else None
            (text or "").encode()
        except ValueError:
            text = None
        if text is None:
            raise NoJson(at, False)
        return Node("text", at, found.end(), text)

    def word(self, at):
        for word, value in WORDS.items():
            if self.text.startswith(word, at):
                return Node("word", at, at + len(word), value)
        found = NUMBER.match(self.text, at)
        number = float(found.group()) if found else float("inf")
        if number in (float("inf"), float("-inf")):
            raise NoJson(at, False)
        return Node("number", at, found.end(), number)

    def element(self, node, at, depth, is_object):
        """Reads one element, or one member, and gives the place behind it."""
        if not is_object:
            node.items.append(self.value(at, depth + 1))
            return node.items[-1].end
        at = self.behind_blanks(at)
        if self.text[at : at + 1] != b'"':
            raise NoJson(at, False)
        key = self.string(at)
        node.members.append((key, self.value(self.wanted(key.end, b":"), depth + 1)))
        return node.members[-1][1].end

    def listed(self, at, depth, is_object):
        node, closing = Node("object" if is_object else "list", at), b"}" if is_object else b"]"
        at = self.behind_blanks(at + 1)
        while self.text[at : at + 1] != closing or node.items or node.members:
            at = self.behind_blanks(self.element(node, at, depth, is_object))
            if self.text[at : at + 1] == closing:
                break
            at = self.wanted(at, b",")
        node.end = at + 1
        return node


def read(text):
    """The value of a text; raises NoJson."""
    plain = standard(text)
    decoded(plain)
    decoded(text)
    reader = Reader(plain)
    top = reader.value(0)
    end = reader.behind_blanks(top.end)
    if end != len(plain):
        raise NoJson(end, False)
    return top


def plain_value(node):
    """A node as Python has it; of several members with one key the last."""
    if node.kind == "object":
        return {key.value: plain_value(value) for key, value in node.members}
    return [plain_value(item) for item in node.items] if node.kind == "list" else node.value


def compact(text, node):
    """The node's bytes without comments and blanks, its strings and numbers as they stand."""
    if node.kind == "object":
        pairs = (text[key.start : key.end] + b":" + compact(text, value) for key, value in node.members)
        return b"{" + b",".join(pairs) + b"}"
    if node.kind == "list":
        return b"[" + b",".join(compact(text, item) for item in node.items) + b"]"
    return text[node.start : node.end]
