"""Texts of strangers, as a terminal may show them, and tables of them."""

import json
import sys
import unicodedata

# What moves the cursor, turns the direction of a line, or can't be seen; `<` and `>` for who puts a table into a page.
ESCAPED_KINDS = ("Cc", "Cf", "Cs", "Co", "Cn", "Zl", "Zp")
ESCAPED = '<>\\'


def is_plain(character):
    """Whether a character may be shown as it is."""
    if character in ESCAPED:
        return False
    kind = unicodedata.category(character)
    return kind not in ESCAPED_KINDS and (kind != "Zs" or character == " ")


def escaped(character):
    if character == "\\":
        return "\\\\"
    code = ord(character)
    return f"\\u{code:04x}" if code < 0x10000 else f"\\U{code:08x}"


def plain(text):
    """A text with each character escaped that could deceive who reads it."""
    return "".join(character if is_plain(character) else escaped(character) for character in str(text))


def plain_lines(text):
    """A text of several lines: line feeds and tabs stay, and so do backslashes and brackets, which a policy may have."""
    kept = "\n\t<>\\"
    return "".join(each if each in kept or is_plain(each) else escaped(each) for each in text)


def width_of(text):
    """How many columns a text takes: wide characters take two, combining ones none."""
    wide = sum(unicodedata.east_asian_width(character) in "WF" for character in text)
    return len(text) + wide - sum(unicodedata.combining(character) > 0 for character in text)


def table(heads, rows):
    """Rows under their heads, each column as wide as its widest cell."""
    lines = [list(heads), *([plain(cell) for cell in row] for row in rows)]
    widths = [max(width_of(line[at]) for line in lines) for at in range(len(heads))]
    return [
        "  ".join(cell + " " * (width - width_of(cell)) for cell, width in zip(line, widths)).rstrip() for line in lines
    ]


def print_table(heads, rows, nothing):
    """Prints a table; without rows, a sentence."""
    print("\n".join(table(heads, rows)) if rows else nothing)


def print_json(value):
    """Prints JSON in ASCII alone, with brackets escaped as well, so that no text in it reaches a terminal or a page raw."""
    text = json.dumps(value, indent=2, ensure_ascii=True)
    print(text.replace("<", "\\u003c").replace(">", "\\u003e").replace("\x7f", "\\u007f"))


def say(text):
    """A line for a person beside the output, which scripts read."""
    print(text, file=sys.stderr, flush=True)
