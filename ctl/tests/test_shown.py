"""What a terminal is shown of texts that strangers chose."""

import contextlib
import io
import unittest

from . import tailnet
from operator_client.shown import plain, plain_lines, print_json, table

CASES = {
    "laptop": "laptop",
    "日本 é": "日本 é",
    "<img src=x>": "\\u003cimg src=x\\u003e",
    "a\u202eb": "a\\u202eb",
    "\u009b31m": "\\u009b31m",
    "\x1b]0;x\x07": "\\u001b]0;x\\u0007",
    "a\u2028b\u00a0c\u200bd": "a\\u2028b\\u00a0c\\u200bd",
    "\\u202e": "\\\\u202e",
    "\U000e0041": "\\U000e0041",
    "\ud800": "\\ud800",
    "a\r\nb\tc": "a\\u000d\\u000ab\\u0009c",
}


class Shown(unittest.TestCase):
    def test_what_is_escaped(self):
        for text, wanted in CASES.items():
            self.assertEqual(plain(text), wanted)

    def test_lines_keep_what_a_policy_has(self):
        self.assertEqual(plain_lines('{\n\t"a": "\\u003c<>"\u202e}\r'), '{\n\t"a": "\\u003c<>"\\u202e}\\u000d')

    def test_json_is_ascii_without_brackets(self):
        output = io.StringIO()
        with contextlib.redirect_stdout(output):
            print_json({text: text for text in CASES})
        self.assertTrue(output.getvalue().isascii())
        self.assertFalse(set(output.getvalue()) & set("<>\x7f\x1b"))

    def test_columns(self):
        self.assertEqual(table(("A", "B"), [("日本", "x"), ("ab", "y")]), ["A     B", "日本  x", "ab    y"])
