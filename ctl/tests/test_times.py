"""Times as people write them, and as the local zone shows them."""

import datetime
import os
import time
import unittest
from unittest import mock

from . import tailnet
from operator_client.times import UNSET, moment_of, shown, wire_text
from operator_client.trouble import Trouble

NOW = datetime.datetime(2030, 1, 1, tzinfo=datetime.timezone.utc)


class Times(unittest.TestCase):
    def setUp(self):
        zone = mock.patch.dict(os.environ, TZ="Europe/Berlin")
        zone.start()
        time.tzset()
        self.addCleanup(time.tzset)
        self.addCleanup(zone.stop)

    def test_from_now(self):
        wanted = {"24h": "2030-01-02T00:00:00Z", "7d": "2030-01-08T00:00:00Z", "90m": "2030-01-01T01:30:00Z", "2w": "2030-01-15T00:00:00Z"}
        for text, wire in wanted.items():
            self.assertEqual(wire_text(moment_of(text, NOW)), wire, text)

    def test_dates_are_local(self):
        wanted = {
            "2030-01-31": "2030-01-30T23:00:00Z", "2030-07-31": "2030-07-30T22:00:00Z", "2030-01-31 18:00": "2030-01-31T17:00:00Z",
            "2030-01-31T18:00": "2030-01-31T17:00:00Z", "2030-01-31T18:00:00Z": "2030-01-31T18:00:00Z", "2030-01-31T18:00:00+05:30": "2030-01-31T12:30:00Z",
        }
        for text, wire in wanted.items():
            self.assertEqual(wire_text(moment_of(text)), wire, text)

    def test_none_of_these(self):
        for text in ("", "tomorrow", "7", "-1d", "7 d", "2030-13-01", "2030-02-30", "999999999w", "0001-01-01", "9999-12-31T23:59:59-23:00", "7d7d"):
            with self.assertRaises(Trouble, msg=text):
                wire_text(moment_of(text))

    def test_the_zone_is_named(self):
        self.assertEqual(shown("2030-01-31T17:00:00Z"), "2030-01-31 18:00 CET")
        self.assertEqual(shown("2030-07-31T17:00:00Z"), "2030-07-31 19:00 CEST")
        self.assertEqual(shown(UNSET), "never")
