"""What `reach` draws, over a store that no server has open."""

import json
import unittest

from .tailnet import PROGRAM, Server, ran
from operator_client import reaching

POLICY = '{"tagOwners":{"tag:web":["ann@"]},"acls":[{"action":"accept","src":["tag:web"],"dst":["tag:web:80"]},{"action":"accept","src":["ann@"],"dst":["tag:web:*"]}]}'


class Drawings(unittest.TestCase):
    """What is drawn of pairs, and what isn't read as such."""

    def test_a_matrix(self):
        pairs = {(1, 2): 0, (2, 1): 10, (4, 1): 3}
        self.assertEqual(reaching.drawn(pairs, 80), ["   1   2", "1  -   0", "2  10  -", "4  3   ."])

    def test_words_where_there_is_no_room(self):
        pairs = {(1, 2): 0, (1, 4): 3, (1, 3): 0, (2, 1): 0}
        wanted = ["1 reaches 2, 3 by rule 0", "1 reaches 4 by rule 3", "2 reaches 1 by rule 0"]
        self.assertEqual(reaching.drawn(pairs, 5), wanted)

    def test_what_is_no_list(self):
        for text in ("", "source,destination\n", f"{reaching.HEADER}\n1,2\n", f"{reaching.HEADER}\n1,2,x\n"):
            with self.assertRaises(reaching.Trouble):
                reaching.pairs_of(text)
        self.assertEqual(reaching.pairs_of(f"{reaching.HEADER}\n"), {})


class Stores(unittest.TestCase):
    def test_a_store(self):
        server = Server('database = "store.db"\n')
        self.addCleanup(server.folder.cleanup)
        path = f"{server.folder.name}/store.db"
        settings = server.file("absolute.toml", f'base_domain = "tail.example"\nserver_url = "http://tail.example"\ntoken = "t"\ndatabase = "{path}"\n')
        try:
            server.asked("POST", "/api/v1/user", {"name": "ann"})
            server.save(POLICY)
            for tags in ([], ["tag:web"], ["tag:web"]):
                form = {"user": "ann@", "tags": tags}
                key = key_of(server, form)
                server.register(1 + len(server.told("/api/v1/node")["nodes"]), key)
            held = ran("reach", settings, "--program", PROGRAM)
            self.assertEqual(held.status, 6, held.errors)
            self.assertIn("Stop the server", held.errors)
        finally:
            server.process.terminate()
            server.process.wait(10)
        got = ran("reach", settings, "--program", PROGRAM)
        self.assertEqual((got.status, got.errors, got.lines), (0, "", ["   2  3", "1  1  1", "2  -  0", "3  0  -"]))
        pairs = ran("--json", "reach", settings, "--program", PROGRAM).json
        self.assertEqual(pairs[0], {"source": 1, "destination": 2, "rule": 1})
        self.assertEqual(len(pairs), 4)

    def test_no_settings(self):
        got = ran("reach", "/nonexistent.toml", "--program", PROGRAM)
        self.assertEqual(got.status, 2, got.errors)


def key_of(server, form):
    """A key of this form."""
    return json.loads(server.asked("POST", "/api/v1/preauthkey", form)[1])["key"]
