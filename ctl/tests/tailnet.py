"""A server over loopback with sixty machines, and tailnetctl run against it."""

import contextlib
import http.client
import io
import json
import os
import socket
import subprocess
import sys
import tempfile
import time
import unittest
from unittest import mock

CTL = os.path.dirname(os.path.dirname(os.path.abspath(__file__)))
TOP = os.path.dirname(CTL)
sys.dont_write_bytecode = True
sys.path[:0] = [path for path in (CTL, f"{TOP}/model") if path not in sys.path]

from operator_client.running import main

PROGRAM = f"{TOP}/crates/tailnetd/out/tailnetd"
TOKEN = "secret-of-the-tests"
MACHINES = 60
USERS = ("ann", "bob@example.org", "seed")
TAGS = ("tag:web", "tag:Db-1")
OWNERS = '{"tagOwners":{"tag:web":["ann@","bob@example.org","seed@"],"tag:Db-1":["seed@"]}}'


class Terminal(io.StringIO):
    """An input at which a person sits."""

    def isatty(self):
        return True


class Ran:
    """What a run left."""

    def __init__(self, status, output, errors):
        self.status, self.output, self.errors = status, output, errors

    @property
    def json(self):
        return json.loads(self.output)

    @property
    def lines(self):
        return self.output.splitlines()


def ran(*line, environment=None, typed=None):
    """A run of tailnetctl with these words, in this process. `typed` is what a person types at a terminal."""
    output, errors = io.TextIOWrapper(io.BytesIO(), encoding="utf-8"), io.StringIO()
    clean = {"PATH": os.environ["PATH"], "HOME": "/nonexistent", **(environment or {})}
    entered = io.StringIO("") if typed is None else Terminal(typed)
    with mock.patch.dict(os.environ, clean, clear=True), mock.patch.object(sys, "stdin", entered):
        with contextlib.redirect_stdout(output), contextlib.redirect_stderr(errors):
            try:
                status = main(list(line))
            except SystemExit as end:
                status = end.code or 0
    output.flush()
    return Ran(status, output.buffer.getvalue().decode(), errors.getvalue())


def free_port():
    with socket.socket() as it:
        it.bind(("127.0.0.1", 0))
        return it.getsockname()[1]


class Server:
    """A server in a folder of its own, with the operator's token beside it."""

    def __init__(self, more=""):
        self.folder = tempfile.TemporaryDirectory()
        self.port = free_port()
        self.address = f"127.0.0.1:{self.port}"
        self.token_file = self.file("token", TOKEN + "\n", 0o600)
        settings = self.file(
            "serve.toml",
            f'base_domain = "tail.example"\nserver_url = "http://tail.example"\ntoken = "{TOKEN}"\nlisten = "{self.address}"\n{more}',
            0o600,
        )
        self.process = subprocess.Popen([PROGRAM, "serve", settings], cwd=self.folder.name)
        self.wait()

    def file(self, name, text, mode=0o644):
        path = f"{self.folder.name}/{name}"
        with open(path, "w", encoding="utf-8") as file:
            file.write(text)
        os.chmod(path, mode)
        return path

    def wait(self):
        for _ in range(200):
            with contextlib.suppress(OSError):
                socket.create_connection(("127.0.0.1", self.port), 1).close()
                return
            if self.process.poll() is not None:
                break
            time.sleep(0.05)
        raise RuntimeError("the server doesn't listen")

    def stop(self):
        self.process.terminate()
        self.process.wait(10)
        self.folder.cleanup()

    @property
    def environment(self):
        return {"TAILNETD_SERVER": self.address, "TAILNETD_TOKEN_FILE": self.token_file}

    def asked(self, method, path, body=None, machine=None):
        """The status and the body of the answer to one request."""
        connection = http.client.HTTPConnection("127.0.0.1", self.port, timeout=30)
        headers = {"Authorization": f"Bearer {TOKEN}"} | ({"Ts-Machine-Key": f"mkey:{machine:064x}"} if machine else {})
        body = body if isinstance(body, (bytes, type(None))) else json.dumps(body).encode()
        connection.request(method, path, body, headers)
        response = connection.getresponse()
        got = response.status, response.read()
        connection.close()
        return got

    def told(self, path):
        """The JSON of a list."""
        return json.loads(self.asked("GET", path)[1])

    def policy(self):
        return self.asked("GET", "/api/v1/policy")[1]

    def save(self, text):
        status, body = self.asked("PUT", "/api/v1/policy", text if isinstance(text, bytes) else text.encode())
        assert status == 200, body

    def register(self, number, key="", host="machine", **hostinfo):
        """Registers a machine; without a key it waits."""
        auth = {"Auth": {"AuthKey": key}} if key else {}
        body = {"NodeKey": f"nodekey:{number + 65536:064x}", "Hostinfo": {"Hostname": host, **hostinfo}, **auth}
        status, answer = self.asked("POST", "/machine/register", body, number)
        assert status == 200, answer

    def fill(self):
        """Sixty machines of three users, a third of them with tags, some with routes."""
        for name in USERS:
            self.asked("POST", "/api/v1/user", {"name": name})
        self.save(OWNERS)
        keys = []
        for at, login in enumerate(("ann@", "bob@example.org", "seed@")):
            for tags in ([], [], [TAGS[at % 2]]):
                form = {"user": login, "reusable": True, "tags": tags}
                keys.append(json.loads(self.asked("POST", "/api/v1/preauthkey", form)[1])["key"])
        for number in range(1, MACHINES + 1):
            routes = {"RoutableIPs": [f"10.{number}.0.0/16"]} if number % 10 == 0 else {}
            self.register(number, keys[number % len(keys)], f"machine {number}", **routes)


class TailnetTest(unittest.TestCase):
    """Tests against one server with sixty machines, which those of a class share."""

    @classmethod
    def setUpClass(cls):
        cls.server = Server()
        cls.addClassCleanup(cls.server.stop)
        cls.server.fill()

    def ran(self, *line, typed=None, **environment):
        return ran(*line, environment=self.server.environment | environment, typed=typed)

    def done(self, *line, **more):
        """A run that ends well."""
        got = self.ran(*line, **more)
        self.assertEqual((got.status, got.errors), (0, ""), got.output)
        return got
