"""One request to the server and its answer, within a limit of time."""

import http.client
import json
import socket
import ssl
import threading
from dataclasses import dataclass

from .shown import plain
from .trouble import Status, Trouble

# A person waits no longer for a line that says that nothing comes.
SECONDS = 8
LARGEST = 16 * 1024 * 1024


@dataclass(frozen=True)
class Answer:
    status: int
    body: bytes


class Refusal(Exception):
    """The server's answer is none of success: its status, and the JSON object of its body."""

    def __init__(self, status, value):
        super().__init__(value.get("error") or value.get("code") or str(status))
        self.status, self.value = status, value

    @property
    def name(self):
        return self.value.get("error", "")


def opened(address, seconds):
    """A connection to an address that isn't connected yet."""
    if address.is_secure:
        return http.client.HTTPSConnection(address.host, address.port, timeout=seconds, context=ssl.create_default_context())
    return http.client.HTTPConnection(address.host, address.port, timeout=seconds)


def in_time(work):
    """What a piece of work gives, or raises; TimeoutError if it goes on for too long. Each single byte of a slow server
    comes in time, so the limit is one of the whole; a thread is left behind, which ends with the program."""
    told = []

    def run():
        try:
            told.append((work(), None))
        except Exception as fault:  # handed on to who waits
            told.append((None, fault))

    thread = threading.Thread(target=run, daemon=True)
    thread.start()
    thread.join(SECONDS)
    if not told:
        raise TimeoutError
    result, fault = told[0]
    if fault:
        raise fault
    return result


def trouble_of(fault, address, changes=False):
    """Why no answer came, in words. What was asked for may change something, and may be done although nothing came."""
    if isinstance(fault, ConnectionRefusedError):
        return Trouble(f"nobody listens at {address}", "Start the server there, or name another one by --server", Status.SERVER)
    if isinstance(fault, TimeoutError):
        advice = "It may be stopped, or all its workers may be taken: see workers in its settings"
        advice += ". It may do what was asked all the same: look before you ask again" if changes else ""
        return Trouble(f"{address} doesn't answer within {SECONDS} seconds", advice, Status.SERVER)
    if isinstance(fault, socket.gaierror):
        return Trouble(f"no address is known for {address.host}", "Look at the name behind --server", Status.SERVER)
    if isinstance(fault, ssl.SSLCertVerificationError):
        advice = "Look at the name and its certificate; SSL_CERT_FILE names an authority of your own"
        return Trouble(f"the certificate of {address} isn't trusted: {plain(fault.verify_message)}", advice, Status.SERVER)
    if isinstance(fault, ssl.SSLError):
        return Trouble(f"{address} doesn't speak TLS", "The server itself doesn't, a front does: leave https:// out, or name the front", Status.SERVER)
    if isinstance(fault, http.client.HTTPException):
        advice = "Another program may have taken the port: look who listens there, or name another server by --server"
        return Trouble(f"what answers at {address} isn't tailnetd: its answer is no HTTP, or breaks off", advice, Status.SERVER)
    why = plain(getattr(fault, "strerror", None) or fault)
    return Trouble(f"{address} can't be reached: {why}", "Look at the address behind --server, and at the network", Status.SERVER)


class Client:
    """Asks one server by one token."""

    def __init__(self, access):
        self.access, self.address = access, access.address

    def headers(self):
        return {"Authorization": f"Bearer {self.access.token}", "Content-Type": "application/json", "Connection": "close"}

    def exchange(self, method, path, body):
        """The answer to one request; raises what the library raises."""
        connection = opened(self.address, SECONDS)
        try:
            connection.request(method, path, body, self.headers())
            response = connection.getresponse()
            got = response.read(LARGEST + 1)
            # (what is left of the length that the head stated: the answer broke off, or is too long)
            if response.length:
                raise http.client.HTTPException
            return Answer(response.status, got)
        finally:
            connection.close()

    def answer(self, method, path, body=None):
        """The answer to one request."""
        try:
            return in_time(lambda: self.exchange(method, path, body))
        except (OSError, http.client.HTTPException) as fault:
            raise trouble_of(fault, self.address, changes=method != "GET") from None

    def text(self, path):
        """The body of a GET, byte for byte."""
        answer = self.answer("GET", path)
        if not 200 <= answer.status < 300:
            raise Refusal(answer.status, self.object_of(answer))
        return answer.body

    def json_of(self, answer):
        """The JSON of an answer's body."""
        try:
            return json.loads(answer.body.decode("utf-8"))
        except (ValueError, RecursionError):
            advice = "Another program may have taken the port, or a front answers in its place: look who listens there"
            what = f"what answers at {self.address} isn't tailnetd: its answer, of status {answer.status}, is no JSON"
            raise Trouble(what, advice, Status.SERVER) from None

    def object_of(self, answer):
        value = self.json_of(answer)
        return value if isinstance(value, dict) else {}

    def value(self, method, path, form=None):
        """The JSON that a request is answered with. A refusal is raised."""
        body = None if form is None else json.dumps(form).encode()
        answer = self.answer(method, path, body)
        if not 200 <= answer.status < 300:
            raise Refusal(answer.status, self.object_of(answer))
        return self.json_of(answer)

    def rows(self, path, name):
        """The rows of a list, which the server answers under a name."""
        value = self.value("GET", path)
        rows = value.get(name) if isinstance(value, dict) else None
        if not isinstance(rows, list) or not all(isinstance(row, dict) for row in rows):
            advice = "Another program may have taken the port: look who listens there"
            raise Trouble(f"what answers at {self.address} isn't tailnetd: its answer has no list '{name}'", advice, Status.SERVER)
        return rows
