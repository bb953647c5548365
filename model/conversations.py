"""Conversations as lines of a text, in the notation of the tests (crates/harness_pipe/src/talks.rt).

`= NAME` begins a conversation. Before its first request may stand `: KEY = VALUE`, a line more in its settings, and
`@ 1 2 3`, the clock's answers. Then `> METHOD PATH CALLER BODY` is a request and `< STATUS BODY` an answer. A caller is
`Bearer/TOKEN`, a machine key, or `-` for none. `%x` stands for 64 times `x`, an answer's body `#..` for a framed one, and
`< registered` for the answer to a registration of the seed's user. The answer to a poll is `< stream`, the head of a
stream, then a line `+ TEXT` for each chunk with the frame of a text, and `.`, the last chunk.
"""

import re
from dataclasses import dataclass, field

from heads import LAST_CHUNK, STREAM_HEAD, answer_bytes, chunk_of, frame_of

NOON = 1000000000
EARLY = (400, 411, 413, 431)
REGISTERED = (
    '200 {"AuthURL":"","Error":"","Login":{"ID":1,"LoginName":"seed@"},"MachineAuthorized":true,'
    '"NodeKeyExpired":false,"User":{"DisplayName":"seed","ID":1}}'
)


class BadLine(Exception):
    """A line is none of the notation."""


@dataclass
class Conversation:
    name: str
    settings: str = ""
    moments: list = field(default_factory=list)
    requests: bytes = b""
    # the bytes of each line of an answer, with the number of the line
    answers: list = field(default_factory=list)
    status: int = 0

    def add(self, number, line):
        """A line with its number."""
        mark, _, rest = line.partition(" ")
        match mark:
            case ":":
                self.settings += rest + "\n"
            case "@":
                self.moments += [int(word) for word in rest.split()]
            case ">":
                self.requests += request_bytes(rest)
            case "<" if rest == "stream":
                self.answers.append((number, STREAM_HEAD))
                self.status = 0
            case "+":
                self.answers.append((number, chunk_of(frame_of(wide(rest)))))
            case ".":
                self.answers.append((number, LAST_CHUNK))
            case "<":
                code, body, ends = answer_of(rest)
                self.answers.append((number, answer_bytes(code, body, ends)))
                self.status = 1 if ends else 0
            case _:
                raise BadLine(f"line {number}: {line[:60]}")


def wide(text):
    """The bytes of a text in which `%x` stands for 64 times `x`."""
    return re.sub("%(.)", lambda found: 64 * found.group(1), text, flags=re.DOTALL).encode()


def request_bytes(line):
    method, path, caller, body = (line.split(" ", 3) + ["", "", ""])[:4]
    head = f"{method} {path} HTTP/1.1\r\nHost: tail\r\n".encode()
    if caller.startswith("Bearer/"):
        head += f"Authorization: Bearer {caller.removeprefix('Bearer/')}\r\n".encode()
    elif caller not in ("-", ""):
        head += b"Ts-Machine-Key: " + wide(caller) + b"\r\n"
    if method not in ("POST", "PUT"):
        return head + b"\r\n"
    return head + f"Content-Length: {len(wide(body))}\r\n\r\n".encode() + wide(body)


def answer_of(line):
    """The status and the body of an answer, and whether it ends the connection."""
    status, _, text = (REGISTERED if line == "registered" else line).partition(" ")
    body = wide(text.removeprefix("#"))
    return int(status), frame_of(body) if text.startswith("#") else body, int(status) in EARLY


def conversations_of(lines):
    """The conversations of numbered lines. Empty lines say nothing."""
    found = []
    for number, line in lines:
        if line.startswith("= "):
            found.append(Conversation(line.removeprefix("= ")))
        elif line and not found:
            raise BadLine(f"line {number}: no conversation has begun")
        elif line:
            found[-1].add(number, line)
    return found


def fault_of(conversation, ran):
    """Why a run isn't this conversation; none if it is."""
    if ran.status is None:
        return "the program doesn't end"
    place = 0
    for number, answer in conversation.answers:
        got = ran.output[place : place + len(answer)]
        if got != answer:
            at = next((at for at, pair in enumerate(zip(got, answer)) if pair[0] != pair[1]), min(len(got), len(answer)))
            return f"line {number}: byte {at} of the answer: {got[max(0, at - 60) : at + 60]!r}, and not {answer[max(0, at - 60) : at + 60]!r}"
        place += len(answer)
    if ran.output[place:]:
        return f"more is answered: {ran.output[place : place + 100]!r}"
    return None if ran.status == conversation.status else f"the status is {ran.status}, and not {conversation.status}"


def settings_of(conversation, text):
    """The settings of a conversation, behind those that all have. (A line of `[dns]` would take the rest with it.)"""
    return (text.rstrip("\n") + "\n" + conversation.settings).encode()


def run(world, conversation, settings, seed="k1"):
    """Runs the program over a conversation, and gives why it isn't held so; none if it is."""
    file = world.file("settings.toml", settings_of(conversation, settings))
    words = ["pipe", file, *(["--seed", seed] if seed else [])]
    ran = world.run(words, conversation.requests, conversation.moments or [NOON], draws_repeat=True)
    return fault_of(conversation, ran)
