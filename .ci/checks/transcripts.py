"""The transcripts of the documents, run against the built program under a fixed clock and fixed random words.

A block is a transcript by the word behind its fence:

- `talk`: conversations in the notation of model/conversations.py, under examples/tailnet.toml and the seed `k1`. The
  blocks of a page follow one another, and a line `= NAME` begins a new conversation. A file examples/NAME.http begins
  with the requests of the conversation of its name.
- `console`: `$ ./tailnetd ..`, perhaps with `< FILE` behind it, and the lines that it writes.
- `verdicts`: in each line a policy, ` => `, and what `policy-check` writes.
- `hujson VERDICT`: a policy, and what `policy-check` writes.
"""

import os
import re
import shlex
import sys

from repository import Repository

TOP = os.path.dirname(os.path.dirname(os.path.dirname(os.path.abspath(__file__))))
sys.path.insert(0, f"{TOP}/model")

from conversations import NOON, BadLine, conversations_of, run

PAGES = ("README.md", "docs/PROTOCOL.md", "docs/POLICY.md")
KINDS = ("talk", "console", "verdicts", "hujson")


def blocks_of(text):
    """The fenced blocks of a page: the words behind the fence, and the lines with their numbers."""
    blocks, block = [], None
    for number, line in enumerate(text.split("\n"), 1):
        if line.startswith("```"):
            block = None if block is not None else []
            if block is not None:
                blocks.append((line.removeprefix("```").strip(), block))
        elif block is not None:
            block.append((number, line))
    return blocks


def talks(world, repository, page, blocks):
    """The conversations of a page."""
    lines = [line for word, block in blocks if word == "talk" for line in block]
    settings = repository.read("examples/tailnet.toml")
    found = [(talk.name, example_fault(repository, talk) or run(world, talk, settings)) for talk in conversations_of(lines)]
    return [f"{page}: conversation {name}: {fault}" for name, fault in found if fault]


def example_fault(repository, talk):
    """Why the example of this name, if there is one, doesn't begin with the requests; none if it does."""
    path = f"{repository.top}/examples/{talk.name}.http"
    if not os.path.exists(path):
        return None
    with open(path, "rb") as file:
        return None if file.read().startswith(talk.requests) else f"examples/{talk.name}.http begins with other requests"


def console_runs(block):
    """The commands of a block, each with the lines that it is to write."""
    runs = []
    for number, line in block:
        if line.startswith("$ "):
            runs.append((number, line.removeprefix("$ "), []))
        elif runs:
            runs[-1][2].append(line)
        else:
            raise BadLine(f"line {number}: no command")
    return runs


def console_fault(world, repository, command, wanted):
    """Why a command doesn't write these lines; none if it does."""
    words, _, file = command.partition(" < ")
    program, *arguments = shlex.split(words)
    if program != "./tailnetd":
        return "is no command of ./tailnetd"
    requests = b""
    if file:
        with open(f"{repository.top}/{file.strip()}", "rb") as requests_file:
            requests = requests_file.read()
    ran = world.run(arguments, requests, [NOON], draws_repeat=True, workplace=repository.top)
    got = ran.output.decode(errors="replace").replace("\r\n", "\n").rstrip("\n")
    return None if got == "\n".join(wanted).rstrip("\n") else f"writes {got[:300]!r}"


def consoles(world, repository, page, blocks):
    runs = [each for word, block in blocks if word == "console" for each in console_runs(block)]
    found = [(number, command, console_fault(world, repository, command, wanted)) for number, command, wanted in runs]
    return [f"{page}:{number}: {command}: {fault}" for number, command, fault in found if fault]


def verdict_fault(world, text, wanted):
    """Why a policy hasn't this verdict; none if it has."""
    ran = world.run(["policy-check", world.file("policy.hujson", text.encode())], b"", [NOON])
    got = ran.output.decode(errors="replace").strip()
    return None if got == wanted else f"policy-check writes {got!r}, and not {wanted!r}"


def policies_of(blocks):
    """Each policy of a page: its line, its text and its verdict."""
    found = []
    for word, block in blocks:
        if word.startswith("hujson ") and block:
            found.append((block[0][0], "\n".join(line for _, line in block), word.removeprefix("hujson ")))
        elif word == "verdicts":
            found += [(number, *line.rsplit(" => ", 1)) for number, line in block if " => " in line]
    return found


def verdicts(world, page, blocks):
    found = [(number, verdict_fault(world, text, wanted)) for number, text, wanted in policies_of(blocks)]
    return [f"{page}:{number}: {fault}" for number, fault in found if fault]


def page_faults(world, repository, page):
    blocks = blocks_of(repository.read(page))
    if not any(word.split(" ")[0] in KINDS for word, _ in blocks):
        return [f"{page}: has no transcript"]
    try:
        return [
            *talks(world, repository, page, blocks),
            *consoles(world, repository, page, blocks),
            *verdicts(world, page, blocks),
        ]
    except BadLine as bad:
        return [f"{page}: {bad}"]


def transcripts(world, repository: Repository):
    """The transcripts of README, PROTOCOL and POLICY are what the program does."""
    return [fault for page in PAGES for fault in page_faults(world, repository, page)]
