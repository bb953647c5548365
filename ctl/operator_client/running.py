"""Running one command."""

import os
import sys

from . import watching
from .access import USUAL_SERVER, access_of, address_of, is_named, kept_settings, own_file
from .connection import Client, Refusal
from .policies import check
from .reaching import reach
from .refusals import trouble_of
from .trouble import Status, Trouble
from .words import read

TOKEN_WORDS = ("--token", "-t", "--password")


def refuse_token(line):
    """A token in words stands in the list of processes and in the shell's history."""
    if any(word in TOKEN_WORDS or word.startswith("--token=") for word in line):
        advice = "Put it into a file that is yours alone, and name that by --token-file"
        raise Trouble("a token doesn't stand in words, where every user of the machine can read it", advice, Status.WORDS)


def is_offline(words):
    """Whether the command asks no server: what reads a store, or a check, where that is wanted, or where no server is named."""
    return words.run is reach or words.run is check and (words.offline or words.program is not None or not is_named(words, os.environ))


def watched(words):
    """Which server a machine polls: no token is needed."""
    path = own_file(os.environ)
    named = words.server or os.environ.get("TAILNETD_SERVER")
    kept = kept_settings(path) if path and not named else {}
    return watching.watch(address_of(named or kept.get("server", USUAL_SERVER)), words)


def kind_of(words):
    """Of what a refused name is."""
    return "user" if hasattr(words, "login") or words.run.__name__ == "add_user" else "node"


def run(words):
    """Runs the command that the words name, and gives the status."""
    if getattr(words, "watches", False):
        return watched(words)
    if is_offline(words):
        return words.run(None, words)
    client = Client(access_of(words, os.environ))
    try:
        return words.run(client, words)
    except Refusal as refusal:
        raise trouble_of(refusal, client, getattr(words, "tags", None) or (), kind_of(words)) from None
    except (KeyError, TypeError) as fault:
        # (the rows of another version, or of another program)
        advice = "It may be another version of tailnetd, or another program"
        raise Trouble(f"the answer of {client.address} has another form than tailnetd's: {fault!r}", advice, Status.SERVER) from None


def write_any_text():
    """Lets the output escape what its encoding doesn't have, in place of breaking off."""
    if hasattr(sys.stdout, "reconfigure"):
        sys.stdout.reconfigure(errors="backslashreplace")


def main(line):
    """Runs the command of a line, and gives what the program ends with."""
    write_any_text()
    try:
        refuse_token(line)
        words = read(line)
        return int(run(words) or Status.DONE)
    except Trouble as trouble:
        print(trouble.line(), file=sys.stderr)
        return int(trouble.status)
    except BrokenPipeError:
        # who reads has seen enough
        os.dup2(os.open(os.devnull, os.O_WRONLY), sys.stdout.fileno())
        return int(Status.DONE)
    except KeyboardInterrupt:
        return 130


def lint(line):
    """`policy-lint`: checks files without a server."""
    return main(["policy", "check", "--offline", *line])
