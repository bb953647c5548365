"""Drawing which machine reaches which, over the store of a server that stands still."""

import os
import shutil
import subprocess

from .offline import program
from .shown import plain, print_json, table
from .trouble import Status, Trouble

SECONDS = 60
HEADER = "source,destination,rule"
CAUSES = {
    3: ("its settings have a fault", "Name the server's settings file", Status.WORDS),
    4: ("the settings file can't be read", "Name the server's settings file", Status.WORDS),
    6: ("the store can't be opened", "Stop the server that has it open, or name settings with a copy of both its files", Status.NOT_DONE),
    7: ("the store is damaged", "Restore a backup", Status.REFUSED),
}


def written(path, settings):
    """What the program writes of the store."""
    try:
        ran = subprocess.run([path, "reach", settings], stdin=subprocess.DEVNULL, capture_output=True, timeout=SECONDS, check=False)
    except (OSError, subprocess.TimeoutExpired) as fault:
        why = getattr(fault, "strerror", None) or f"it doesn't end within {SECONDS} seconds"
        raise Trouble(f"{path} can't be run: {why}", "Name another one by --program", Status.SETTINGS) from None
    if ran.returncode == 0:
        return ran.stdout.decode("ascii", errors="replace")
    other = (f"{path} reach ends with status {ran.returncode}", "Look whether it is tailnetd, and of this version", Status.SERVER)
    what, advice, status = CAUSES.get(ran.returncode, other)
    line = ran.stderr.decode("utf-8", errors="replace").strip()
    raise Trouble(f"{what} ({plain(line)})" if line else what, advice, status)


def pairs_of(text):
    """The rule by each pair of machines, of which the first reaches the second."""
    try:
        header, *lines = text.splitlines()
        if header != HEADER:
            raise ValueError
        return {(int(source), int(dest)): int(rule) for source, dest, rule in (line.split(",") for line in lines)}
    except ValueError:
        raise Trouble("what the program wrote is no list of pairs", "It may be another version of tailnetd", Status.SERVER) from None


def cell(pairs, source, dest):
    return "-" if source == dest else str(pairs.get((source, dest), "."))


def matrix(pairs):
    """A line for each machine that reaches another, with the rule by which it reaches each."""
    dests = sorted({dest for _, dest in pairs})
    sources = sorted({source for source, _ in pairs})
    return table(["", *map(str, dests)], [[str(source), *(cell(pairs, source, dest) for dest in dests)] for source in sources])


def sentences(pairs):
    """The same in words, for more machines than a terminal has room for."""
    found = {}
    for (source, dest), rule in sorted(pairs.items()):
        found.setdefault((source, rule), []).append(str(dest))
    return [f"{source} reaches {', '.join(dests)} by rule {rule}" for (source, rule), dests in sorted(found.items())]


def drawn(pairs, width):
    """The lines of a drawing."""
    lines = matrix(pairs)
    return lines if all(len(line) <= width for line in lines) else sentences(pairs)


def reach(_client, words):
    """Draws it: machines by their ids, sources down, destinations across."""
    pairs = pairs_of(written(program(words, os.environ), words.settings))
    if words.json:
        print_json([{"source": source, "destination": dest, "rule": rule} for (source, dest), rule in pairs.items()])
    elif pairs:
        print("\n".join(drawn(pairs, shutil.get_terminal_size().columns)))
    else:
        print("no machine reaches another")
