"""Checking a policy without a server: by the program itself, over no machines."""

import json
import os
import shutil
import subprocess

from .faults import fault_in
from .trouble import Status, Trouble

BESIDE = os.path.dirname(os.path.dirname(os.path.dirname(os.path.realpath(__file__))))
SECONDS = 60


def program(words, environment):
    """The program that checks: the one that is named, the one of this folder, or the one on the path."""
    named = words.program or environment.get("TAILNETD_PROGRAM")
    if named:
        return named
    built = f"{BESIDE}/crates/tailnetd/out/tailnetd"
    found = built if os.access(built, os.X_OK) else shutil.which("tailnetd")
    if found is None:
        advice = "Name it by --program or TAILNETD_PROGRAM, or ask a server by --server"
        raise Trouble("there is no tailnetd here that checks without a server", advice, Status.SETTINGS)
    return found


def read_place(written):
    """The place that the program wrote as JSON has it between quotes."""
    try:
        return json.loads(f'"{written}"')
    except ValueError:
        return written


def first_fault(words, environment, text):
    """The first fault of a text over no machines; none if it has none."""
    path = program(words, environment)
    try:
        ran = subprocess.run([path, "policy-check", "/dev/stdin"], input=text, capture_output=True, timeout=SECONDS, check=False)
    except (OSError, subprocess.TimeoutExpired) as fault:
        why = getattr(fault, "strerror", None) or f"it doesn't end within {SECONDS} seconds"
        raise Trouble(f"{path} can't be run: {why}", "Name another one by --program", Status.SETTINGS) from None
    told = ran.stdout.decode("utf-8", errors="replace").removesuffix("\n")
    code, _, place = told.partition(" ")
    if ran.returncode == 0 and told == "ok":
        return None
    if ran.returncode == 10 and code.startswith("P"):
        return fault_in(text, code, read_place(place))
    # (a file over the limit of files is over the limit of policies, too)
    if b"file too large" in ran.stderr:
        return fault_in(text, "P19", "text")
    advice = "Look whether it is tailnetd, and of this version"
    raise Trouble(f"{path} policy-check ends with status {ran.returncode}", advice, Status.SERVER)
