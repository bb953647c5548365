"""Editing the policy in force: nothing is saved that has a fault, or over what somebody else saved meanwhile."""

import difflib
import os
import shlex
import subprocess
import sys
import tempfile

from . import questions
from .asking import answer_to
from .policies import PATH, fault_of_save
from .shown import plain, plain_lines, say
from .trouble import Status, Trouble


def run_editor(path):
    """Opens a file in the person's editor, and waits until it ends."""
    editor = shlex.split(os.environ.get("VISUAL") or os.environ.get("EDITOR") or "vi")
    try:
        status = subprocess.run([*editor, path], check=False).returncode
    except OSError as fault:
        advice = "Name one by EDITOR, as EDITOR=nano"
        raise Trouble(f"the editor {plain(editor[0])} can't be run: {fault.strerror}", advice, Status.SETTINGS) from None
    if status != 0:
        raise Trouble(f"the editor ended with status {status}; nothing was saved", f"Your text is in {path}", Status.NOT_DONE)


def text_in(path):
    with open(path, "rb") as file:
        return file.read()


def print_difference(before, after):
    """Shows what was changed, line by line."""
    lines = [text.decode("utf-8", errors="replace").splitlines() for text in (before, after)]
    for line in difflib.unified_diff(*lines, "in force", "edited", lineterm=""):
        print(plain_lines(line))


def edited(client, path):
    """The text in the file once it has no fault; the person edits until then, or gives up."""
    while True:
        run_editor(path)
        text = text_in(path)
        verdict = questions.first_fault(client, text)
        if verdict.leaves_last_test:
            say("tailnetctl: the last of the tests made room for the question, and is tried by the save alone.")
        if verdict.fault is None:
            return text
        say(verdict.fault.shown(path))
        if not sys.stdin.isatty() or answer_to("Edit it again? [Y/n] ") in ("n", "no"):
            raise Trouble("nothing was saved", f"Your text is in {path}", Status.NOT_DONE)


def save_unless_changed(client, before, after, path):
    """Saves the text, unless another one than was edited is in force now. What is saved in the moment between these two
    requests is not seen: the server has no way to say 'only if'."""
    if client.text(PATH) != before:
        what = f"somebody else saved another policy while you edited; nothing was saved. Your text is in {path}"
        raise Trouble(what, "Look at theirs by `tailnetctl policy show`, and edit again", Status.NOT_DONE)
    fault = fault_of_save(client, after)
    if fault:
        say(fault.shown(path))
        raise Trouble("the machines changed meanwhile, and nothing was saved", f"Your text is in {path}", Status.NOT_DONE)


def edit(client, words):
    """Edits the policy in force, checks it by the running server, and saves it."""
    before = client.text(PATH)
    folder = tempfile.mkdtemp(prefix="tailnetctl-")
    path = f"{folder}/policy.hujson"
    with open(path, "wb") as file:
        file.write(before)
    after = edited(client, path)
    if after == before:
        print("nothing was changed")
    else:
        print_difference(before, after)
        if not words.yes:
            is_wanted = sys.stdin.isatty() and answer_to("Save this? [y/N] ") in ("y", "yes")
            if not is_wanted:
                raise Trouble("nothing was saved", f"Your text is in {path}; with --yes it is saved without asking", Status.NOT_DONE)
        save_unless_changed(client, before, after, path)
        print(f"saved, and in force on {client.address}")
    os.remove(path)
    os.rmdir(folder)
