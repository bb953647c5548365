"""Commands for the policy."""

import os
import sys

from . import offline, questions
from .files import bytes_of, name_of
from .names import as_address, node_named
from .shown import plain, plain_lines, print_json, say
from .trouble import Status, Trouble

PATH = "/api/v1/policy"


def show(client, words):
    """Writes the text of the policy, byte for byte; to a terminal, what could deceive is escaped."""
    text = client.text(PATH)
    if sys.stdout.isatty():
        print(plain_lines(text.decode("utf-8", errors="replace")), end="" if text.endswith(b"\n") else "\n")
    else:
        sys.stdout.buffer.write(text)
        sys.stdout.buffer.flush()


def fault_of_save(client, text):
    """Saves a text, and gives its fault; none if it was kept."""
    answer = client.answer("PUT", PATH, text)
    if 200 <= answer.status < 300:
        return None
    value = client.object_of(answer)
    if answer.status == 422:
        return questions.fault_in(text, str(value.get("code", "")), str(value.get("place", "")))
    raise questions.Refusal(answer.status, value)


def save(client, words):
    text = bytes_of(words.file)
    fault = fault_of_save(client, text)
    if words.json:
        print_json({"faults": [fault.record(name_of(words.file))] if fault else []})
    else:
        print(fault.shown(name_of(words.file)) if fault else f"saved, and in force on {client.address}")
    return Status.NO if fault else Status.DONE


def verdict_of(client, words, text):
    """What a running server says of a text over its live machines; without one, the program over none."""
    if client is None:
        return questions.Verdict(offline.first_fault(words, os.environ, text))
    return questions.first_fault(client, text)


def print_verdict(client, words, file, fault):
    """Prints what was found in one file, as editors, workflows or people read it."""
    if fault:
        print(fault.annotation(file) if words.format == "github" else fault.shown(file))
    elif words.format == "text":
        over = "no machines" if client is None else f"the live machines of {client.address}"
        print(f"{plain(file)}: ok, over {over}")


def check(client, words):
    """Checks files, and saves nothing."""
    records = []
    for path in words.files:
        file, verdict = name_of(path), verdict_of(client, words, bytes_of(path))
        if verdict.leaves_last_test:
            say(f"tailnetctl: {plain(file)} has {questions.MOST_TESTS} tests; the last one made room for the question, and wasn't tried.")
        records += [verdict.fault.record(file)] if verdict.fault else []
        if not words.json:
            print_verdict(client, words, file, verdict.fault)
    if words.json:
        print_json({"faults": records})
    return Status.NO if records else Status.DONE


def meant(client, text, hosts):
    """What a person means by an end: a user, a machine, or what a policy calls so already."""
    if "@" in text or ":" in text or as_address(text) is not None:
        return text
    logins = [row["login"] for row in client.rows("/api/v1/user", "users")]
    machine = node_named(client.rows("/api/v1/node", "nodes"), text)
    found = {f"{text.lower()}@" if f"{text.lower()}@" in logins else None, machine["addresses"][0] if machine else None}
    found.add(text if text in hosts else None)
    found.discard(None)
    if len(found) > 1:
        raise Trouble(f"'{plain(text)}' may be {' or '.join(sorted(found))}", "Write one of these", Status.REFUSED)
    return next(iter(found), text)


def hosts_of(policy):
    """The names of hosts in a policy."""
    try:
        found = questions.hujson.read(policy).member("hosts")
    except questions.hujson.NoJson:
        advice = "It may be another program, or another version of tailnetd"
        raise Trouble("the policy in force can't be read", advice, Status.SERVER) from None
    return [key.value for key, _ in found.members] if found else []


def question_of(client, policy, words):
    """The question that the words ask. The last colon parts a destination from its port."""
    dest, colon, port = words.dest.rpartition(":")
    if not colon or not port.isdigit() or int(port) > 65535:
        raise Trouble(f"'{plain(words.dest)}' has no port", "Write it as laptop:22, tag:web:443 or [fd00::1]:22", Status.WORDS)
    hosts = hosts_of(policy)
    return questions.Question(meant(client, words.source, hosts), f"{meant(client, dest, hosts)}:{int(port)}", words.protocol)


SENTENCES = {
    questions.Reach.ALL: "yes: {source} reaches {dest}",
    questions.Reach.NONE: "no: {source} doesn't reach {dest}",
    questions.Reach.SOME: "in part: not each machine of {source} reaches each of {dest}, but one does",
    questions.Reach.NOBODY: "nobody: {source} or {dest} is an empty group",
}


def can(client, words):
    """Whether one end reaches another, by the policy in force."""
    policy = client.text(PATH)
    question = question_of(client, policy, words)
    reach = questions.reach_of(client, policy, question)
    if words.json:
        print_json({"answer": reach.value, "src": question.source, "dst": question.dest, "proto": question.protocol})
    else:
        print(SENTENCES[reach].format(source=plain(question.source), dest=plain(question.dest)))
    return Status.DONE if reach is questions.Reach.ALL else Status.NO
