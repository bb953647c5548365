"""Asking the running server what it would say of a policy, or who reaches whom, without changing it.

What is sent is never kept (untakable.py). With a question as a test before the impossible one, the place of the answer
says yes or no, by the rules that a save goes by and over the machines that are live.
"""

import json
import re
from dataclasses import dataclass
from enum import Enum

from . import hujson
from .connection import Refusal
from .faults import fault_in
from .shown import plain
from .trouble import Status, Trouble
from .untakable import IMPOSSIBLE, MOST_BYTES, MOST_TESTS, SPOILED, shortened, with_impossible_test, with_tests


def refused(client, text):
    """The code and the place by which a server refuses a text that it mustn't keep."""
    answer = client.answer("PUT", "/api/v1/policy", text)
    if 200 <= answer.status < 300:
        what = f"{client.address} kept a policy that can't pass its tests: it is no tailnetd that runs them"
        raise Trouble(what, "Save the policy that you want at once, and ask this server nothing more", Status.SERVER)
    value = client.object_of(answer)
    if answer.status != 422:
        raise Refusal(answer.status, value)
    return str(value.get("code", "")), str(value.get("place", ""))


@dataclass(frozen=True)
class Verdict:
    """The first fault of a text over the live machines, or none; and whether its last test made room and wasn't tried."""

    fault: object
    leaves_last_test: bool = False


def fault_of_no_json(client, text, no_json):
    """The fault of a text that is no HuJSON: the server's, where it stands in the text."""
    try:
        code, place = refused(client, text + SPOILED)
    except Refusal as refusal:
        if refusal.name != "NotJson":
            raise
        code, place = "P1", "json"
    counted = re.fullmatch(r"offset ([0-9]{1,9})", place)
    if code != "P1" or not (counted and int(counted.group(1)) < len(text)):
        place = f"offset {no_json.offset}" if no_json.is_offset else "json"
    return fault_in(text, "P1", place)


def first_fault(client, text):
    """What a save of the text would be refused for at this moment. Nothing is changed."""
    if len(text) > MOST_BYTES:
        return Verdict(fault_in(text, "P19", "text"))
    try:
        top = hujson.read(text)
    except hujson.NoJson as no_json:
        return Verdict(fault_of_no_json(client, text, no_json))
    # (what is no object is no policy, whatever stands behind it)
    asked, index = with_impossible_test(text, top) if top.kind == "object" else (text, None)
    sent = shortened(asked)
    if sent is None:
        advice = "Check it without a server: `tailnetctl policy check --offline FILE`"
        raise Trouble("the policy is so long that no test fits behind it", advice, Status.REFUSED)
    code, place = refused(client, sent)
    leaves_last = index == MOST_TESTS - 1 and len(top.member("tests").items) == MOST_TESTS if top.member("tests") else False
    if code == "P21" and index is not None and place.startswith(f"tests[{index}]."):
        return Verdict(None, leaves_last)
    return Verdict(fault_in(text, code, place), leaves_last)


class Reach(Enum):
    """Whether the machines of one end reach those of another."""

    ALL = "yes"
    NONE = "no"
    SOME = "in part"
    NOBODY = "nobody"


@dataclass(frozen=True)
class Question:
    """Whether a source reaches a destination, which has a port: by a protocol, or by TCP or UDP."""

    source: str
    dest: str
    protocol: str | None = None

    def test(self, key):
        """The question as a test with one entry."""
        form = {"src": self.source, key: [self.dest]}
        return json.dumps(form | ({"proto": self.protocol} if self.protocol else {})).encode()


def passes(client, policy, question, key):
    """Whether a question passes as an entry of a test."""
    asked = shortened(with_tests(policy, [question.test(key), IMPOSSIBLE]))
    if asked is None:
        raise Trouble("the policy in force is so long that no question fits into it", "Shorten it by some lines", Status.REFUSED)
    code, place = refused(client, asked)
    if code == "P21" and place.startswith("tests[1]."):
        return True
    if code == "P21" and place == f"tests[0].{key}[0]":
        return False
    raise unaskable(question, code, place)


def unaskable(question, code, place):
    """Why a question can't be asked, and what to do."""
    part = question.source if place.endswith(".src") else question.protocol if place.endswith(".proto") else question.dest
    text = plain(part)
    reasons = {
        "P4": (f"'{text}' can't be asked about", "Ask about one user, group, tag, machine or address"),
        "P10": (f"there is no protocol '{text}'", "Write tcp, udp, icmp or another name in lower case, or its number"),
        "P11": (f"'{text}' is no user, group, tag, machine, address or host", "Write it as ann, group:dev, tag:web:443, laptop:22 or 100.64.0.1:22"),
        "P12": (f"the policy in force has no group for '{text}'", "See groups in `tailnetctl policy show`"),
        "P13": (f"the policy in force defines no tag for '{text}'", "See tagOwners in `tailnetctl policy show`"),
        "P14": (f"there is no user, machine or host for '{text}'", "See `tailnetctl users`, `tailnetctl nodes`, and hosts in `tailnetctl policy show`"),
        "P20": (f"'{text}' isn't one user, group, tag, machine or address, with one port", "Write it as tag:web:443 or laptop:22"),
    }
    what, advice = reasons.get(code, (f"the server refuses the question: {plain(code)} {plain(place)}", "See docs/POLICY.md"))
    return Trouble(what, advice, Status.REFUSED)


def reach_of(client, policy, question):
    """Whether the source reaches the destination by a policy that is in force, over the live machines. An empty group stands
    for nobody, of whom both is so."""
    accepts, denies = (passes(client, policy, question, key) for key in ("accept", "deny"))
    if accepts:
        return Reach.NOBODY if denies else Reach.ALL
    return Reach.NONE if denies else Reach.SOME
