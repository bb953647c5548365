"""From a place of the server, as `acls[0].dst[1]`, to a line and a column of the file."""

import ipaddress
import re

from . import hujson

# (the names by which the server writes a key, whatever its case or age in the file)
NAMES = (
    "groups", "hosts", "tagOwners", "acls", "grants", "autoApprovers", "tests", "action", "proto", "src", "dst", "ip", "routes",
    "exitNode", "accept", "deny",
)
WRITTEN = {hujson.lower(name): name for name in NAMES} | {"users": "src", "ports": "dst"}
# the faults whose place is a member that is there, and of which the key is wrong and not the value
OF_KEYS = ("P3", "P4", "P6", "P8", "P18")


def line_and_column(text, offset):
    """Both counted from 1, the column in characters."""
    before = text[:offset]
    line = before.count(b"\n") + 1
    return line, len(before[before.rfind(b"\n") + 1 :].decode("utf-8", errors="replace")) + 1


def written_names(key):
    """How the server may write a key: as it stands, or by the name that its page has."""
    other = WRITTEN.get(hujson.lower(key))
    return (key, other) if other and other != key else (key,)


def steps(node, place):
    """The members and elements with which a place can begin: the key, the value, and what is left of the place."""
    if node.kind == "list":
        found = re.match(r"\[([0-9]{1,9})\]", place)
        if found and int(found.group(1)) < len(node.items):
            yield None, node.items[int(found.group(1))], place[found.end() :]
    # (the last of several members with one key counts)
    for key, value in reversed(node.members):
        for name in written_names(key.value):
            rest = place[len(name) :]
            if place.startswith(name) and (not rest or rest[0] in ".["):
                yield key, value, rest


def found_at(node, place):
    """The key and the value at a place, and how much of it leads nowhere: the way that leaves the least."""
    best = (None, node, place)
    for key, value, rest in steps(node, place):
        if not rest:
            return key, value, ""
        inner_key, inner, left = found_at(value, rest.removeprefix("."))
        reached = (key, value, left) if inner is value else (inner_key, inner, left)
        if len(left) < len(best[2]):
            best = reached
    return best


def is_host_name(text):
    """Whether a text may be a host's name."""
    try:
        ipaddress.ip_address(text)
        return False
    except ValueError:
        return re.fullmatch("[A-Za-z0-9._-]{1,63}", text) is not None


def is_fault_of_key(code, key):
    return code in OF_KEYS or code == "P7" and not is_host_name(key.value)


def offset_of(text, code, place):
    """The byte of the text at which a fault stands; of what isn't there, the object that misses it."""
    counted = re.fullmatch(r"offset ([0-9]{1,9})", place)
    if counted:
        return int(counted.group(1))
    if place == "text":
        return 0
    try:
        top = hujson.read(text)
    except hujson.NoJson as fault:
        return fault.offset
    if place == "top":
        return top.start
    key, value, left = found_at(top, place)
    return key.start if key is not None and not left and is_fault_of_key(code, key) else value.start
