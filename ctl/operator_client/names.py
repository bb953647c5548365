"""From what a person calls a machine, a user, a key or an entry to what the server calls it."""

import ipaddress

from .shown import plain
from .trouble import Status, Trouble


def login_of(text):
    """A login, also where its @ was left out."""
    return (text if "@" in text else f"{text}@").lower()


def as_address(text):
    try:
        return ipaddress.ip_address(text.strip("[]"))
    except ValueError:
        return None


def node_named(rows, text):
    """The machine of a name, perhaps with its domain, or of an address or an id; a name goes first. None if there is none."""
    label = text.lower().split(".")[0]
    address = as_address(text)
    if address is None:
        found = [row for row in rows if row["name"] == label]
    else:
        found = [row for row in rows if any(as_address(each) == address for each in row["addresses"])]
    return next(iter(found or [row for row in rows if str(row["id"]) == text]), None)


def node_of(rows, text):
    """The machine that a person means."""
    found = node_named(rows, text)
    if found is None:
        raise Trouble(f"there is no machine '{plain(text)}'", "See `tailnetctl nodes`", Status.REFUSED)
    return found


def key_of(rows, text):
    """The pre-auth key of an id, or of a text, as `tnkey-2-..` or its beginning `tnkey-2`."""
    for row in rows:
        if text in (str(row["id"]), row["key"]) or text == f"tnkey-{row['id']}":
            return row
    raise Trouble(f"there is no key '{plain(text)}'", "See `tailnetctl keys`", Status.REFUSED)


def entry_of(rows, text):
    """The waiting machine of a host name, or of the text of its entry, as `reg-2-..` or its beginning `reg-2`."""
    found = [row for row in rows if row["id"] == text or text == "-".join(row["id"].split("-")[:2])]
    found = found or [row for row in rows if row["host"] == text]
    if not found:
        raise Trouble(f"no machine waits as '{plain(text)}'", "See `tailnetctl pending`", Status.REFUSED)
    if len(found) > 1:
        entries = ", ".join("-".join(row["id"].split("-")[:2]) for row in found)
        what = f"{len(found)} machines wait that call themselves '{plain(text)}': {plain(entries)}"
        raise Trouble(what, "Compare their machine keys in `tailnetctl pending`, and name the entry", Status.REFUSED)
    return found[0]
