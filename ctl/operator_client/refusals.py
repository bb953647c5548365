"""The server's refusals as sentences: what is wrong, and what to do about it."""

from . import hujson
from .shown import plain
from .trouble import Status, Trouble

SENTENCES = {
    "NoPath": ("{at} knows no such path", "It may be another program, or another version of tailnetd"),
    "BadMethod": ("{at} doesn't take this method", "It may be another version of tailnetd"),
    "BadToken": ("{at} refuses the token of {source}", "It has to be the token of the server's settings, byte for byte"),
    "UnknownUser": ("there is no such user", "See `tailnetctl users`; `tailnetctl user add NAME` adds one"),
    "UnknownMachine": ("there is no such machine any more", "See `tailnetctl nodes`"),
    "KeyUnknown": ("there is no such key", "See `tailnetctl keys`"),
    "PendingUnknown": ("no machine waits so any more: its time has passed, or it was admitted", "See `tailnetctl pending`, and let the machine register again"),
    "TagUndefined": ("the policy in force doesn't define {tags}", "Add the tag to tagOwners: `tailnetctl policy edit`"),
    "TagNotOwned": ("the user doesn't own a tag that the machine requests", "Name the user in tagOwners, or admit it for an owner of the tag"),
    "NameTaken": ("that name is taken", "See `tailnetctl nodes` or `tailnetctl users`, and choose another"),
    "BadName": ("that name isn't allowed", "{name_rule}"),
    "NodeKeyTaken": ("another machine has this node key", "Let the machine make a new one, and register again"),
    "RouteNotAdvertised": ("the machine doesn't advertise one of these routes", "`tailnetctl node routes NAME` shows those that it does; an exit node advertises both 0.0.0.0/0 and ::/0"),
    "RouteOverlaps": ("one of these routes has addresses of the tailnet itself", "Nothing within 100.64.0.0/10 or fd7a:115c:a1e0::/48 can be approved"),
    "UserHasMachines": ("the user has machines", "Remove them first: see `tailnetctl nodes`"),
    "NotJson": ("the server reads no JSON there", "Write what the command asks for; a policy has to be UTF-8"),
    "Missing": ("the server misses '{field}'", "It may be another version of tailnetd"),
    "BadField": ("the server doesn't take the value of '{field}'", "Look at how it is written: docs/PROTOCOL.md has each form"),
    "BodyTooLong": ("the text is longer than the server takes", "It may have 1 MiB"),
    "KeeperFault": ("the server couldn't keep the change", "Look at its disk and at the rights of its database; nothing was changed"),
    "EntropyFault": ("the server had no random words", "Try again"),
    "NoMemory": ("the server is out of memory; nothing was changed", "Try again, or give it more"),
    "Full": ("the server has no room for another {what}", "Remove some; docs/OPERATING.md has each limit"),
    "AddressesSpent": ("there is no free IPv{family} address", "Remove machines, or widen the prefix of the settings"),
}
NAME_RULES = {
    "node": "A machine's name is 1 to 63 of a-z, 0-9 and hyphens, without a hyphen at an end",
    "user": "A login is 1 to 63 of a-z, 0-9, '.', '_', '+', '-', then @, perhaps with a domain behind it",
}
WHATS = {"User": "user", "Key": "pre-auth key", "Pending": "waiting machine", "Machine": "machine", "Session": "session"}


def undefined_tags(client, tags):
    """Those of the tags that the policy in force doesn't define. Where none was named here the machine requests one."""
    try:
        top = hujson.read(client.text("/api/v1/policy"))
        defined = set(hujson.plain_value(top.member("tagOwners")) if top.member("tagOwners") else {})
    except Exception:  # what was refused is told all the same
        defined = set()
    missing = [plain(tag) for tag in tags if tag not in defined]
    return ", ".join(missing) or "a tag that the machine requests"


def trouble_of(refusal, client, tags=(), kind="node"):
    """A refusal as a sentence."""
    value = refusal.value
    found = SENTENCES.get(refusal.name)
    if found is None:
        what = f"{client.address} answers with status {refusal.status}" + (f" and '{plain(refusal.name)}'" if refusal.name else "")
        advice = "A front may answer in the server's place, as one that lets operators in from its own machine alone"
        return Trouble(what, advice, Status.REFUSED)
    parts = {
        "at": client.address,
        "source": client.access.source,
        "tags": undefined_tags(client, tags) if refusal.name == "TagUndefined" else "",
        "name_rule": NAME_RULES[kind],
        "field": plain(value.get("field", "")),
        "what": WHATS.get(value.get("what"), "row"),
        "family": plain(value.get("family", "")),
    }
    what, advice = (text.format(**parts) for text in found)
    return Trouble(what, advice, Status.REFUSED)
