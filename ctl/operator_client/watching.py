"""Watching what a machine is told: a poll in the place of its client, each response a line that a terminal shows."""

import http.client
import json
import re
import sys

from .connection import opened, trouble_of
from .files import bytes_of
from .shown import plain, plain_lines, say
from .trouble import Status, Trouble

# A poll that waits is silent as long as nothing changes, for some 17 minutes by the usual settings.
SILENCE = 3600


def keys_in(path):
    """The machine key and the node key in a file: `mkey:` and `nodekey:`, each with 64 digits."""
    text = bytes_of(path).decode("utf-8", errors="replace")
    found = [re.search(rf"\b{head}:[0-9a-fA-F]{{64}}\b", text) for head in ("mkey", "nodekey")]
    if None in found:
        advice = "It has two lines, mkey:.. and nodekey:.., each with 64 hexadecimal digits"
        raise Trouble(f"{plain(path)} holds no keys of a machine", advice, Status.WORDS)
    return [each.group() for each in found]


def exactly(response, count):
    """So many bytes of a stream; none at its end."""
    got = b""
    while len(got) < count:
        piece = response.read(count - len(got))
        if not piece:
            return None
        got += piece
    return got


def frames(response):
    """The texts of a stream's frames: four bytes with the length, the least first, and the text."""
    while head := exactly(response, 4):
        text = exactly(response, int.from_bytes(head, "little"))
        if text is None:
            return
        yield json.loads(text)


class Told:
    """What a machine was told so far: the names of the machines that it sees."""

    def __init__(self):
        self.names = {}

    def seen(self, rows):
        """Keeps the names of rows, and gives them."""
        names = {row["ID"]: row["Name"].split(".")[0] for row in rows}
        self.names |= names
        return ", ".join(names.values())

    def name(self, number):
        return self.names.get(number, f"machine {number}")

    def patched(self, patch):
        """What a patch tells of a machine."""
        name = self.name(patch["NodeID"])
        told = [f"{name} is {'online' if patch['Online'] else 'offline'}"] if "Online" in patch else []
        more = {"Endpoints": "endpoints", "DERPRegion": "DERP region", "DiscoKey": "disco key"}
        return told + [f"{name} has {word} {json.dumps(patch[key])}" for key, word in more.items() if key in patch]

    def sentences(self, response):
        """What a response tells the machine, for a person."""
        told = []
        if "Node" in response:
            told.append(f"this machine is {response['Node']['Name']} ({response['Node']['Addresses'][0]})")
        for key, words in (("Peers", "sees"), ("PeersChanged", "sees anew")):
            if key in response:
                told.append(f"{words} {self.seen(response[key])}")
        if "PeersRemoved" in response:
            told.append(f"sees {', '.join(map(self.name, response['PeersRemoved']))} no more")
        for patch in response.get("PeersChangedPatch", []):
            told += self.patched(patch)
        told += [f"has another {name}" for name in ("PacketFilter", "DNSConfig") if name in response and "Domain" not in response]
        return told or [f"has session {response.get('MapSessionHandle', 'without a handle')}"]


def print_response(words, told, response):
    if words.json:
        print(json.dumps(response, ensure_ascii=True).replace("<", "\\u003c").replace(">", "\\u003e"), flush=True)
    else:
        print(plain_lines("\n".join(told.sentences(response))), flush=True)


def watch(address, words):
    """Polls in a machine's place, and prints each response as it comes."""
    machine, node = keys_in(words.file)
    connection = opened(address, SILENCE)
    told, count = Told(), 0
    try:
        connection.request("POST", "/machine/map", json.dumps({"NodeKey": node, "Stream": True}), {"Ts-Machine-Key": machine})
        response = connection.getresponse()
        if response.status != 200:
            what = f"{address} doesn't take the poll: status {response.status} and '{plain(response.read(200).decode(errors='replace'))}'"
            raise Trouble(what, "The machine has to be registered with these keys, and live", Status.REFUSED)
        for frame in frames(response):
            print_response(words, told, frame)
            count += 1
            if words.count and count >= words.count:
                return
    except (OSError, ValueError, http.client.HTTPException) as fault:
        raise trouble_of(fault, address) from None
    finally:
        connection.close()
    say("tailnetctl: the server ended the poll, as it does after poll_turns looks. Watch again to go on.")
