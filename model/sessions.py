"""Sessions of polls, and the responses that bring one to a newer map, by docs/PROTOCOL.md."""

from dataclasses import dataclass

from texts import ZERO_KEY

NUMBER_LIMIT = 2**63

# what a patch gives, by the field of a node
PATCHED = {"DiscoKey": "DiscoKey", "Endpoints": "Endpoints", "HomeDERP": "DERPRegion", "Online": "Online"}
# what a patch can't give, as it would say nothing
UNTOLD = {"DiscoKey": "discokey:" + ZERO_KEY, "Endpoints": [], "HomeDERP": 0}


@dataclass
class Session:
    """What its client has: the number of the last response, and the map that the responses so far add up to."""

    handle: str
    seq: int = 0
    sent: dict | None = None
    is_attached: bool = False


def differing(old, new):
    return [field for field in new if new[field] != old[field]]


def can_patch(old, new):
    return all(field in PATCHED and new[field] != UNTOLD.get(field) for field in differing(old, new))


def peers_of(whole):
    return {peer["ID"]: peer for peer in whole.get("Peers", [])}


def change(old, new):
    """What differs, but for peers that are patched."""
    were, are = peers_of(old), peers_of(new)
    told = {
        "DNSConfig": new["DNSConfig"] if new["DNSConfig"] != old["DNSConfig"] else None,
        "Node": new["Node"] if new["Node"] != old["Node"] else None,
        "PacketFilter": new["PacketFilter"] if new["PacketFilter"] != old["PacketFilter"] else None,
        "PeersChanged": [peer for id, peer in are.items() if id not in were or not can_patch(were[id], peer)] or None,
        "PeersRemoved": [id for id in were if id not in are] or None,
        "UserProfiles": [profile for profile in new["UserProfiles"] if profile not in old["UserProfiles"]] or None,
    }
    return {name: value for name, value in told.items() if value is not None}


def patches(old, new):
    """A patch for each peer that differs, and can be patched."""
    were, found = peers_of(old), []
    for id, peer in peers_of(new).items():
        fields = differing(were[id], peer) if id in were and can_patch(were[id], peer) else []
        if fields:
            found.append({"NodeID": id, **{PATCHED[field]: peer[field] for field in fields}})
    return {"PeersChangedPatch": found} if found else {}


def drain(session, whole):
    """The responses that bring the session to this map, and there it is."""
    if session.sent is None:
        made = [{**whole, "MapSessionHandle": session.handle}]
    else:
        made = [told for told in (change(session.sent, whole), patches(session.sent, whole)) if told]
    numbered = [{**told, "Seq": session.seq + place} for place, told in enumerate(made, 1)]
    session.seq, session.sent = session.seq + len(made), whole
    return numbered
