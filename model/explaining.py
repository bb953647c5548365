"""Why a flow is granted, and which machine reaches which, over what a store keeps, by docs/POLICY.md."""

import copy

from granting import End, NoPolicy, lets_through, rules_of
from grants import Grants
from texts import clamped


def opened(tailnet, moment):
    """The tailnet as it is opened again: no machine is online."""
    again = copy.deepcopy(tailnet)
    again.now = clamped(moment)
    for row in again.machines.values():
        row.online, row.offline_since = False, again.now
    return again


def live_rows(tailnet):
    return [row for row in tailnet.machines.values() if tailnet.is_live(row)]


def end_at(tailnet, address):
    """An address, with the live machine that holds it."""
    for row in live_rows(tailnet):
        if address in (row.v4, row.v6):
            return End(address, (tailnet.users[row.user].login, tuple(row.tags)))
    return End(address)


def first_grant(policy, source, dest, proto, port):
    """The first rule that grants a flow, and the first of its destinations that does; or None."""
    for place, (only, sources, dests) in enumerate(rules_of(policy)):
        for entry, to in enumerate(dests):
            if lets_through(policy, (only, sources, [to]), source, dest, proto, port):
                return place, entry
    return None


def explain_text(tailnet, source, dest, proto, port):
    """What `explain` writes."""
    ends = end_at(tailnet, source), end_at(tailnet, dest)
    granted = first_grant(tailnet.policy or NoPolicy(), *ends, proto, port)
    return "denied\n" if granted is None else "granted rule {} entry {}\n".format(*granted)


def reach_text(tailnet):
    """What `reach` writes."""
    rows = sorted(live_rows(tailnet), key=lambda row: row.id)
    grants = Grants(tailnet.policy, rows, lambda row: tailnet.users[row.user].login)
    rules = rules_of(grants.policy)
    lines = ["source,destination,rule\n"]
    for a in rows:
        for b in rows:
            reaching = [] if a is b else grants.reaching(a, b)
            if reaching:
                place = next(place for place, rule in enumerate(rules) if rule is reaching[0])
                lines.append(f"{a.id},{b.id},{place}\n")
    return "".join(lines)
