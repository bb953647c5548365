"""What a policy grants, and the first of its tests that fails, by docs/POLICY.md."""

import ipaddress
from dataclasses import dataclass, field

USUAL = (1, 6, 17, 58)
PORTED = (6, 17, 132)
OPEN = [(None, ["*"], [("*", [(0, 65535)])])]
PUBLIC = [ipaddress.ip_network(net) for net in ("0.0.0.0/0", "2000::/3")]
PRIVATE = [
    ipaddress.ip_network(net) for net in ("10.0.0.0/8", "172.16.0.0/12", "192.168.0.0/16", "169.254.0.0/16", "100.64.0.0/10")
]


@dataclass(frozen=True)
class NoPolicy:
    """What is in force as long as no policy is kept: everything goes through."""

    groups: dict = field(default_factory=dict)
    rules: list | None = None
    routes: tuple = ()
    exits: tuple = ()


@dataclass(frozen=True)
class End:
    """An end of a flow: its address, and its holder's login and tags. Either may be missing."""

    address: object = None
    holder: tuple | None = None


def names(policy, selector, login, tags):
    """Whether a selector that is no `*` and no addresses names the holder."""
    if selector.startswith("tag:"):
        return selector in tags
    if selector == "autogroup:tagged":
        return bool(tags)
    if tags:
        return False
    return selector in ("autogroup:member", login) or login in policy.groups.get(selector, [])


def is_internet(address):
    inside = lambda nets: any(address in net for net in nets)
    return inside(PUBLIC) and not inside(PRIVATE)


def covers(policy, selector, end):
    if selector == "*":
        return True
    if not isinstance(selector, str):
        return end.address is not None and end.address in selector
    if selector == "autogroup:internet":
        return end.address is not None and is_internet(end.address)
    return end.holder is not None and names(policy, selector, *end.holder)


def joins_own(source, dest):
    """Whether `autogroup:self` joins the two."""
    if source.holder is None or dest.holder is None or source.holder[1] or dest.holder[1]:
        return False
    return source.holder[0] == dest.holder[0]


def rules_of(policy):
    return OPEN if policy.rules is None else policy.rules


def sends(policy, rule, source):
    """Whether the end is a source of the rule."""
    return any(covers(policy, selector, source) for selector in rule[1])


def dest_covers(policy, selector, source, dest):
    """Whether a destination covers the end of a flow from that source."""
    return joins_own(source, dest) if selector == "autogroup:self" else covers(policy, selector, dest)


def lets_through(policy, rule, source, dest, proto, port):
    only, _, dests = rule
    if proto not in (USUAL if only is None else (only,)) or not sends(policy, rule, source):
        return False
    return any(
        dest_covers(policy, selector, source, dest)
        and (proto not in PORTED or any(first <= port <= last for first, last in ranges))
        for selector, ranges in dests
    )


def granted(policy, source, dest, proto, port):
    return any(lets_through(policy, rule, source, dest, proto, port) for rule in rules_of(policy))


def ends_of(policy, machines, selector):
    """What a test's subject or destination stands for. Machines are their addresses, logins and tags."""
    if not isinstance(selector, str):
        address = selector.network_address
        holders = [(login, tags) for addresses, login, tags in machines if address in addresses]
        return [End(address, holders[0] if holders else None)]
    if selector.startswith("group:"):
        return [end for login in policy.groups[selector] for end in ends_of(policy, machines, login)]
    phantom = ("", (selector,)) if selector.startswith("tag:") else (selector, ())
    ends = [
        End(address, (login, tags))
        for addresses, login, tags in machines
        if names(policy, selector, login, tags)
        for address in addresses
    ]
    return ends + [End(None, phantom)]


def first_failure(policy, machines):
    """The place of the first entry of the policy's tests that fails, or None."""
    for at, (subject, proto, accept, deny) in enumerate(policy.tests):
        protos = (6, 17) if proto is None else (proto,)
        for key, entries, wanted in [("accept", accept, True), ("deny", deny, False)]:
            for index, (to, port) in enumerate(entries):
                pairs = [
                    any(granted(policy, source, dest, one, port) for one in protos)
                    for source in ends_of(policy, machines, subject)
                    for dest in ends_of(policy, machines, to)
                ]
                if any(pair != wanted for pair in pairs):
                    return f"tests[{at}].{key}[{index}]"
    return None
