"""Which routes of a machine are approved, which machine is an exit node, and what a machine serves, by docs/PROTOCOL.md."""

import ipaddress

from granting import PRIVATE, PUBLIC, names

EXITS = [ipaddress.ip_network("0.0.0.0/0"), ipaddress.ip_network("::/0")]
TAILNETS = [ipaddress.ip_network("100.64.0.0/10"), ipaddress.ip_network("fd7a:115c:a1e0::/48")]


def meet(nets, others):
    """The prefixes of the addresses that lie in both. (Of two prefixes that overlap one lies in the other.)"""
    return [
        net if net.prefixlen >= other.prefixlen else other
        for net in nets
        for other in others
        if net.version == other.version and net.overlaps(other)
    ]


def without(nets, hole):
    """The prefixes of the addresses that lie outside a hole."""
    left = []
    for net in nets:
        if not meet([net], [hole]):
            left.append(net)
        elif net.prefixlen < hole.prefixlen:
            left += net.address_exclude(hole)
    return left


def internet():
    nets = PUBLIC
    for hole in PRIVATE:
        nets = without(nets, hole)
    return nets


INTERNET = internet()


def has_both_exits(routes):
    return all(route in routes for route in EXITS)


def is_named(policy, approvers, login, tags):
    return any(names(policy, approver, login, tags) for approver in approvers)


def lies_in(route, net):
    return route.version == net.version and route.subnet_of(net)


def is_approved(policy, row, login, route):
    if route in EXITS or meet([route], TAILNETS):
        return False
    return route in row.approved or any(
        lies_in(route, net) and is_named(policy, approvers, login, row.tags) for net, approvers in policy.routes
    )


def approved(policy, row, login):
    """Of the routes that the machine advertises now, which are in order, those that are approved."""
    return [route for route in row.routes if is_approved(policy, row, login, route)]


def is_exit(policy, row, login):
    if not has_both_exits(row.routes):
        return False
    return has_both_exits(row.approved) or is_named(policy, policy.exits, login, row.tags)


def exits_of(policy, row, login):
    return EXITS if is_exit(policy, row, login) else []


def served_nets(policy, row, login):
    """What the machine serves, as prefixes."""
    own = [ipaddress.ip_network(row.v4), ipaddress.ip_network(row.v6)]
    return own + approved(policy, row, login) + (INTERNET if is_exit(policy, row, login) else [])
