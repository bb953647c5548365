"""Who reaches and sees whom over the live machines, by which machine a route goes, and each machine's packet filter."""

import ipaddress

from granting import USUAL, End, NoPolicy, covers, joins_own, rules_of, sends
from routes import EXITS, INTERNET, approved, exits_of, meet, served_nets

EVERYTHING = EXITS


def merged(ranges):
    """The least ranges of the same ports, ascending."""
    found = []
    for first, last in sorted(ranges):
        if found and first <= found[-1][1] + 1:
            found[-1] = (found[-1][0], max(found[-1][1], last))
        else:
            found.append((first, last))
    return found


def canonical(nets):
    """The fewest prefixes of the same addresses, IPv4 first, each by its base."""
    return [
        net
        for version in (4, 6)
        for net in ipaddress.collapse_addresses(net for net in nets if net.version == version)
    ]


def net_text(net):
    """A prefix; of one address, without its length."""
    return str(net.network_address) if net.num_addresses == 1 else str(net)


def addresses(row):
    return [row.v4, row.v6]


class Grants:
    """A policy, or none, over rows of live machines and the logins of their users."""

    def __init__(self, policy, rows, login):
        self.policy, self.rows, self.login = policy or NoPolicy(), rows, login

    def ends(self, row):
        """The ends that the machine's addresses are."""
        return [End(address, (self.login(row), tuple(row.tags))) for address in addresses(row)]

    def sending(self, a):
        """The rules that have a source among the machine's addresses."""
        return [rule for rule in rules_of(self.policy) if any(sends(self.policy, rule, end) for end in self.ends(a))]

    def goes_to(self, rule, nets):
        """Whether the rule has some of these addresses, of which no machine holds any but its own, as a destination."""
        return any(to != "autogroup:self" and meet(self.nets_of(to), nets) for to, _ in rule[2])

    def is_granted(self, a, nets):
        """Whether some flow goes from the machine to some of these addresses."""
        return any(self.goes_to(rule, nets) for rule in self.sending(a))

    def reaching(self, a, b):
        """The rules by each of which alone some flow goes from a machine to what another serves."""
        served, joins = self.served(b), joins_own(self.ends(a)[0], self.ends(b)[0])
        own = lambda rule: joins and any(to == "autogroup:self" for to, _ in rule[2])
        return [rule for rule in self.sending(a) if own(rule) or self.goes_to(rule, served)]

    def reaches(self, a, b):
        return bool(self.reaching(a, b))

    def sees(self, a, b):
        return a is not b and (self.reaches(a, b) or self.reaches(b, a))

    def served(self, row):
        return served_nets(self.policy, row, self.login(row))

    def approved(self, row):
        return approved(self.policy, row, self.login(row))

    def own_routes(self, row):
        """The routes that a machine is shown at itself."""
        return self.approved(row) + exits_of(self.policy, row, self.login(row))

    def router(self, peers, route):
        """The peer by which a route goes: one that is online before one that isn't, and then the least id."""
        return min((peer for peer in peers if route in self.approved(peer)), key=lambda peer: (not peer.online, peer.id))

    def shown_routes(self, viewer, peer, peers):
        """The routes that a viewer of these peers is shown at one."""
        routes = [
            route
            for route in self.approved(peer)
            if self.is_granted(viewer, [route]) and peer is self.router(peers, route)
        ]
        exits = exits_of(self.policy, peer, self.login(peer))
        return routes + (exits if exits and self.is_granted(viewer, INTERNET) else [])

    def nets_of(self, selector):
        """What a source or a destination covers, as prefixes."""
        if selector == "*":
            return EVERYTHING
        if selector == "autogroup:internet":
            return INTERNET
        if not isinstance(selector, str):
            return [selector]
        ends = [end for row in self.rows for end in self.ends(row) if covers(self.policy, selector, end)]
        return [ipaddress.ip_network(end.address) for end in ends]

    def dest_ports(self, nets, ports):
        return [
            {"IP": net_text(net), "Ports": {"First": first, "Last": last}}
            for net in canonical(nets)
            for first, last in merged(ports)
        ]

    def plain_rule(self, rule, row):
        """The filter rule of a rule, without `autogroup:self`."""
        proto, sources, dests = rule
        ports = [
            each
            for to, ranges in dests
            if to != "autogroup:self"
            for each in self.dest_ports(meet(self.nets_of(to), self.served(row)), ranges)
        ]
        nets = canonical([net for source in sources if source != "*" for net in self.nets_of(source)])
        texts = ["*"] if "*" in sources else [net_text(net) for net in nets]
        return self.filter_rule(proto, texts, ports)

    def own_rule(self, rule, row):
        """The filter rule of its destinations `autogroup:self`."""
        proto, sources, dests = rule
        own_nets = [ipaddress.ip_network(address) for address in addresses(row)]
        ports = [each for to, ranges in dests if to == "autogroup:self" for each in self.dest_ports(own_nets, ranges)]
        self_end = self.ends(row)[0]
        own = [
            ipaddress.ip_network(end.address)
            for other in self.rows
            for end in self.ends(other)
            if joins_own(self_end, end) and sends(self.policy, rule, end)
        ]
        return self.filter_rule(proto, [net_text(net) for net in canonical(own)], ports)

    def filter_rule(self, proto, texts, ports):
        if not texts or not ports:
            return []
        return [{"DstPorts": ports, "IPProto": list(USUAL) if proto is None else [proto], "SrcIPs": texts}]

    def filter_of(self, row):
        return [each for rule in rules_of(self.policy) for each in self.plain_rule(rule, row) + self.own_rule(rule, row)]
