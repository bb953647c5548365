"""Policies: what a text says by docs/POLICY.md, or its first fault."""

import ipaddress
import re
from dataclasses import dataclass, field

from jsons import value_of_json
from texts import address_of, is_tag, login_of, prefix_of

MOST = {"text": 262144, "rules": 512, "hosts": 512, "entries": 256, "list": 256}
TOKEN = re.compile(rb'"(?:\\.|[^"\\])*"|//[^\n]*|/\*.*?\*/|.', re.DOTALL)
UNREAD = ["ssh", "sshTests", "nodeAttrs", "derpMap", "randomizeClientPort", "OneCGNATRoute", "disableIPv4"]
SECTIONS = ["groups", "hosts", "tagOwners", "acls", "grants", "autoApprovers", "tests"]
UNSUPPORTED = ["ipsets", "postures", "defaultSrcPosture"]
NEWER = {"users": "src", "ports": "dst"}
AUTOMATIC = ["autogroup:member", "autogroup:tagged", "autogroup:internet", "autogroup:self"]
PROTOCOLS = {
    "icmp": 1, "igmp": 2, "ipv4": 4, "ip-in-ip": 4, "tcp": 6, "egp": 8, "igp": 9, "udp": 17, "gre": 47, "esp": 50, "ah": 51,
    "sctp": 132,
}


class PolicyFault(Exception):
    """A text is no policy: the code and the place of its first fault."""

    def __init__(self, code, place):
        super().__init__(f"P{code} {place}")
        self.answer = {"code": f"P{code}", "place": place}


@dataclass
class Policy:
    groups: dict = field(default_factory=dict)
    hosts: dict = field(default_factory=dict)
    tags: dict = field(default_factory=dict)
    # each rule is its protocol or None, its sources, and its destinations with their ports: those of `acls`, then one for each
    # element of the `ip` lists of `grants`; None without both
    rules: list | None = None
    # each prefix with its approvers
    routes: list = field(default_factory=list)
    exits: list = field(default_factory=list)
    # each test is its subject, its protocol or None, and two lists of destinations with their ports
    tests: list = field(default_factory=list)

    def owns(self, tag, login):
        """Whether the owners of a tag that has an entry name the login."""
        return any(login == owner or login in self.groups.get(owner, []) for owner in self.tags[tag])


def blank(comment):
    return re.sub(rb"[^\r\n]", b" ", comment)


def standard(text):
    """The JSON text of the same length that a HuJSON text stands for."""
    out, last, comma = bytearray(), b"", None
    for found in TOKEN.finditer(text):
        token, at = found.group(), found.start()
        if token == b'"' or text[at : at + 2] == b"/*" and len(token) < 4:
            raise PolicyFault(1, f"offset {at}")
        if token[:2] in (b"//", b"/*"):
            out += blank(token)
            continue
        if token == b"," and last in (b"", b"[", b"{", b",", b":"):
            raise PolicyFault(1, f"offset {at}")
        if token in (b"]", b"}") and comma is not None:
            out[comma : comma + 1] = b" "
        if token not in (b" ", b"\t", b"\n", b"\r"):
            comma, last = at if token == b"," else None, token[-1:]
        out += token
    return bytes(out)


def value_of(text):
    try:
        return value_of_json(text)
    except ValueError:
        raise PolicyFault(1, "json") from None


def under(place, key):
    return f"{place}.{key}" if place else key


def members(value):
    """The members of an object in byte order of their keys."""
    return sorted(value.items(), key=lambda item: item[0].encode())


def lower(key):
    return re.sub("[A-Z]", lambda found: found.group().lower(), key)


def sections(place, value, known, unsupported):
    """The sections of an object, by the names that places have."""
    found, names = {}, {lower(name): name for name in known}
    for key, item in members(value):
        if lower(key) in [lower(name) for name in unsupported]:
            raise PolicyFault(4, under(place, key))
        name = NEWER.get(lower(key), names.get(lower(key))) if lower(key) in names else None
        if name is None or name in found:
            raise PolicyFault(3, under(place, key))
        found[name] = item
    return found


def listed(place, value, most, read):
    if not isinstance(value, list):
        raise PolicyFault(5, place)
    if len(value) > most:
        raise PolicyFault(19, place)
    return [read(f"{place}[{at}]", item) for at, item in enumerate(value)]


def shaped(place, value, wanted):
    if not isinstance(value, wanted):
        raise PolicyFault(5, place)
    return value


def is_name(text):
    return re.fullmatch("[A-Za-z0-9._-]{1,63}", text) is not None


def net_of(text):
    """An address or a prefix, as a prefix."""
    address = address_of(text)
    return ipaddress.ip_network(address) if address else prefix_of(text)


def ports_of(place, text, code):
    """The ranges of ports that a text has."""
    if text == "*":
        return [(0, 65535)]
    ranges = []
    for at, piece in enumerate(text.split(",")):
        if at == 64:
            raise PolicyFault(19, place)
        first, dash, last = piece.partition("-")
        ends = [first, last if dash else first]
        if not all(re.fullmatch("[0-9]{1,5}", end) and int(end) < 65536 for end in ends) or int(ends[0]) > int(ends[1]):
            raise PolicyFault(code, place)
        ranges.append((int(ends[0]), int(ends[1])))
    return ranges


class Reader:
    """Reads the sections of one policy, in their order."""

    def __init__(self):
        self.policy = Policy()

    def entries(self, name, value, most, read):
        shaped(name, value, dict)
        if len(value) > most:
            raise PolicyFault(19, name)
        for key, item in members(value):
            read(f"{name}.{key}", key, item)

    def group(self, place, key, value):
        if not key.startswith("group:") or not is_name(key[6:]):
            raise PolicyFault(6, place)

        def member(at, item):
            login = login_of(shaped(at, item, str))
            if login is None:
                raise PolicyFault(6, at)
            return login

        self.policy.groups[key] = listed(place, value, MOST["list"], member)

    def host(self, place, key, value):
        if not is_name(key) or address_of(key):
            raise PolicyFault(7, place)
        net = net_of(shaped(place, value, str))
        if net is None:
            raise PolicyFault(7, place)
        self.policy.hosts[key] = net

    def tag(self, place, key, value):
        if not is_tag(key):
            raise PolicyFault(8, place)

        def owner(at, item):
            text = shaped(at, item, str)
            if text.startswith(("tag:", "autogroup:")):
                raise PolicyFault(4, at)
            if text.startswith("group:"):
                if text not in self.policy.groups:
                    raise PolicyFault(12, at)
                return text
            if login_of(text) is None:
                raise PolicyFault(8, at)
            return login_of(text)

        self.policy.tags[key] = listed(place, value, MOST["list"], owner)

    def selector(self, place, text):
        """A selector: a text, or a prefix."""
        if text == "*":
            return text
        for head, known, code in [("group:", self.policy.groups, 12), ("tag:", self.policy.tags, 13), ("autogroup:", AUTOMATIC, 4)]:
            if text.startswith(head):
                if text not in known:
                    raise PolicyFault(code, place)
                return text
        if text.startswith(("ipset:", "svc:")):
            raise PolicyFault(4, place)
        if login_of(text):
            return login_of(text)
        inner = address_of(text[1:-1]) if re.fullmatch(r"\[.*\]", text, re.DOTALL) else None
        net = ipaddress.ip_network(inner) if inner and inner.version == 6 else net_of(text)
        if net:
            return net
        if not is_name(text):
            raise PolicyFault(11, place)
        if text not in self.policy.hosts:
            raise PolicyFault(14, place)
        return self.policy.hosts[text]

    def source(self, place, value):
        selector = self.selector(place, shaped(place, value, str))
        if selector in ("autogroup:internet", "autogroup:self"):
            raise PolicyFault(15, place)
        return selector

    def approver(self, place, value):
        text = shaped(place, value, str)
        selector = self.selector(place, text)
        if not isinstance(selector, str) or selector == "*" or selector.startswith("autogroup:"):
            raise PolicyFault(11, place)
        return selector

    def test_end(self, place, text):
        selector = self.selector(place, text)
        is_net = not isinstance(selector, str)
        if is_net and (selector.num_addresses > 1 or "/" in text):
            raise PolicyFault(20, place)
        if not is_net and (selector == "*" or selector.startswith("autogroup:")):
            raise PolicyFault(20, place)
        return selector

    def dest(self, place, value, only_all):
        to, colon, ports = shaped(place, value, str).rpartition(":")
        if not colon:
            raise PolicyFault(16, place)
        selector = self.selector(place, to)
        ranges = ports_of(place, ports, 16)
        if only_all and ports != "*":
            raise PolicyFault(17, place)
        return selector, ranges

    def test_dest(self, place, value):
        to, colon, ports = shaped(place, value, str).rpartition(":")
        if not colon:
            raise PolicyFault(20, place)
        selector = self.test_end(place, to)
        ranges = ports_of(place, ports, 20)
        if min(first for first, _ in ranges) != max(last for _, last in ranges):
            raise PolicyFault(20, place)
        return selector, ranges[0][0]

    def proto(self, place, value):
        number = PROTOCOLS.get(value) if isinstance(value, str) else value
        if isinstance(value, str) and re.fullmatch("[1-9][0-9]{0,2}", value):
            number = int(value)
        if type(number) is not int or not 1 <= number <= 255:
            raise PolicyFault(10, place)
        return number

    def rule(self, place, value):
        found = sections(place, shaped(place, value, dict), ["action", "proto", "src", "users", "dst", "ports"], ["srcPosture"])
        if found.get("action") != "accept":
            raise PolicyFault(9, under(place, "action"))
        proto = self.proto(under(place, "proto"), found["proto"]) if "proto" in found else None
        only_all = proto is not None and proto not in (6, 17, 132)
        return (
            proto,
            listed(under(place, "src"), found.get("src"), MOST["list"], self.source),
            listed(under(place, "dst"), found.get("dst"), MOST["list"], lambda at, item: self.dest(at, item, only_all)),
        )

    def end(self, place, value):
        """A destination of a grant, which has no ports."""
        return self.selector(place, shaped(place, value, str))

    def flow(self, place, value):
        """The protocol, or None, and the ports that an element of `ip` names."""
        head, colon, rest = shaped(place, value, str).partition(":")
        proto = self.proto(place, head) if colon else None
        ports = rest if colon else head
        if "," in ports:
            raise PolicyFault(16, place)
        ranges = ports_of(place, ports, 16)
        if proto is not None and proto not in (6, 17, 132) and ports != "*":
            raise PolicyFault(17, place)
        return proto, ranges

    def grant(self, place, value):
        """Adds the rules of an entry of `grants`."""
        found = sections(place, shaped(place, value, dict), ["src", "dst", "ip"], ["srcPosture", "app", "via"])
        sources = listed(under(place, "src"), found.get("src"), MOST["list"], self.source)
        ends = listed(under(place, "dst"), found.get("dst"), MOST["list"], self.end)
        at = under(place, "ip")
        room = MOST["rules"] - len(self.policy.rules)
        flows = listed(at, found.get("ip"), min(MOST["list"], room), self.flow)
        self.policy.rules += [(proto, sources, [(end, ranges) for end in ends]) for proto, ranges in flows]

    def approvers(self, value):
        place = "autoApprovers"
        found = sections(place, shaped(place, value, dict), ["routes", "exitNode"], ["services"])
        if "exitNode" in found:
            self.policy.exits = listed(f"{place}.exitNode", found["exitNode"], MOST["list"], self.approver)
        if "routes" in found:
            self.entries(f"{place}.routes", found["routes"], MOST["entries"], self.route)

    def route(self, place, key, value):
        net = prefix_of(key)
        if net is None or net in [known for known, _ in self.policy.routes]:
            raise PolicyFault(18, place)
        self.policy.routes.append((net, listed(place, value, MOST["list"], self.approver)))

    def test(self, place, value):
        found = sections(place, shaped(place, value, dict), ["src", "proto", "accept", "deny"], ["srcPostureAttrs"])
        proto = self.proto(under(place, "proto"), found["proto"]) if "proto" in found else None
        at = under(place, "src")
        if "src" not in found:
            raise PolicyFault(20, at)
        subject = self.test_end(at, shaped(at, found["src"], str))
        accept, deny = (
            listed(under(place, key), found.get(key, []), MOST["list"], self.test_dest) for key in ("accept", "deny")
        )
        return subject, proto, accept, deny

    def read(self, value):
        if not isinstance(value, dict):
            raise PolicyFault(2, "top")
        found = sections("", value, SECTIONS + UNREAD, UNSUPPORTED)
        for name, most, read in [("groups", "entries", self.group), ("hosts", "hosts", self.host), ("tagOwners", "entries", self.tag)]:
            if name in found:
                self.entries(name, found[name], MOST[most], read)
        if "acls" in found:
            self.policy.rules = listed("acls", found["acls"], MOST["rules"], self.rule)
        if "grants" in found:
            self.policy.rules = self.policy.rules or []
            listed("grants", found["grants"], MOST["entries"], self.grant)
        if "autoApprovers" in found:
            self.approvers(found["autoApprovers"])
        if "tests" in found:
            self.policy.tests = listed("tests", found["tests"], MOST["entries"], self.test)
        return self.policy


def read_policy(text):
    """The policy of a text."""
    if len(text) > MOST["text"]:
        raise PolicyFault(19, "text")
    return Reader().read(value_of(standard(text)))
