"""Random requests: mostly sound ones about rows that are there, and some with each kind of fault."""

import json

from texts import FIRST_MOMENT, LAST_MOMENT, moment_text

HOSTS = [
    "Alice's MacBook Pro!", "office", "Office", "office-1", "", "--", "node", "node-1", "laptop.local",
    "a" * 60 + "-bb", "a" * 63, "a" * 70, "a" * 255, "a" * 256, "é" * 127, "é" * 128, "日本", 'x"y\\z\n\t\x01\x7f',
]
NAMES = ["laptop", "office", "Office", "a" * 63, "a" * 64, "-a", "a-", "", "a.b", "é"]
LOGINS = [
    "ann@", "Ann", "bob@example.org", "BOB@Example.org", "seed@", "eve", "no login", "@x", "a@b@c", "", "a" * 63,
    "a" * 64, "a_b.c+d-e@x-y.z", "a@" + "b" * 63, "a@" + "b" * 64, "é@", "ann@x_y",
]
TIMES = [
    "x", "2001-09-09", "2001-13-01T00:00:00Z", "2001-09-09T24:00:00Z", "2001-09-09T01:46:60Z", "2001-09-09t01:46:40Z",
    "2001-09-09T01:46:40z", "2001-09-09T01:46:40", "2001-02-29T00:00:00Z", "0000-01-01T00:00:00Z", "0000-12-31T23:30:00-01:00",
    "2001-09-09T01:46:40.Z", "0001-01-01T00:00:00+00:01", "9999-12-31T23:59:59-00:01", " 2001-09-09T01:46:40Z",
    "0001-01-01T00:00:00Z", "0001-01-01T02:00:00+02:00", "2000-02-29T00:00:00.5+23:59",
]
ROUTES = [
    "10.0.0.0/8", "10.0.0.0/9", "10.1.0.0/16", "10.1.0.0/16", "192.168.5.0/24", "0.0.0.0/0", "0.0.0.0/0", "::/0", "::/0", "0::/0",
    "fd00::/8", "100.64.0.1/32", "100.0.0.0/8", "fd7a:115c:a1e0:1::/64", "2001:DB8:0:0:1::/80", "1:0:0:2:0:0:0:3/128",
    "8.8.8.0/24", "0.0.0.0/1", "fd01::/16",
]
SHARED_ROUTES = ["10.1.0.0/16", "10.1.2.0/24", "8.8.8.0/24", "fd01::/16"]
NO_ROUTES = [
    "10.0.0.1/8", "10.0.0.0/33", "10/8", "x", "", "10.0.0.0", "::1/64", "10.0.0.0/08", "fd00::/129", "::1.2.3.4/128",
]
ENDPOINTS = ["192.0.2.7:41641", "[2001:DB8::1]:41641", "192.0.2.8:0", "[::ffff:1]:65535", "[1:2:3:4:5:6:7::]:1"]
NO_ENDPOINTS = [
    "192.0.2.7", "192.0.2.7:65536", "2001:db8::1:41641", "", "192.0.2.7:01", "[192.0.2.7]:1", "[::1%x]:1", "1.2.3:1",
]
TAGS = ["tag:web", "tag:Db-1", "tag:a"]
NO_TAGS = ["tag:", "tag:1", "web", "tag:a_b", "tag:" + "a" * 64, "Tag:a"]
OTHER_TYPES = [None, 5, True, [], {}, "x", -1, 1.5]
RECORD_NAMES = ["nas.tail.example", "printer", "a.b.c", "x" * 63 + ".y-1"]
NO_RECORD_NAMES = ["", ".", "nas.", ".nas", "a..b", "Nas", "a_b", "-a", "é", "x" * 64, ".".join(4 * ["z" * 63])]
VALUES = ["192.168.5.9", "0.0.0.0", "2001:DB8:0:0:1::80", "fd7a:115c:a1e0::1", "::"]
NO_VALUES = ["", "192.168.5", "192.168.5.09", "192.168.5.9/32", "2001:db8::1%x", "::1.2.3.4", "nas"]
NO_TYPES = ["A", "AAAA", "MX", "a", " "]
IDS = ["0", "01", "2147483647", "2147483648", "x", "-1", "1x", "99999999999", "+1", "7"]
BODIES = [
    b"", b"[]", b"{", b"null", b'"x"', b'{"a":1}x', b"\xff", b'{"NodeKey":"\xff"}', b'{"name":"a","name":"dup"}', b'{"user":-0}',
]
POLICIES = [
    '{"tagOwners": {"tag:web": ["ann@", "seed@"], "tag:Db-1": ["group:dev"], "tag:a": []}, "groups": {"group:dev": ["ANN@", "bob@example.org"]}}',
    '{"tagOwners": {"tag:web": ["group:all",]}, /* all */ "groups": {"group:all": ["ann@", "seed@", "bob@example.org"]}} // so far',
    '{"tagOwners": {"tag:a": ["seed@"], "tag:web": ["seed@"], "tag:Db-1": ["seed@"]}}', "{}", '{"hosts": {"lab": "192.168.5.0/24"}}',
    '{"tagOwners": {"tag:web": ["seed@"]}, "tests": [{"src": "ann@", "accept": ["tag:web:443", "seed@:22"], "deny": []}]}',
    '{"autoApprovers": {"exitNode": ["ann@", "seed@"], "routes": {"0.0.0.0/0": ["bob@example.org"], "10.0.0.0/8": ["seed@"], "fd00::/8": ["seed@", "ann@"]}}}',
]
# whether these are kept depends on the machines that are live
TESTED = [
    '{"acls": [{"action": "accept", "src": ["seed@"], "dst": ["100.64.0.0/30:22"]}], "tests": [{"src": "seed@", "deny": ["seed@:22", "ann@:22"]}]}',
    '{"acls": [{"action": "accept", "src": ["100.64.0.2"], "dst": ["*:*"]}], "tests": [{"src": "ann@", "proto": "icmp", "deny": ["100.64.0.1:1"]}]}',
    '{"acls": [{"action": "accept", "src": ["*"], "dst": ["autogroup:self:*"]}], "tests": [{"src": "100.64.0.1", "accept": ["seed@:22"]}]}',
    '{"tagOwners": {"tag:web": []}, "acls": [{"action": "accept", "src": ["seed@"], "dst": ["tag:web:80-90"]}], "tests": '
    '[{"src": "seed@", "accept": ["tag:web:80"], "deny": ["tag:web:443"]}, {"src": "100.64.0.1", "deny": ["tag:web:85"]}]}',
    '{"acls": [], "tests": [{"src": "ann@", "deny": ["seed@:22"], "accept": ["ann@:22"]}]}',
    '{"grants": [{"src": ["seed@"], "dst": ["100.64.0.0/30"], "ip": ["22"]}], "tests": [{"src": "seed@", "deny": ["seed@:22", "ann@:22"]}]}',
    '{"grants": [{"src": ["*"], "dst": ["autogroup:self"], "ip": ["tcp:22"]}], "tests": [{"src": "100.64.0.1", "accept": ["seed@:22"]}]}',
]
NO_POLICIES = [
    "", "[,]", "/* open", '{"tagOwners": {"tag:1": []}}', '{"tagOwners": {"tag:a": ["group:x"]}}', '{"tests": [{"src": "*"}]}',
    '{"grants": [{"src": ["*"], "dst": ["*:*"], "ip": ["*"]}]}', '{"grants": [{"src": ["*"], "dst": ["*"], "ip": ["*"], "via": ["tag:a"]}]}', '{"grants": null}',
    '{"grants": [{"users": ["*"], "dst": ["*"], "ip": ["*"]}]}', '{"grants": [{"src": ["*"], "dst": ["*"]}]}', '{"grants": 5, "acls": [{}]}',
    '{"autoApprovers": {"exitNode": ["*"]}}', '{"autoApprovers": {"routes": {"10.0.0.1/8": []}}}', '{"a\\"b": 1}', '{"groups": {"group:a": ["ann"]}}', "null", "\ufeff{}",
]
SOURCES = [
    "*", "ann@", "BOB@example.org", "seed@", "eve@", "group:dev", "group:none", "tag:web", "tag:Db-1", "autogroup:member",
    "autogroup:tagged", "100.64.0.0/10", "100.64.0.1", "100.64.0.2", "[fd7a:115c:a1e0::2]", "fd7a:115c:a1e0::/125", "lab", "one",
    "10.0.0.0/8", "0.0.0.0/0", "::/0",
]
DESTS = SOURCES + ["autogroup:self", "autogroup:self", "autogroup:internet", "10.1.0.0/24", "192.168.0.0/16", "8.8.8.8", "fd00::/16"]
APPROVERS = ["ann@", "seed@", "seed@", "group:dev", "tag:web", "tag:Db-1"]
PORTS = ["*", "*", "22", "80-90,85-100", "443,22", "1-2,3-4,6", "0-65535"]
FLOWS = ["*", "*", "22", "80-90", "tcp:443", "tcp:*", "6:22-80", "udp:53", "132:0-65535", "icmp:*", "58:*", "255:*", "0-65535", "udp:00080"]
NO_FLOWS = ["icmp:80", "tcp:80,81", "foo:80", "tcp", "tcp:1:2", ":80", "*:*", "256:*", "icmp:0-65535", "9-8", "", 80, None]
STRAY = [
    ("GET", "/"), ("GET", "/machine/map"), ("PUT", "/machine/map"), ("POST", "/machine/map/"), ("GET", "/api/v1/node/1"),
    ("POST", "/api/v1/policy"), ("PUT", "/api/v1/node/1/routes"), ("POST", "/api/v1/dns"), ("DELETE", "/api/v1/dns"), ("GET", "/api/v1/dns/"), ("DELETE", "/api/v1/user/"),
    ("PATCH", "/api/v1/user"), ("GET", "/api/v1/user?x=1"), ("post", "/api/v1/sweep"), ("GET", "//api/v1/user"),
    ("GET", "/api/v1/user/"), ("DELETE", "/api/v1/node/0"), ("GET", "/api/v1/node/01"), ("GET", "/api/v1/node/1/"),
]


class Talk:
    """Draws requests for a tailnet, whose rows it looks at."""

    def __init__(self, random, tailnet, settings):
        self.random, self.tailnet, self.settings = random, tailnet, settings
        others = [self.user, self.pre_auth_key, self.waiting, self.extras]
        often = 10 * [self.register] + 5 * [self.map] + 5 * [self.whole_map] + 3 * [self.node] + 3 * [self.routes] + 2 * [self.advertise]
        # every third conversation is about routers and what maps show of them
        routed = 4 * [self.router] + 3 * [self.advertise] + 5 * [self.routes] + 8 * [self.whole_map] + [self.node]
        # how much of the conversation polls take
        polled = self.one_of([0, 1, 5]) * (6 * [self.poll] + 3 * [self.change_node] + 3 * [self.join] + [self.extras])
        self.draws = (routed if self.once_in(3) else often) + 2 * [self.policy] + others + polled

    def once_in(self, times):
        return self.random.randrange(times) == 0

    def one_of(self, *lists):
        return self.random.choice([item for items in lists for item in items])

    def some(self, texts, faulty, most):
        """A list of texts, which once in a while has a fault."""
        if self.once_in(25):
            return self.one_of(OTHER_TYPES, [[faulty[0]], [None], texts[:1] * most, texts[:1] * (most + 1)])
        return [self.one_of(texts, faulty if self.once_in(30) else []) for _ in range(self.random.randrange(4))]

    def text(self, *lists):
        return self.one_of(OTHER_TYPES) if self.once_in(40) else self.one_of(*lists)

    def flag(self):
        return self.one_of(OTHER_TYPES) if self.once_in(30) else self.one_of([True, False])

    def key(self, head, digits):
        if self.once_in(40):
            digits = ["", "0" * 63, "0" * 65, "g" * 64, "0" * 64, " " + "a" * 64]
            return self.one_of([head + text for text in digits], [head.upper() + "a" * 64])
        return head + self.one_of(digits + digits.upper()) * 64

    def time(self):
        if self.once_in(5):
            return self.one_of(TIMES, OTHER_TYPES)
        offset = self.one_of([0, 0, 60, -60, 90, -330, 720])
        moment = self.tailnet.now + self.one_of([-2, -1, 0, 1, 2, 3, 5, 10, 100])
        text = moment_text(max(FIRST_MOMENT, min(LAST_MOMENT, moment + 60 * offset)))[:-1]
        hours, minutes = divmod(abs(offset), 60)
        return text + self.one_of(["", ".25"]) + (f"{'-' if offset < 0 else '+'}{hours:02}:{minutes:02}" if offset else "Z")

    def object(self, **fields):
        """Each field with its odds in a hundred, and a way to draw it."""
        return {name: draw() for name, (odds, draw) in fields.items() if self.random.randrange(100) < odds}

    def inner(self, **fields):
        return self.one_of(OTHER_TYPES) if self.once_in(40) else self.object(**fields)

    def register(self):
        keys = [key.text for key in self.tailnet.keys.values()]
        body = self.object(
            NodeKey=(98, lambda: self.key("nodekey:", "abcdefgh")),
            OldNodeKey=(20, lambda: self.key("nodekey:", "abcdefgh")),
            Auth=(60, lambda: self.inner(AuthKey=(95, lambda: self.text(["k1", "zz", ""], 3 * keys)))),
            Expiry=(30, self.time),
            Ephemeral=(30, self.flag),
            Hostinfo=(60, lambda: self.inner(
                Hostname=(70, lambda: self.text(HOSTS)),
                RoutableIPs=(40, lambda: self.some(ROUTES, NO_ROUTES, 32)),
                RequestTags=(10, lambda: self.some(TAGS, NO_TAGS, 16)),
            )),
            Unread=(10, lambda: self.one_of(OTHER_TYPES)),
        )
        machine = self.key("mkey:", "12345")
        held = self.one_of(self.tailnet.machines.values(), 5 * [None])
        waiting = self.one_of(self.tailnet.pending.values(), 3 * [None])
        if held:
            machine = "mkey:" + held.machine
            body[self.one_of(["NodeKey", "NodeKey", "OldNodeKey"])] = "nodekey:" + held.node
        elif waiting:
            machine = "mkey:" + waiting.machine
            body["NodeKey"] = "nodekey:" + waiting.form["node"]
        if self.once_in(3):
            body.pop("Auth", None)
        return "POST", "/machine/register", machine, body

    def map(self):
        body = self.object(
            Compress=(3, lambda: self.one_of(["", "zstd"], OTHER_TYPES)),
            NodeKey=(98, lambda: self.key("nodekey:", "abcdefgh")),
            Stream=(20, self.flag),
            OmitPeers=(40, self.flag),
            ReadOnly=(40, self.flag),
            MapSessionHandle=(8, lambda: self.text(["x", ""], [session.handle for session in self.tailnet.sessions.values()])),
            MapSessionSeq=(8, lambda: self.one_of([0, 1, 2**64 - 1, 2**64], OTHER_TYPES)),
            Endpoints=(40, lambda: self.some(ENDPOINTS, NO_ENDPOINTS, 32)),
            DiscoKey=(30, lambda: self.key("discokey:", "1234")),
            Hostinfo=(50, lambda: self.inner(
                Hostname=(40, lambda: self.text(HOSTS)),
                NetInfo=(40, lambda: self.inner(
                    PreferredDERP=(80, lambda: self.one_of(3 * [0, 1, 65535], [65536], OTHER_TYPES)),
                )),
                RoutableIPs=(40, lambda: self.some(ROUTES, NO_ROUTES, 32)),
            )),
        )
        machine = self.key("mkey:", "12345")
        held = self.one_of(4 * list(self.tailnet.machines.values()), [None])
        if held:
            machine, body["NodeKey"] = "mkey:" + held.machine, "nodekey:" + held.node
        return "POST", "/machine/map", machine, body

    def whole_map(self):
        """A sound request for a map, once there is a machine."""
        held = self.one_of(self.tailnet.machines.values(), [] if self.tailnet.machines else [None])
        if held is None:
            return self.register()
        return "POST", "/machine/map", "mkey:" + held.machine, {"NodeKey": "nodekey:" + held.node, "ReadOnly": True}

    def join(self):
        """A sound registration of a machine that isn't there, once there is a key."""
        rows = self.tailnet.machines.values()
        machines = [64 * digit for digit in "12345" if self.tailnet.machine_of(64 * digit) is None]
        nodes = [64 * digit for digit in "abcdef" if all(row.node != 64 * digit for row in rows)]
        if not machines or not self.tailnet.keys:
            return self.register()
        body = {
            "NodeKey": "nodekey:" + self.one_of(nodes),
            "Auth": {"AuthKey": self.one_of(self.tailnet.keys.values()).text},
            "Hostinfo": {"Hostname": self.one_of(HOSTS[:5])},
        }
        return "POST", "/machine/register", "mkey:" + self.one_of(machines), body

    def live_machine(self):
        """One of the machines that are live; None if none is."""
        live = [row for row in self.tailnet.machines.values() if self.tailnet.is_live(row)]
        return self.one_of(live or [None])

    def poll(self):
        """A sound poll, once a machine is live. It mostly names what its client was told last."""
        held = self.live_machine()
        if held is None:
            return self.register()
        body = {"NodeKey": "nodekey:" + held.node, "Stream": True}
        session = self.tailnet.sessions.get(held.id)
        told = self.one_of(self.tailnet.sessions.values(), [None]) if self.once_in(6) else session
        if told:
            seq = told.seq if self.once_in(2) else max(0, told.seq + self.one_of([0, 0, 0, 0, 1, -1]))
            body |= {"MapSessionHandle": told.handle, "MapSessionSeq": seq}
        if self.once_in(3):
            body |= {"OmitPeers": True, "Endpoints": ["192.0.2.9:9"], "Hostinfo": {"Hostname": "polls", "RoutableIPs": ["10.0.0.0/8"]}}
        return "POST", "/machine/map", "mkey:" + held.machine, body

    def change_node(self):
        """A sound update of what patches tell, once a machine is live."""
        held = self.live_machine()
        if held is None:
            return self.register()
        body = {"NodeKey": "nodekey:" + held.node, "OmitPeers": True, "Endpoints": self.one_of([held.endpoints, [], ENDPOINTS[:1], ENDPOINTS[1:3]])}
        body |= self.object(
            DiscoKey=(30, lambda: "discokey:" + self.one_of("1234") * 64),
            Hostinfo=(40, lambda: {
                "NetInfo": {"PreferredDERP": self.one_of([0, 1, 65535])}, "RoutableIPs": [str(route) for route in held.routes],
            }),
        )
        return "POST", "/machine/map", "mkey:" + held.machine, body

    def id(self, rows):
        return self.one_of(IDS if self.once_in(10) else [], [str(id) for id in rows], ["1"])

    def user(self):
        logins = [user.login for user in self.tailnet.users.values()]
        path = "/api/v1/user/" + self.one_of(LOGINS, 3 * logins).replace(" ", "+").replace("é", "e")
        return self.one_of([
            ("GET", "/api/v1/user", None, None),
            ("POST", "/api/v1/user", None, {"name": self.text(LOGINS)}),
            ("DELETE", path, None, None),
        ])

    def pre_auth_key(self):
        logins = [user.login for user in self.tailnet.users.values()]
        body = self.object(
            user=(98, lambda: self.text(LOGINS, 6 * logins)),
            reusable=(50, self.flag),
            ephemeral=(40, self.flag),
            expiry=(40, self.time),
            tags=(10, lambda: self.some(TAGS, NO_TAGS, 16)),
        )
        return self.one_of([
            ("GET", "/api/v1/preauthkey", None, None),
            ("POST", "/api/v1/preauthkey", None, body),
            ("POST", "/api/v1/preauthkey", None, body),
            ("DELETE", "/api/v1/preauthkey/" + self.id(self.tailnet.keys), None, None),
        ])

    def offered(self):
        """Routes that a machine advertises, some of which others advertise, too."""
        routes = [self.one_of(ROUTES, 3 * SHARED_ROUTES) for _ in range(self.one_of([1, 2, 3, 4]))]
        return routes + self.one_of([[], [], ["0.0.0.0/0", "::/0"]])

    def router(self):
        """A sound registration of a machine with routes."""
        number = self.one_of([0, 1, 2, 3, 4])
        keys = [key.text for key in self.tailnet.keys.values()]
        body = {
            "NodeKey": "nodekey:" + 64 * "abcde"[number],
            "Auth": {"AuthKey": self.one_of(keys or ["k1"])},
            "Hostinfo": {"RoutableIPs": self.offered()},
        }
        return "POST", "/machine/register", "mkey:" + 64 * "12345"[number], body

    def advertise(self):
        """A sound update with routes, once there is a machine."""
        held = self.one_of(self.tailnet.machines.values(), [] if self.tailnet.machines else [None])
        if held is None:
            return self.register()
        routes = self.offered()
        body = {"NodeKey": "nodekey:" + held.node, "OmitPeers": True, "Hostinfo": {"RoutableIPs": routes}}
        return "POST", "/machine/map", "mkey:" + held.machine, body

    def routes(self):
        """Routes for a machine that advertises some, by a body that is mostly about these."""
        row = self.one_of([row for row in self.tailnet.machines.values() if row.routes] or [None])
        if row is None:
            return self.advertise()
        if self.once_in(8):
            path = "/api/v1/node/" + self.id(self.tailnet.machines)
            return "POST", path + "/routes", None, self.object(routes=(90, lambda: self.some(ROUTES, NO_ROUTES, 32)))
        advertised = [str(route) for route in row.routes]
        given = [route for route in advertised if self.once_in(2)] + [self.one_of(ROUTES) for _ in range(self.one_of([0, 0, 0, 1]))]
        self.random.shuffle(given)
        return "POST", f"/api/v1/node/{row.id}/routes", None, {"routes": given}

    def node(self):
        path = "/api/v1/node/" + self.id(self.tailnet.machines)
        names = [row.name for row in self.tailnet.machines.values()]
        return self.one_of([
            ("GET", "/api/v1/node", None, None),
            ("DELETE", path, None, None),
            ("POST", path + "/expire", None, self.object(expiry=(70, self.time))),
            ("POST", path + "/rename", None, {"name": self.text(NAMES, names)}),
            ("POST", path + "/tags", None, self.object(tags=(95, lambda: self.one_of([[], [], self.some(TAGS, NO_TAGS, 32)])))),
        ])

    def waiting(self):
        texts = [entry.text for entry in self.tailnet.pending.values()]
        logins = [user.login for user in self.tailnet.users.values()]
        body = {"id": self.text(["reg-9-x"], 6 * texts), "user": self.text(LOGINS[:5], 4 * logins)}
        return self.one_of([
            ("GET", "/api/v1/register", None, None),
            ("POST", "/api/v1/register", None, body),
            ("POST", "/api/v1/register", None, body),
            ("POST", "/api/v1/sweep", None, {}),
        ])

    def rule(self):
        proto = self.one_of([None, None, None, "tcp", 17, "icmp", "132", 255])
        ports = PORTS if proto in (None, "tcp", 17, "132") else ["*"]
        return {
            "action": "accept",
            **({} if proto is None else {"proto": proto}),
            "src": [self.one_of(SOURCES) for _ in range(self.one_of([0, 1, 1, 1, 2, 3]))],
            "dst": [f"{self.one_of(DESTS)}:{self.one_of(ports)}" for _ in range(self.one_of([0, 1, 1, 1, 2, 3]))],
        }

    def grant(self):
        return {
            "src": [self.one_of(SOURCES) for _ in range(self.one_of([0, 1, 1, 1, 2, 3]))],
            "dst": [self.one_of(DESTS) for _ in range(self.one_of([0, 1, 1, 1, 2, 3]))],
            "ip": [self.one_of(FLOWS, NO_FLOWS if self.once_in(60) else []) for _ in range(self.one_of([0, 1, 1, 1, 2, 3]))],
        }

    def granting(self):
        """The sections of a policy that say who reaches whom. Half of them have `grants`, and with the fixed policies a third of all saves."""
        acls = {"acls": [self.rule() for _ in range(self.one_of([0, 1, 1, 2, 3, 4]))]}
        grants = {"grants": [self.grant() for _ in range(self.one_of([0, 1, 1, 2, 3]))]}
        return self.one_of([acls, acls, acls, grants, grants, grants | acls])

    def rules(self):
        """A policy with rules."""
        return json.dumps({
            "groups": {"group:dev": ["ann@", "bob@example.org"], "group:none": []},
            "hosts": {"lab": "100.64.0.0/30", "one": "fd7a:115c:a1e0::1"},
            "tagOwners": {"tag:web": ["group:dev", "seed@"], "tag:Db-1": ["seed@"], "tag:a": []},
            **self.granting(),
            **({} if self.once_in(2) else {"autoApprovers": self.auto_approvers()}),
        })

    def approvers(self):
        return [self.one_of(APPROVERS) for _ in range(self.one_of([0, 1, 1, 2]))]

    def auto_approvers(self):
        nets = ["10.0.0.0/8", "10.1.0.0/16", "10.1.2.0/24", "0.0.0.0/0", "::/0", "fd00::/8", "192.168.0.0/16"]
        return {
            "routes": {net: self.approvers() for net in nets if self.once_in(3)},
            "exitNode": self.approvers(),
        }

    def policy(self):
        text = self.one_of(2 * POLICIES + TESTED, NO_POLICIES) if self.once_in(2) else self.rules()
        return self.one_of([
            ("GET", "/api/v1/policy", None, None),
            ("PUT", "/api/v1/policy", None, text.encode()),
            ("PUT", "/api/v1/policy", None, text.encode()),
        ])

    def record(self):
        """An extra record, mostly a sound one."""
        if self.once_in(80):
            return self.one_of(OTHER_TYPES)
        value = self.text(20 * VALUES, NO_VALUES)
        fitting = "AAAA" if isinstance(value, str) and ":" in value else "A"
        return self.object(
            Name=(98, lambda: self.text(40 * RECORD_NAMES, NO_RECORD_NAMES)),
            Type=(50, lambda: self.text(40 * [fitting], 5 * [""], NO_TYPES)),
            Value=(98, lambda: value),
            TTL=(5, lambda: 60),
        )

    def extras(self):
        """The extra records are shown, or others put in their place; and sometimes there are too many."""
        if self.once_in(3):
            return "GET", "/api/v1/dns", None, None
        records = [self.record() for _ in range(self.one_of([0, 1, 1, 2, 2, 3]))]
        if self.once_in(15):
            records = self.one_of(BODIES, [self.one_of([256, 257]) * [{"Name": "nas", "Value": "192.168.5.9"}]])
        return "PUT", "/api/v1/dns", None, records

    def stray(self):
        method, path = self.one_of(STRAY)
        return method, path, self.key("mkey:", "12345"), {} if method in ("POST", "PUT") else None

    def token(self):
        token = self.settings["token"]
        if self.once_in(50):
            return self.one_of(["Bearer x", "bearer " + token, "", "Bearer  " + token, token, f"Bearer {token}x"])
        return "Bearer " + token

    def field(self, name, value):
        """A field line, whose name is compared without regard to case."""
        name = self.one_of([name, name, name, name.lower(), name.upper()])
        return name, self.one_of([" ", " ", "", "\t "]) + value + self.one_of(["", "", " \t"])

    def length_fields(self, method, body):
        """None where they may be left out; and once in a while some that break a rule."""
        if method not in ("POST", "PUT") and not body and self.once_in(2):
            return []
        length = str(len(body))
        if self.once_in(60):
            faulty = ["1048577", "9999999999", "1" * 11, "", "+1", "1 1"]
            texts = self.one_of([[], [length, "0" + length], [length, length + "0"]], [[text] for text in faulty])
            return [self.field("Content-Length", text) for text in texts]
        return [self.field("Content-Length", length) for _ in range(2 if self.once_in(20) else 1)]

    def stray_fields(self):
        """Field lines that mostly say nothing."""
        if self.once_in(60):
            count = self.one_of([58, 59, 60, 61, 62, 63, 64, 65])
            return [self.field("X-Line", str(number)) for number in range(count)]
        if self.once_in(80):
            return [self.field("X-Long", "a" * self.one_of(range(15900, 16384)))]
        names = self.one_of([[], [], ["Host"], ["Transfer-Encoding"]]) if self.once_in(25) else ["X-Empty", "Accept"]
        return [self.field(name, self.one_of(["", "chunked", "é"])) for name in names]

    def fields(self, method, machine, body):
        fields = self.length_fields(method, body) + self.stray_fields()
        fields += [] if self.once_in(150) else [self.field("Host", self.one_of(["tail", "", "a b"]))]
        fields += [] if self.once_in(100) else [self.field("Authorization", self.token())]
        fields += [] if machine is None or self.once_in(100) else [self.field("Ts-Machine-Key", machine)]
        fields += [self.field("Ts-Machine-Key", "x")] if self.once_in(100) else []
        if self.once_in(50):
            fields.append(self.field("Connection", self.one_of(["close", "Close", "close, x", "keep-alive"])))
        return fields

    def request(self):
        draw = self.stray if self.once_in(40) else self.random.choice(self.draws)
        method, path, machine, body = draw()
        body = b"" if body is None else body if isinstance(body, bytes) else json.dumps(body, ensure_ascii=self.once_in(2)).encode()
        if self.once_in(80) and method == "POST":
            body = self.one_of(BODIES, [body + b" "])
        return {
            "method": method,
            "path": path,
            "version": self.one_of(["HTTP/1.0", "HTTP/1.2", "HTTP/2.0", "http/1.1"]) if self.once_in(100) else "HTTP/1.1",
            "fields": self.fields(method, machine, body),
            "body": body,
        }
