"""The limits of docs/PROTOCOL.md, docs/POLICY.md and docs/OPERATING.md: what stands at each of them and one past it."""

import json

from strange import MACHINE, NODE, OPERATOR, OTHER, PREPARED, of_machine, request

TAGS = ["tag:" + "a" * 63, "tag:b"]


def piece(head_and_body):
    return b"".join(head_and_body)


def asked(line, form, caller=OPERATOR):
    return piece(request(line, caller, form if isinstance(form, str) else json.dumps(form)))


def saved(policy):
    return asked("PUT /api/v1/policy", policy)


def bad(field):
    return 400, f'{{"error":"BadField","field":"{field}"}}'


def full(kind):
    return 507, f'{{"error":"Full","what":"{kind}"}}'


def fault(code, place):
    return 422, f'{{"code":"P{code}","place":"{place}"}}'


def networks(count):
    return [f"10.{at}.0.0/16" for at in range(count)]


def nested(depth):
    return "[" * depth + "]" * depth


def padded(text, length):
    return text + " " * (length - len(text))


# Bodies. Each row: the limit's name, what a number makes of it, the limit, and what is answered one past it. At it 200 is.

KNOWN = [*map(piece, PREPARED), saved({"tagOwners": {tag: ["seed@"] for tag in TAGS}})]
ROUTED = [piece(of_machine("/machine/map", json.dumps({"NodeKey": NODE, "OmitPeers": True, "Hostinfo": {"RoutableIPs": networks(32)}})))]


def registered(**more):
    return [piece(of_machine("/machine/register", json.dumps({"Auth": {"AuthKey": "k1"}, "NodeKey": NODE, **more})))]


def mapped(**more):
    return [piece(of_machine("/machine/map", json.dumps({"NodeKey": NODE, "OmitPeers": True, **more})))]


def operated(line, **form):
    return [asked(line, form)]


def records(names):
    return [asked("PUT /api/v1/dns", [{"Name": name, "Value": "192.0.2.1"} for name in names])]


def domain(length):
    """Labels joined by dots; 63 bytes and a dot are a label's at most."""
    return ".".join(["a" * 63] * (length // 64) + ["b" * (length % 64)])


BODIES = [
    ("register NodeKey, digits", lambda n: registered(NodeKey="nodekey:" + "d" * n), 64, bad("NodeKey")),
    ("register OldNodeKey, digits", lambda n: registered(OldNodeKey="nodekey:" + "d" * n), 64, bad("OldNodeKey")),
    ("register Expiry, year", lambda n: registered(Expiry=f"{n:04}-12-31T23:59:59Z"), 9999, bad("Expiry")),
    ("register Hostname, bytes", lambda n: registered(Hostinfo={"Hostname": "x" * n}), 255, bad("Hostname")),
    ("register Hostname, bytes of two each", lambda n: registered(Hostinfo={"Hostname": "\u00e9" * (n // 2) + "x" * (n % 2)}), 255, bad("Hostname")),
    ("register RoutableIPs", lambda n: registered(Hostinfo={"RoutableIPs": networks(n)}), 32, bad("RoutableIPs")),
    ("register RoutableIPs, length of IPv4", lambda n: registered(Hostinfo={"RoutableIPs": [f"0.0.0.0/{n}"]}), 32, bad("RoutableIPs")),
    ("register RoutableIPs, length of IPv6", lambda n: registered(Hostinfo={"RoutableIPs": [f"::/{n}"]}), 128, bad("RoutableIPs")),
    ("register RequestTags", lambda n: registered(NodeKey="nodekey:" + "e" * 64, Hostinfo={"RequestTags": ["tag:b"] * n}), 16, bad("RequestTags")),
    ("register RequestTags, bytes behind tag:", lambda n: registered(NodeKey="nodekey:" + "e" * 64, Hostinfo={"RequestTags": ["tag:" + "a" * n]}), 63, bad("RequestTags")),
    ("map NodeKey, digits", lambda n: mapped(NodeKey="nodekey:" + "a" * n), 64, bad("NodeKey")),
    ("map MapSessionSeq", lambda n: mapped(Stream=True, MapSessionSeq=n), 2**64 - 1, bad("MapSessionSeq")),
    ("map Endpoints", lambda n: mapped(Endpoints=["192.0.2.1:1"] * n), 32, bad("Endpoints")),
    ("map Endpoints, port of IPv4", lambda n: mapped(Endpoints=[f"192.0.2.1:{n}"]), 65535, bad("Endpoints")),
    ("map Endpoints, port of IPv6", lambda n: mapped(Endpoints=[f"[::1]:{n}"]), 65535, bad("Endpoints")),
    ("map DiscoKey, digits", lambda n: mapped(DiscoKey="discokey:" + "d" * n), 64, bad("DiscoKey")),
    ("map Hostname, bytes", lambda n: mapped(Hostinfo={"Hostname": "x" * n}), 255, bad("Hostname")),
    ("map PreferredDERP", lambda n: mapped(Hostinfo={"NetInfo": {"PreferredDERP": n}}), 65535, bad("PreferredDERP")),
    ("map RoutableIPs", lambda n: mapped(Hostinfo={"RoutableIPs": networks(n)}), 32, bad("RoutableIPs")),
    ("user name, bytes before @", lambda n: operated("POST /api/v1/user", name="u" * n + "@"), 63, (409, '{"error":"BadName"}')),
    ("user name, bytes behind @", lambda n: operated("POST /api/v1/user", name="u@" + "d" * n), 63, (409, '{"error":"BadName"}')),
    ("key tags", lambda n: operated("POST /api/v1/preauthkey", user="seed@", tags=["tag:b"] * n), 16, bad("tags")),
    ("key tags, bytes behind tag:", lambda n: operated("POST /api/v1/preauthkey", user="seed@", tags=["tag:" + "a" * n]), 63, bad("tags")),
    ("key expiry, year", lambda n: operated("POST /api/v1/preauthkey", user="seed@", expiry=f"{n:04}-12-31T23:59:59Z"), 9999, bad("expiry")),
    ("expire expiry, year", lambda n: operated("POST /api/v1/node/1/expire", expiry=f"{n:04}-12-31T23:59:59Z"), 9999, bad("expiry")),
    ("rename name, bytes", lambda n: operated("POST /api/v1/node/1/rename", name="n" * n), 63, (409, '{"error":"BadName"}')),
    ("tags", lambda n: operated("POST /api/v1/node/1/tags", tags=["tag:b"] * n), 32, bad("tags")),
    ("tags, bytes behind tag:", lambda n: operated("POST /api/v1/node/1/tags", tags=["tag:" + "a" * n]), 63, bad("tags")),
    ("routes", lambda n: ROUTED + operated("POST /api/v1/node/1/routes", routes=networks(n)), 32, bad("routes")),
    ("records", lambda n: records(["a.b"] * n), 256, bad("Name")),
    ("record Name, bytes", lambda n: records([domain(n)]), 253, bad("Name")),
    ("record Name, bytes of a label", lambda n: records(["a" * n]), 63, bad("Name")),
    ("depth of a body", lambda n: [asked("POST /api/v1/sweep", f'{{"a":{nested(n - 1)}}}')], 127, (400, '{"error":"NotJson"}')),
    ("digits of a number", lambda n: [asked("POST /api/v1/sweep", f'{{"a":{"9" * n}}}')], 308, (400, '{"error":"NotJson"}')),
]

# Heads, and the lengths that they state.


def head_of(length):
    start, end = "GET /api/v1/user HTTP/1.1\r\nHost: tail\r\nAuthorization: Bearer secret\r\nX: ", "\r\n\r\n"
    return [(start + "x" * (length - len(start) - len(end)) + end).encode()]


def lines_of(count):
    return [("GET /api/v1/user HTTP/1.1\r\nHost: tail\r\nAuthorization: Bearer secret\r\n" + "X:\r\n" * (count - 2) + "\r\n").encode()]


def digits_of(count):
    return [f"POST /api/v1/sweep HTTP/1.1\r\nHost: tail\r\n{OPERATOR}\r\nContent-Length: {2:0{count}}\r\n\r\n{{}}".encode()]


HEADS = [
    ("head, bytes", head_of, 16384, (431, '{"error":"HeadTooLong"}')),
    ("head, field lines", lines_of, 64, (431, '{"error":"HeadTooLong"}')),
    ("Content-Length, digits", digits_of, 10, (400, '{"error":"BadHead"}')),
    ("body, bytes", lambda n: [asked("POST /api/v1/sweep", padded("{}", n))], 1048576, (413, '{"error":"BodyTooLong"}')),
]

# Rows. The seed is a user and a key; a path's id is known up to its limit, though no row has it.


def machines(count, key):
    forms = [{"Auth": {"AuthKey": key}, "NodeKey": f"nodekey:{at:064x}", "Hostinfo": {"Hostname": f"h{at}"}} for at in range(1, count + 1)]
    return [piece(of_machine("/machine/register", json.dumps(form), f"mkey:{at:064x}")) for at, form in enumerate(forms, 1)]


ROWS = [
    ("users", lambda n: [asked("POST /api/v1/user", {"name": f"u{at}"}) for at in range(n - 1)], 256, full("User")),
    ("keys", lambda n: [asked("POST /api/v1/preauthkey", {"user": "seed@"})] * (n - 1), 1024, full("Key")),
    ("waiting machines", lambda n: machines(n, ""), 256, full("Pending")),
    ("machines", lambda n: machines(n, "k1"), 1024, full("Machine")),
]

# Policies.


def listed(path, texts):
    """A policy whose list at a path of keys has so many elements of a text."""
    rule = {"action": "accept", "src": ["*"], "dst": ["*:*"]}
    grant = {"src": ["*"], "dst": ["*"], "ip": ["*"]}
    test = {"src": "seed@"}
    return {
        "member": lambda n: {"groups": {"group:a": [texts] * n}},
        "owner": lambda n: {"tagOwners": {"tag:a": [texts] * n}},
        "rule": lambda n: {"acls": [{**rule, path: [texts] * n}]},
        "grant": lambda n: {"grants": [{**grant, path: [texts] * n}]},
        "exit": lambda n: {"autoApprovers": {"exitNode": [texts] * n}},
        "route": lambda n: {"autoApprovers": {"routes": {"10.0.0.0/8": [texts] * n}}},
        "test": lambda n: {"acls": [rule], "tests": [{**test, path: [texts] * n}]},
    }


def flows(count):
    """Grants with so many elements of `ip` in all."""
    counts = [min(256, count - at) for at in range(0, count, 256)]
    return {"grants": [{"src": ["*"], "dst": ["*"], "ip": ["*"] * each} for each in counts]}


def ruled(**more):
    return {"acls": [{"action": "accept", "src": ["*"], "dst": ["*:*"], **more}]}


def names(head, count):
    return [f"{head}{at}" for at in range(count)]


POLICIES = [
    ("policy, bytes", lambda n: padded('{"acls":[]}', n), 262144, fault(19, "text")),
    ("policy, depth", lambda n: f'{{"ssh":{nested(n - 1)}}}', 127, fault(1, "json")),
    ("policy, digits of a number", lambda n: f'{{"ssh":{"9" * n}}}', 308, fault(1, "json")),
    ("acls", lambda n: {"acls": ruled()["acls"] * n}, 512, fault(19, "acls")),
    ("elements of ip in all", flows, 512, fault(19, "grants[2].ip")),
    ("hosts", lambda n: {"hosts": {name: "192.0.2.1" for name in names("h", n)}}, 512, fault(19, "hosts")),
    ("groups", lambda n: {"groups": {name: [] for name in names("group:g", n)}}, 256, fault(19, "groups")),
    ("tagOwners", lambda n: {"tagOwners": {name: [] for name in names("tag:t", n)}}, 256, fault(19, "tagOwners")),
    ("grants", lambda n: {"grants": [{"src": ["*"], "dst": ["*"], "ip": ["*"]}] * n}, 256, fault(19, "grants")),
    ("routes of autoApprovers", lambda n: {"autoApprovers": {"routes": {name: [] for name in networks(n)}} if n <= 256 else {"routes": {name: [] for name in [*networks(256), "11.0.0.0/8"]}}}, 256, fault(19, "autoApprovers.routes")),
    ("tests", lambda n: {"acls": [], "tests": [{"src": "seed@"}] * n}, 256, fault(19, "tests")),
    ("members of a group", listed("", "seed@")["member"], 256, fault(19, "groups.group:a")),
    ("owners of a tag", listed("", "seed@")["owner"], 256, fault(19, "tagOwners.tag:a")),
    ("sources of a rule", listed("src", "*")["rule"], 256, fault(19, "acls[0].src")),
    ("destinations of a rule", listed("dst", "*:*")["rule"], 256, fault(19, "acls[0].dst")),
    ("sources of a grant", listed("src", "*")["grant"], 256, fault(19, "grants[0].src")),
    ("destinations of a grant", listed("dst", "*")["grant"], 256, fault(19, "grants[0].dst")),
    ("ip of a grant", listed("ip", "*")["grant"], 256, fault(19, "grants[0].ip")),
    ("approvers of exit nodes", listed("", "seed@")["exit"], 256, fault(19, "autoApprovers.exitNode")),
    ("approvers of a route", listed("", "seed@")["route"], 256, fault(19, "autoApprovers.routes.10.0.0.0/8")),
    ("accepts of a test", listed("accept", "seed@:22")["test"], 256, fault(19, "tests[0].accept")),
    ("denials of a test", lambda n: {"acls": [], "tests": [{"src": "seed@", "deny": ["seed@:22"] * n}]}, 256, fault(19, "tests[0].deny")),
    ("pieces of ports", lambda n: ruled(dst=["*:" + ",".join(["1"] * n)]), 64, fault(19, "acls[0].dst[0]")),
    ("port", lambda n: ruled(dst=[f"*:{n}"]), 65535, fault(16, "acls[0].dst[0]")),
    ("port of a grant", lambda n: {"grants": [{"src": ["*"], "dst": ["*"], "ip": [str(n)]}]}, 65535, fault(16, "grants[0].ip[0]")),
    ("port of a test", lambda n: {"acls": [], "tests": [{"src": "seed@", "deny": [f"seed@:{n}"]}]}, 65535, fault(20, "tests[0].deny[0]")),
    ("proto", lambda n: ruled(proto=n), 255, fault(10, "acls[0].proto")),
    ("proto as a text", lambda n: ruled(proto=str(n)), 255, fault(10, "acls[0].proto")),
    ("proto of a grant", lambda n: {"grants": [{"src": ["*"], "dst": ["*"], "ip": [f"{n}:*"]}]}, 255, fault(10, "grants[0].ip[0]")),
    ("proto of a test", lambda n: {"acls": [], "tests": [{"src": "seed@", "proto": n}]}, 255, fault(10, "tests[0].proto")),
    ("name of a group, bytes", lambda n: {"groups": {"group:" + "g" * n: []}}, 63, fault(6, "groups.group:" + "g" * 64)),
    ("member, bytes before @", lambda n: {"groups": {"group:a": ["u" * n + "@"]}}, 63, fault(6, "groups.group:a[0]")),
    ("member, bytes behind @", lambda n: {"groups": {"group:a": ["u@" + "d" * n]}}, 63, fault(6, "groups.group:a[0]")),
    ("name of a host, bytes", lambda n: {"hosts": {"h" * n: "192.0.2.1"}}, 63, fault(7, "hosts." + "h" * 64)),
    ("host, length of IPv4", lambda n: {"hosts": {"h": f"0.0.0.0/{n}"}}, 32, fault(7, "hosts.h")),
    ("host, length of IPv6", lambda n: {"hosts": {"h": f"::/{n}"}}, 128, fault(7, "hosts.h")),
    ("name of a tag, bytes behind tag:", lambda n: {"tagOwners": {"tag:" + "t" * n: []}}, 63, fault(8, "tagOwners.tag:" + "t" * 64)),
    ("owner, bytes before @", lambda n: {"tagOwners": {"tag:a": ["u" * n + "@"]}}, 63, fault(8, "tagOwners.tag:a[0]")),
    ("selector, bytes before @", lambda n: ruled(src=["u" * n + "@"]), 63, fault(11, "acls[0].src[0]")),
    ("selector, length of IPv4", lambda n: ruled(src=[f"0.0.0.0/{n}"]), 32, fault(11, "acls[0].src[0]")),
    ("route of autoApprovers, length of IPv4", lambda n: {"autoApprovers": {"routes": {f"0.0.0.0/{n}": []}}}, 32, fault(18, "autoApprovers.routes.0.0.0.0/33")),
]


def limit_cases():
    """Each case: its name, the pieces of a connection, and the status and the beginning of the body of its last answer."""
    unknown, none = (404, '{"error":"UnknownMachine"}'), (404, '{"error":"NoPath"}')
    rows = [(name, lambda n, make=make: KNOWN + make(n), most, (200, ""), past) for name, make, most, past in BODIES]
    rows += [(name, make, most, (200, ""), past) for name, make, most, past in HEADS + ROWS]
    rows += [(name, lambda n, make=make: [saved(make(n))], most, (200, "{}"), past) for name, make, most, past in POLICIES]
    rows.append(("id in a path", lambda n: [asked(f"DELETE /api/v1/node/{n}", "")], 2147483647, unknown, none))
    return [case for name, make, most, at, past in rows for case in ((f"{name}: {most}", make(most), at), (f"{name}: {most + 1}", make(most + 1), past))]
