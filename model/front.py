"""What a request asks, in the order of docs/PROTOCOL.md, and the body of its answer."""

import json
import re

from bodies import (
    BodyFault,
    Fields,
    object_of,
    read_admit_form,
    read_extras_form,
    read_key_form,
    read_map_request,
    read_register,
    read_routes_form,
    read_tags_form,
)
from granting import NoPolicy
from grants import Grants
from heads import HeadFault, frame_of, refuse_head, values_of
from policies import PolicyFault
from routes import approved, exits_of
from sessions import drain
from tailnet import Refusal
from texts import ZERO_KEY, key_of, moment_text

STATUSES = {
    "NoPath": 404,
    "BadMethod": 405,
    "BadToken": 401,
    "KeyExpired": 401,
    "KeyUsed": 401,
    "NotLive": 401,
    "TagNotOwned": 403,
    "TagUndefined": 403,
    "UnknownUser": 404,
    "PendingUnknown": 404,
    "NameTaken": 409,
    "BadName": 409,
    "NodeKeyTaken": 409,
    "RouteNotAdvertised": 409,
    "RouteOverlaps": 409,
    "UserHasMachines": 409,
    "EntropyFault": 500,
    "Full": 507,
    "AddressesSpent": 507,
}

# whose machines in maps the tagged ones are
TAGGED = 2147483647

ROUTES = [
    ("/machine/register", {"POST": "register"}),
    ("/machine/map", {"POST": "map"}),
    ("/api/v1/user", {"GET": "users", "POST": "add_user"}),
    ("/api/v1/user/{login}", {"DELETE": "drop_user"}),
    ("/api/v1/preauthkey", {"GET": "keys", "POST": "add_key"}),
    ("/api/v1/preauthkey/{id}", {"DELETE": "expire_key"}),
    ("/api/v1/node", {"GET": "nodes"}),
    ("/api/v1/node/{id}", {"DELETE": "drop_node"}),
    ("/api/v1/node/{id}/expire", {"POST": "expire_node"}),
    ("/api/v1/node/{id}/rename", {"POST": "rename"}),
    ("/api/v1/node/{id}/tags", {"POST": "set_tags"}),
    ("/api/v1/node/{id}/routes", {"POST": "set_routes"}),
    ("/api/v1/register", {"GET": "waiting", "POST": "admit"}),
    ("/api/v1/policy", {"GET": "policy", "PUT": "save_policy"}),
    ("/api/v1/dns", {"GET": "extras", "PUT": "set_extras"}),
    ("/api/v1/sweep", {"POST": "sweep"}),
]
SEGMENTS = {"{login}": "(?P<login>[^/]+)", "{id}": "(?P<id>[1-9][0-9]{0,9})"}


def pattern_of(path):
    return re.compile("/".join(SEGMENTS.get(segment, segment) for segment in path.split("/")))


PATTERNS = [(pattern_of(path), methods) for path, methods in ROUTES]


def route(path):
    """The methods of a path, and the login or the id in it."""
    for pattern, methods in PATTERNS:
        match = pattern.fullmatch(path)
        if match:
            found = match.groupdict()
            if int(found.get("id") or 1) <= 2147483647:
                return methods, int(found["id"]) if "id" in found else found.get("login")
    raise Refusal("NoPath")


def text_of(value):
    """JSON with its keys in byte order and without spaces."""
    return json.dumps(value, sort_keys=True, separators=(",", ":"), ensure_ascii=False).encode()


class Front:
    """Answers requests from a tailnet. The clock and the words answer when they are called."""

    def __init__(self, tailnet, settings, clock, words):
        self.tailnet, self.settings, self.clock, self.words = tailnet, settings, clock, words

    def answer(self, request):
        """The status and the body of the answer to a request; of a poll, its frames."""
        try:
            refuse_head(request)
            body = self.act(request)
            return 200, body if isinstance(body, (bytes, list)) else text_of(body)
        except HeadFault as fault:
            return fault.status, json.dumps(fault.answer, separators=(",", ":")).encode()
        except BodyFault as fault:
            return 400, json.dumps(fault.answer, separators=(",", ":")).encode()
        except PolicyFault as fault:
            return 422, text_of(fault.answer)
        except Refusal as refusal:
            # (a key or a machine that nobody knows: of the machine that asks, or of an operator's path)
            status = STATUSES.get(refusal.error) or (401 if request["path"].startswith("/machine/") else 404)
            return status, json.dumps(refusal.answer, separators=(",", ":")).encode()

    def act(self, request):
        methods, segment = route(request["path"].split("?")[0])
        if request["method"] not in methods:
            raise Refusal("BadMethod")
        act = getattr(self, methods[request["method"]])
        if request["path"].startswith("/machine/"):
            return act(self.machine_key(values_of(request, "ts-machine-key")[:1]), request["body"])
        if values_of(request, "authorization")[:1] != ["Bearer " + self.settings["token"]]:
            raise Refusal("BadToken")
        return act(segment, request["body"])

    def machine_key(self, texts):
        if not texts:
            raise BodyFault("Missing", "Ts-Machine-Key")
        key = key_of("mkey:", texts[0])
        if key in (None, ZERO_KEY):
            raise BodyFault("BadField", "Ts-Machine-Key")
        return key

    def at_once(self):
        """The tailnet at the time of an ask."""
        self.tailnet.come_to(self.clock())
        return self.tailnet

    # Machines

    def register(self, machine, body):
        form = read_register(body)
        words = None if form["auth"] else self.words()
        answer = self.at_once().register(machine, form, words)
        if isinstance(answer, str):
            return self.registration(self.settings["server_url"] + "/register/" + answer, False, False, 0, "")
        user, has_expired = answer
        return self.registration("", True, has_expired, user.id, user.login)

    def registration(self, url, is_authorized, has_expired, user, login):
        return {
            "AuthURL": url,
            "Error": "",
            "Login": {"ID": user, "LoginName": login},
            "MachineAuthorized": is_authorized,
            "NodeKeyExpired": has_expired,
            "User": {"DisplayName": login.partition("@")[0], "ID": user},
        }

    def map(self, machine, body):
        form = read_map_request(body)
        if form["is_poll"]:
            return self.poll(machine, form)
        row = self.at_once().asking(machine, form["node"])
        if not form["reads_only"]:
            self.tailnet.update(row, form)
        if form["omits_peers"] and not form["reads_only"]:
            return b""
        return frame_of(text_of(self.whole_map(row)))

    def poll(self, machine, form):
        """The frames of a poll that doesn't wait. It updates nothing."""
        words = self.words()
        session, goes_on = self.at_once().attach(machine, form, words)
        greeting = [{"MapSessionHandle": session.handle}] if goes_on else []
        responses = greeting + self.drain(machine, session.handle)
        self.at_once().detach(machine, session.handle)
        return [frame_of(text_of(response)) for response in responses]

    def drain(self, machine, handle):
        row, session = self.at_once().drained(machine, handle)
        return drain(session, self.whole_map(row)) if session else []

    def resolvers(self, addresses):
        return [{"Addr": address} for address in addresses]

    def whole_map(self, row):
        """What the policy in force lets the machine see, and whom it lets in."""
        tailnet = self.tailnet
        live = [other for other in tailnet.machines.values() if tailnet.is_live(other)]
        grants = Grants(tailnet.policy, live, lambda other: tailnet.users[other.user].login)
        peers = [other for other in live if grants.sees(row, other)]
        routes = self.settings.get("dns.routes", {})
        whole = {
            "DNSConfig": {
                "Domains": self.settings.get("dns.search", [self.settings["base_domain"]]),
                "ExtraRecords": tailnet.extras,
                "Proxied": self.settings.get("dns.magic", True),
                "Resolvers": self.resolvers(self.settings.get("dns.resolvers", [])),
                "Routes": {domain: self.resolvers(routes[domain]) for domain in sorted(routes)},
            },
            "Domain": self.settings["base_domain"],
            "Node": self.node(row, grants.own_routes(row)),
            "PacketFilter": grants.filter_of(row),
            "UserProfiles": [self.profile(user) for user in sorted({self.owner(other) for other in [row, *peers]})],
        }
        if not peers:
            return whole
        return {**whole, "Peers": [self.node(peer, grants.shown_routes(row, peer, peers)) for peer in peers]}

    def node(self, row, routes):
        addresses = [f"{row.v4}/32", f"{row.v6}/128"]
        return {
            "Addresses": addresses,
            "AllowedIPs": addresses + [str(route) for route in routes],
            "Created": moment_text(row.created),
            "DiscoKey": "discokey:" + row.disco,
            "Endpoints": row.endpoints,
            "HomeDERP": row.derp,
            "Hostinfo": {"Hostname": row.host},
            "ID": row.id,
            "Key": "nodekey:" + row.node,
            "KeyExpiry": moment_text(row.expiry),
            "Machine": "mkey:" + row.machine,
            "MachineAuthorized": True,
            "Name": f"{row.name}.{self.settings['base_domain']}.",
            "Online": row.online,
            "StableID": f"n{row.id}",
            "Tags": row.tags,
            "User": self.owner(row),
        }

    def owner(self, row):
        """In maps a tagged machine isn't its user's."""
        return TAGGED if row.tags else row.user

    def profile(self, user):
        if user == TAGGED:
            return {"DisplayName": "Tagged Devices", "ID": TAGGED, "LoginName": "tagged-devices"}
        login = self.tailnet.users[user].login
        return {"DisplayName": login.partition("@")[0], "ID": user, "LoginName": login}

    # Operators

    def users(self, _, body):
        return {"users": [vars(user) for user in self.at_once().users.values()]}

    def add_user(self, _, body):
        name = Fields(object_of(body)).text("name")
        return vars(self.at_once().add_user(name))

    def drop_user(self, login, body):
        self.at_once().drop_user(login)
        return {}

    def key_line(self, key):
        return {
            "ephemeral": key.ephemeral,
            "expiry": moment_text(key.expiry),
            "id": key.id,
            "key": key.text,
            "reusable": key.reusable,
            "tags": key.tags,
            "used": key.used,
            "user": self.tailnet.users[key.user].login,
        }

    def keys(self, _, body):
        return {"keys": [self.key_line(key) for key in self.at_once().keys.values()]}

    def add_key(self, _, body):
        form = read_key_form(body)
        words = self.words()
        return self.key_line(self.at_once().add_key(form, words))

    def expire_key(self, id, body):
        self.at_once().expire_key(id)
        return {}

    def node_line(self, row):
        policy, login = self.tailnet.policy or NoPolicy(), self.tailnet.users[row.user].login
        served = approved(policy, row, login) + exits_of(policy, row, login)
        return {
            "addresses": [str(row.v4), str(row.v6)],
            "advertised": [str(route) for route in row.routes],
            "approved": [str(route) for route in row.approved],
            "expiry": moment_text(row.expiry),
            "id": row.id,
            "live": self.tailnet.is_live(row),
            "name": row.name,
            "online": row.online,
            "served": [str(route) for route in served],
            "tags": row.tags,
            "user": login,
        }

    def nodes(self, _, body):
        return {"nodes": [self.node_line(row) for row in self.at_once().machines.values()]}

    def drop_node(self, id, body):
        self.at_once().drop_node(id)
        return {}

    def expire_node(self, id, body):
        expiry = Fields(object_of(body)).time("expiry")
        return self.node_line(self.at_once().expire_node(id, expiry))

    def rename(self, id, body):
        name = Fields(object_of(body)).text("name")
        return self.node_line(self.at_once().rename(id, name))

    def set_tags(self, id, body):
        tags = read_tags_form(body)
        return self.node_line(self.at_once().set_tags(id, tags))

    def set_routes(self, id, body):
        routes = read_routes_form(body)
        return self.node_line(self.at_once().set_routes(id, routes))

    def waiting(self, _, body):
        return {
            "pending": [
                {
                    "host": entry.form["host"],
                    "id": entry.text,
                    "machine": "mkey:" + entry.machine,
                    "node": "nodekey:" + entry.form["node"],
                }
                for entry in self.at_once().pending.values()
            ]
        }

    def admit(self, _, body):
        form = read_admit_form(body)
        return self.node_line(self.at_once().admit(form["text"], form["login"]))

    def policy(self, _, body):
        return self.at_once().policy_text or b"{}"

    def save_policy(self, _, body):
        try:
            body.decode("utf-8")
        except ValueError:
            raise BodyFault("NotJson") from None
        self.at_once().save_policy(body)
        return {}

    def extras(self, _, body):
        return text_of(self.at_once().extras)

    def set_extras(self, _, body):
        extras = read_extras_form(body)
        self.at_once().set_extras(extras)
        return text_of(extras)

    def sweep(self, _, body):
        object_of(body)
        machines, pending = self.at_once().sweep()
        return {"machines": machines, "pending": pending}
