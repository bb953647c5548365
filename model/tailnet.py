"""The Tailnet machine: its rows, and what each ask results in by the rules of docs/PROTOCOL.md."""

import ipaddress
from dataclasses import dataclass, field

from granting import first_failure
from policies import PolicyFault, read_policy
from routes import EXITS, TAILNETS, has_both_exits, meet
from sessions import NUMBER_LIMIT, Session
from texts import LAST_MOMENT, ZERO_KEY, clamped, is_label, label_of_host, login_of, numbered

COUNTER_LIMIT = 2147483647
LIMITS = {"User": 256, "Key": 1024, "Pending": 256, "Machine": 1024}
RESERVED_V4 = [ipaddress.ip_network("100.100.100.100/32"), ipaddress.ip_network("100.115.92.0/23")]
RESERVED_V6 = [ipaddress.ip_network("fd7a:115c:a1e0::53/128")]


class Refusal(Exception):
    """An ask is refused, and changes the time alone."""

    def __init__(self, error, **more):
        super().__init__(error)
        self.error = error
        self.answer = {"error": error, **more}


@dataclass
class User:
    id: int
    login: str


@dataclass
class Key:
    id: int
    text: str
    user: int
    reusable: bool
    ephemeral: bool
    expiry: int | None
    used: bool = False
    tags: list = field(default_factory=list)


@dataclass
class Pending:
    id: int
    text: str
    machine: str
    made: int
    form: dict


@dataclass
class Machine:
    id: int
    name: str
    v4: ipaddress.IPv4Address
    v6: ipaddress.IPv6Address
    created: int
    machine: str
    offline_since: int
    node: str = ""
    user: int = 0
    host: str = ""
    routes: list = field(default_factory=list)
    approved: list = field(default_factory=list)
    tags: list = field(default_factory=list)
    ephemeral: bool = False
    expiry: int | None = None
    disco: str = ZERO_KEY
    endpoints: list = field(default_factory=list)
    derp: int = 0
    online: bool = False


class Tailnet:
    """Rows by id, the sessions of machines, the policy, the time, and the settings."""

    def __init__(self, settings, moment):
        self.settings = settings
        self.now = clamped(moment)
        self.users, self.keys, self.pending, self.machines = {}, {}, {}, {}
        self.next = dict.fromkeys(LIMITS, 1)
        self.sessions, self.next_session = {}, 1
        # the extra DNS records, as they are shown
        self.extras = []
        # the policy in force and its text, from the first save on
        self.policy, self.policy_text = None, None

    def come_to(self, moment):
        self.now = max(self.now, clamped(moment))

    # Rows

    def later(self, moment, seconds):
        return min(LAST_MOMENT, moment + seconds)

    def is_live(self, machine):
        if machine.expiry is not None and machine.expiry <= self.now:
            return False
        if machine.online or not machine.ephemeral:
            return True
        return self.now < self.later(machine.offline_since, self.settings["ephemeral_seconds"])

    def is_overdue(self, entry):
        return self.later(entry.made, self.settings["pending_seconds"]) <= self.now

    def machine_of(self, key):
        return next((row for row in self.machines.values() if row.machine == key), None)

    def entry_of(self, key):
        return next((row for row in self.pending.values() if row.machine == key), None)

    def machine_with(self, id):
        if id not in self.machines:
            raise Refusal("UnknownMachine")
        return self.machines[id]

    def user_named(self, text):
        login = login_of(text)
        for user in self.users.values():
            if user.login == login:
                return user
        raise Refusal("UnknownUser")

    def take_id(self, kind, gone=0):
        """The next id of a kind, where there is room once so many rows are gone."""
        rows = {"User": self.users, "Key": self.keys, "Pending": self.pending, "Machine": self.machines}[kind]
        if len(rows) - gone >= LIMITS[kind] or self.next[kind] >= COUNTER_LIMIT:
            raise Refusal("Full", what=kind)
        return self.next[kind]

    def remove(self, id):
        """The machine's row goes, and its session."""
        del self.machines[id]
        self.sessions.pop(id, None)

    def go_offline(self, row):
        if row.online:
            row.online, row.offline_since = False, self.now

    def end_session(self, row):
        self.sessions.pop(row.id, None)
        self.go_offline(row)

    def put(self, kind, rows, row):
        rows[row.id] = row
        self.next[kind] = row.id + 1

    # Names and addresses

    def free_address(self, prefix, reserved, taken):
        first, last = int(prefix.network_address), int(prefix.broadcast_address)
        for number in range(first + 1, last):
            address = type(prefix.network_address)(number)
            if address not in taken and not any(address in block for block in reserved):
                return address
        raise Refusal("AddressesSpent", family=prefix.version)

    def free_name(self, host):
        label, taken = label_of_host(host), {row.name for row in self.machines.values()}
        if label not in taken:
            return label
        return next(name for number in range(1, 1000) if (name := numbered(label, number)) not in taken)

    def new_machine(self, key, host):
        id = self.take_id("Machine")
        rows = self.machines.values()
        v4 = self.free_address(self.settings["prefix_v4"], RESERVED_V4, {row.v4 for row in rows})
        v6 = self.free_address(self.settings["prefix_v6"], RESERVED_V6, {row.v6 for row in rows})
        return Machine(id, self.free_name(host), v4, v6, self.now, key, self.now)

    def enter(self, key, user, form, tags, ephemeral):
        """The machine's row is made, or renewed in its place and without a session, and its pending entry goes."""
        held = self.machine_of(key) or self.new_machine(key, form["host"])
        row = Machine(held.id, held.name, held.v4, held.v6, held.created, key, self.now)
        row.node, row.user, row.host, row.routes = form["node"], user, form["host"], form["routes"]
        row.tags, row.ephemeral, row.expiry = sorted(set(tags)), ephemeral, form["expiry"]
        row.approved = held.approved
        if row.expiry is None and not row.tags and self.settings["key_seconds"]:
            row.expiry = self.later(self.now, self.settings["key_seconds"])
        self.machines[row.id] = row
        self.sessions.pop(row.id, None)
        self.next["Machine"] = max(self.next["Machine"], row.id + 1)
        entry = self.entry_of(key)
        if entry:
            del self.pending[entry.id]
        return row

    # What machines ask

    def seed(self, text):
        if self.users or text.startswith("tnkey-"):
            return
        self.put("User", self.users, User(self.next["User"], "seed@"))
        self.put("Key", self.keys, Key(self.next["Key"], text, self.next["User"] - 1, True, False, None))

    def register(self, key, form, words):
        """The user, and whether the node key has expired; or the text under which the machine waits."""
        row = self.machine_of(key)
        if form["expiry"] is not None and form["expiry"] <= self.now:
            return self.log_out(row, form)
        if row and self.is_live(row) and row.node == form["node"]:
            return self.users[row.user], False
        self.refuse_taken(key, form["node"])
        if form["auth"]:
            return self.register_by_key(key, form)
        if row and self.is_live(row) and row.node == form["old"]:
            row.node = form["node"]
            self.end_session(row)
            return self.users[row.user], False
        return self.wait(key, form, words)

    def log_out(self, row, form):
        if row is None or row.node != form["node"]:
            raise Refusal("UnknownMachine")
        if row.ephemeral:
            self.remove(row.id)
            return self.users[row.user], True
        if row.expiry is None or row.expiry > self.now:
            row.expiry = self.now
        self.end_session(row)
        return self.users[row.user], True

    def refuse_taken(self, key, node):
        if any(row.node == node and row.machine != key for row in self.machines.values()):
            raise Refusal("NodeKeyTaken")

    def refuse_tags(self, tags, user=None):
        """Each tag has to be defined, and, where a user requests them, to be that user's."""
        for tag in tags:
            if self.policy is None or tag not in self.policy.tags:
                raise Refusal("TagUndefined")
            if user and not self.policy.owns(tag, user.login):
                raise Refusal("TagNotOwned")

    def register_by_key(self, machine, form):
        key = next((key for key in self.keys.values() if key.text == form["auth"]), None)
        if key is None:
            raise Refusal("KeyUnknown")
        if key.expiry is not None and key.expiry <= self.now:
            raise Refusal("KeyExpired")
        if key.used and not key.reusable:
            raise Refusal("KeyUsed")
        self.refuse_tags(form["tags"], self.users[key.user])
        row = self.enter(machine, key.user, form, key.tags + form["tags"], key.ephemeral or form["ephemeral"])
        key.used = True
        return self.users[row.user], row.expiry is not None and row.expiry <= self.now

    def wait(self, key, form, words):
        entry = self.entry_of(key)
        if entry and entry.form["node"] == form["node"] and not self.is_overdue(entry):
            return entry.text
        id = self.take_id("Pending", gone=1 if entry else 0)
        if words is None:
            raise Refusal("EntropyFault")
        if entry:
            del self.pending[entry.id]
        text = f"reg-{id}-{words[0]:016x}{words[1]:016x}"
        self.put("Pending", self.pending, Pending(id, text, key, self.now, form))
        return text

    def asking(self, key, node):
        row = self.machine_of(key)
        if row is None or row.node != node:
            raise Refusal("UnknownMachine")
        if not self.is_live(row):
            raise Refusal("NotLive")
        return row

    def update(self, row, form):
        row.endpoints = form["endpoints"]
        row.disco = form["disco"] or row.disco
        host = form["host"]
        if host is not None:
            row.host = row.host if host["name"] is None else host["name"]
            row.derp = row.derp if host["derp"] is None else host["derp"]
            row.routes = host["routes"]

    # Polls

    def attach(self, key, form, words):
        """The session that a poll of the live machine holds from now on, and whether it goes on."""
        row = self.asking(key, form["node"])
        session = self.sessions.get(row.id)
        goes_on = bool(session) and not session.is_attached and (session.handle, session.seq) == (form["handle"], form["seq"])
        if not goes_on:
            session = self.begin_session(row, words)
        session.is_attached, row.online = True, True
        return session, goes_on

    def begin_session(self, row, words):
        if self.next_session >= NUMBER_LIMIT:
            raise Refusal("Full", what="Session")
        if words is None:
            raise Refusal("EntropyFault")
        self.sessions[row.id] = Session(f"s{self.next_session}-{words[0]:016x}")
        self.next_session += 1
        return self.sessions[row.id]

    def held(self, key, handle):
        """The machine and its session, where a poll holds it under this handle; else none of them."""
        row = self.machine_of(key)
        session = row and self.sessions.get(row.id)
        return (row, session) if session and session.is_attached and session.handle == handle else (None, None)

    def drained(self, key, handle):
        """The same where the machine is live and a number is left for a response."""
        row, session = self.held(key, handle)
        return (row, session) if row and self.is_live(row) and session.seq < NUMBER_LIMIT else (None, None)

    def detach(self, key, handle):
        row, session = self.held(key, handle)
        if session:
            session.is_attached = False
            self.go_offline(row)

    # What operators ask

    def add_user(self, name):
        login = login_of(name if "@" in name else name + "@")
        if login is None:
            raise Refusal("BadName")
        if any(user.login == login for user in self.users.values()):
            raise Refusal("NameTaken")
        user = User(self.take_id("User"), login)
        self.put("User", self.users, user)
        return user

    def drop_user(self, text):
        user = self.user_named(text)
        if any(row.user == user.id for row in self.machines.values()):
            raise Refusal("UserHasMachines")
        del self.users[user.id]
        self.keys = {id: key for id, key in self.keys.items() if key.user != user.id}

    def add_key(self, form, words):
        user = self.user_named(form["login"])
        self.refuse_tags(form["tags"])
        id = self.take_id("Key")
        if words is None:
            raise Refusal("EntropyFault")
        text = f"tnkey-{id}-" + "".join(f"{word:016x}" for word in words)
        key = Key(id, text, user.id, form["reusable"], form["ephemeral"], form["expiry"], tags=form["tags"])
        self.put("Key", self.keys, key)
        return key

    def expire_key(self, id):
        if id not in self.keys:
            raise Refusal("KeyUnknown")
        key = self.keys[id]
        if key.expiry is None or key.expiry > self.now:
            key.expiry = self.now

    def admit(self, text, login):
        entry = next((row for row in self.pending.values() if row.text == text), None)
        if entry is None or self.is_overdue(entry):
            raise Refusal("PendingUnknown")
        user, form = self.user_named(login), entry.form
        self.refuse_taken(entry.machine, form["node"])
        self.refuse_tags(form["tags"], user)
        return self.enter(entry.machine, user.id, form, form["tags"], form["ephemeral"])

    def expire_node(self, id, expiry):
        row = self.machine_with(id)
        row.expiry = self.now if expiry is None else expiry
        return row

    def rename(self, id, name):
        row = self.machine_with(id)
        if not is_label(name):
            raise Refusal("BadName")
        if any(other.name == name for other in self.machines.values() if other is not row):
            raise Refusal("NameTaken")
        row.name = name
        return row

    def set_tags(self, id, tags):
        row = self.machine_with(id)
        self.refuse_tags(tags)
        row.tags = sorted(set(tags))
        return row

    def refuse_route(self, row, route):
        if route in EXITS:
            if not has_both_exits(row.routes):
                raise Refusal("RouteNotAdvertised")
        elif route not in row.routes:
            raise Refusal("RouteNotAdvertised")
        elif meet([route], TAILNETS):
            raise Refusal("RouteOverlaps")

    def set_routes(self, id, routes):
        row = self.machine_with(id)
        for route in routes:
            self.refuse_route(row, route)
        given = routes + EXITS if any(route in EXITS for route in routes) else routes
        row.approved = [route for route in row.routes if route in given]
        return row

    def save_policy(self, text):
        policy = read_policy(text)
        live = [row for row in self.machines.values() if self.is_live(row)]
        failure = first_failure(policy, [((row.v4, row.v6), self.users[row.user].login, tuple(row.tags)) for row in live])
        if failure:
            raise PolicyFault(21, failure)
        self.policy, self.policy_text = policy, text

    def set_extras(self, extras):
        self.extras = extras

    def drop_node(self, id):
        self.remove(self.machine_with(id).id)

    def sweep(self):
        gone = [row.id for row in self.machines.values() if row.ephemeral and not self.is_live(row)]
        overdue = [row.id for row in self.pending.values() if self.is_overdue(row)]
        for id in gone:
            self.remove(id)
        for id in overdue:
            del self.pending[id]
        return len(gone), len(overdue)
