"""Commands for users, pre-auth keys, and machines that wait."""

from urllib.parse import quote

from .asking import is_agreed
from .names import entry_of, key_of, login_of
from .nodes import print_nodes
from .shown import plain, print_json, print_table
from .times import UNSET, has_passed, shown, wire_time

SAFE = "@._+-"


def users(client, words):
    rows = client.rows("/api/v1/user", "users")
    if words.json:
        return print_json({"users": rows})
    nodes = client.rows("/api/v1/node", "nodes")
    counted = [(row["id"], row["login"], sum(node["user"] == row["login"] for node in nodes)) for row in rows]
    print_table(("ID", "LOGIN", "MACHINES"), counted, "There are no users yet: `tailnetctl user add NAME` adds one.")


def add_user(client, words):
    row = client.value("POST", "/api/v1/user", {"name": words.name})
    print_json(row) if words.json else print(f"added {plain(row['login'])}")


def remove_user(client, words):
    login = login_of(words.login)
    if is_agreed(words, f"Remove {plain(login)} and all keys of this user?"):
        client.value("DELETE", f"/api/v1/user/{quote(login, safe=SAFE)}")
        print_json({}) if words.json else print(f"removed {plain(login)}")


def state_of(row):
    """Whether a key still admits machines."""
    if has_passed(row["expiry"]):
        return "expired"
    return "used" if row["used"] and not row["reusable"] else "good"


def short(key):
    """The beginning of a key's text, which doesn't let anybody in; of one that isn't of the server's making, its length."""
    parts = key.split("-")
    return f"{parts[0]}-{parts[1]}-.." if len(parts) == 3 and parts[0] == "tnkey" else f"({len(key)} characters)"


def keys(client, words):
    rows = client.rows("/api/v1/preauthkey", "keys")
    if words.json:
        return print_json({"keys": rows})
    heads = ("ID", "USER", "STATE", "REUSABLE", "EPHEMERAL", "EXPIRES", "TAGS", "KEY")
    lines = [
        (
            row["id"], row["user"], state_of(row), yes_no(row["reusable"]), yes_no(row["ephemeral"]), shown(row["expiry"]),
            " ".join(row["tags"]) or "-", row["key"] if words.show else short(row["key"]),
        )
        for row in rows
    ]
    print_table(heads, lines, "There are no keys yet: `tailnetctl key make LOGIN` makes one.")


def yes_no(flag):
    return "yes" if flag else "no"


def make_key(client, words):
    form = {"user": login_of(words.login), "reusable": words.reusable, "ephemeral": words.ephemeral, "tags": words.tags}
    if words.expiry:
        form["expiry"] = wire_time(words.expiry)
    row = client.value("POST", "/api/v1/preauthkey", form)
    if words.json:
        print_json(row)
    elif words.bare:
        print(row["key"])
    else:
        uses = "any number of machines" if row["reusable"] else "one machine"
        until = "for ever" if row["expiry"] == UNSET else f"until {shown(row['expiry'])}"
        print(f"{row['key']}\nfor {uses} of {plain(row['user'])}, {until}")


def expire_key(client, words):
    row = key_of(client.rows("/api/v1/preauthkey", "keys"), words.key)
    if is_agreed(words, f"Expire key {row['id']} of {plain(row['user'])}, for ever?"):
        client.value("DELETE", f"/api/v1/preauthkey/{row['id']}")
        print_json({}) if words.json else print(f"expired key {row['id']} of {plain(row['user'])}")


def pending(client, words):
    rows = client.rows("/api/v1/register", "pending")
    if words.json:
        return print_json({"pending": rows})
    lines = [("-".join(row["id"].split("-")[:2]), row["host"] or "-", row["machine"], row["node"]) for row in rows]
    print_table(("ENTRY", "HOST", "MACHINE KEY", "NODE KEY"), lines, "No machine waits.")


def admit(client, words):
    row = entry_of(client.rows("/api/v1/register", "pending"), words.entry)
    node = client.value("POST", "/api/v1/register", {"id": row["id"], "user": login_of(words.login)})
    print_nodes(words, node)
