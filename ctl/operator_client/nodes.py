"""Commands for machines."""

from .asking import is_agreed
from .names import node_of
from .shown import plain, print_json, print_table, say
from .times import shown, wire_time
from .trouble import Status, Trouble


def state_of(row):
    """Whether a machine is live, and whether it is there."""
    if not row["live"]:
        return "expired"
    return "online" if row["online"] else "offline"


def routes_of(row):
    """The routes in effect; behind a plus those that wait for an approval."""
    waiting = [route for route in row["advertised"] if route not in row["served"]]
    return " ".join(row["served"] + [f"+{route}" for route in waiting]) or "-"


HEADS = ("ID", "NAME", "USER", "STATE", "ADDRESSES", "EXPIRES", "TAGS", "ROUTES")


def line_of(row):
    tags = " ".join(row["tags"]) or "-"
    addresses = " ".join(row["addresses"])
    return row["id"], row["name"], row["user"], state_of(row), addresses, shown(row["expiry"]), tags, routes_of(row)


def print_nodes(words, row):
    """Prints the machine that an answer is about."""
    print_json(row) if words.json else print_table(HEADS, [line_of(row)], "")


def rows_of(client):
    return client.rows("/api/v1/node", "nodes")


def nodes(client, words):
    rows = rows_of(client)
    if words.json:
        return print_json({"nodes": rows})
    nothing = "There are no machines yet: `tailnetctl key make LOGIN` makes a key with which one registers."
    print_table(HEADS, [line_of(row) for row in rows], nothing)


def changed(client, words, what, form):
    """Changes one thing of a machine, and shows the machine."""
    row = node_of(rows_of(client), words.node)
    print_nodes(words, client.value("POST", f"/api/v1/node/{row['id']}/{what}", form))


def rename(client, words):
    changed(client, words, "rename", {"name": words.name})


def tags(client, words):
    changed(client, words, "tags", {"tags": words.tags})


def expire(client, words):
    changed(client, words, "expire", {"expiry": wire_time(words.time)} if words.time else {})


def remove(client, words):
    row = node_of(rows_of(client), words.node)
    if is_agreed(words, f"Remove {plain(row['name'])} of {plain(row['user'])} ({row['addresses'][0]})?"):
        client.value("DELETE", f"/api/v1/node/{row['id']}")
        print_json({}) if words.json else print(f"removed {plain(row['name'])}")


def routes(client, words):
    """Which routes a machine has, and which of them are in effect."""
    row = node_of(rows_of(client), words.node)
    if words.json:
        return print_json({name: row[name] for name in ("advertised", "approved", "served")})
    found = list(dict.fromkeys(row["advertised"] + row["approved"] + row["served"]))
    columns = (row["advertised"], row["approved"], row["served"])
    lines = [(route, *("yes" if route in each else "no" for each in columns)) for route in found]
    print_table(("ROUTE", "ADVERTISED", "APPROVED BY AN OPERATOR", "IN EFFECT"), lines, f"{plain(row['name'])} has no routes.")


def approved_with(row, named):
    """What is approved if these routes are beside those that were: the server takes only what is advertised."""
    wanted = row["approved"] + (named or row["advertised"])
    gone = [route for route in row["approved"] if route not in row["advertised"]]
    if gone:
        say(f"tailnetctl: {', '.join(gone)} of {row['name']} isn't advertised now; its approval ends with this one.")
    return [route for route in dict.fromkeys(wanted) if route not in gone or route in (named or [])]


def approve(client, words):
    row = node_of(rows_of(client), words.node)
    if not (words.none or words.routes or row["advertised"]):
        advice = "Let it advertise some, and see `tailnetctl node routes NAME`"
        raise Trouble(f"{plain(row['name'])} advertises no routes", advice, Status.REFUSED)
    approved = [] if words.none else approved_with(row, words.routes)
    print_nodes(words, client.value("POST", f"/api/v1/node/{row['id']}/routes", {"routes": approved}))


def sweep(client, words):
    swept = client.value("POST", "/api/v1/sweep", {})
    if words.json:
        return print_json(swept)
    print(f"removed {swept['machines']} ephemeral machines and {swept['pending']} waiting entries")
