"""Each table against the JSON of the path that it shows."""

import json
import re

from .tailnet import MACHINES, TailnetTest
from operator_client.times import shown
from operator_client.watching import Told


def cells(line):
    return re.split(r"  +", line)


class Tables(TailnetTest):
    def test_nodes(self):
        rows = self.server.told("/api/v1/node")["nodes"]
        got = self.done("nodes")
        self.assertEqual(len(rows), MACHINES)
        self.assertEqual(cells(got.lines[0]), ["ID", "NAME", "USER", "STATE", "ADDRESSES", "EXPIRES", "TAGS", "ROUTES"])
        for row, line in zip(rows, got.lines[1:], strict=True):
            waiting = "+" + row["advertised"][0] if row["advertised"] else "-"
            wanted = [str(row["id"]), row["name"], row["user"], "offline", " ".join(row["addresses"]), "never", " ".join(row["tags"]) or "-", waiting]
            self.assertEqual(cells(line), wanted)

    def test_users(self):
        rows, nodes = self.server.told("/api/v1/user")["users"], self.server.told("/api/v1/node")["nodes"]
        wanted = [[str(row["id"]), row["login"], str(sum(node["user"] == row["login"] for node in nodes))] for row in rows]
        self.assertEqual([cells(line) for line in self.done("users").lines[1:]], wanted)

    def test_keys(self):
        rows = self.server.told("/api/v1/preauthkey")["keys"]
        hidden, whole = self.done("keys"), self.done("keys", "--show")
        for row, line, other in zip(rows, hidden.lines[1:], whole.lines[1:], strict=True):
            self.assertEqual(cells(line)[:3], [str(row["id"]), row["user"], "good"])
            self.assertEqual(cells(line)[6], " ".join(row["tags"]) or "-")
            self.assertNotIn(row["key"], line)
            self.assertEqual(cells(other)[7], row["key"])

    def test_json_is_the_servers(self):
        lists = {"nodes": "/api/v1/node", "users": "/api/v1/user", "keys": "/api/v1/preauthkey", "pending": "/api/v1/register"}
        for name, path in lists.items():
            self.assertEqual(self.done(name, "--json").json, self.server.told(path), name)
            self.assertEqual(self.done("--json", name).json, self.server.told(path), name)
        self.assertEqual(self.done("dns", "--json").json, self.server.told("/api/v1/dns"))

    def test_pending_and_admission(self):
        host = "<img>\u202e\u009b[31m\x1b]0;x\x07é日"
        self.server.register(900, host=host)
        row = self.server.told("/api/v1/register")["pending"][0]
        got = self.done("pending")
        self.assertEqual(cells(got.lines[1])[2:], [row["machine"], row["node"]])
        self.assertIn("\\u003cimg\\u003e\\u202e\\u009b[31m\\u001b]0;x\\u0007é日", got.output)
        for raw in "<>\u202e\u009b\x1b\x07":
            self.assertNotIn(raw, got.output)
            self.assertNotIn(raw, self.done("pending", "--json").output)
        self.assertEqual(self.done("pending", "--json").json["pending"][0]["host"], host)
        admitted = self.done("admit", host, "Ann", "--json").json
        self.assertEqual(admitted["user"], "ann@")
        self.done("node", "remove", str(admitted["id"]), "--yes")

    def test_two_that_wait_by_one_name(self):
        self.server.register(901, host="printer")
        self.server.register(902, host="printer")
        got = self.ran("admit", "printer", "ann")
        self.assertEqual(got.status, 5)
        entries = [row["id"].rsplit("-", 1)[0] for row in self.server.told("/api/v1/register")["pending"]]
        self.assertIn(f"2 machines wait that call themselves 'printer': {', '.join(entries)}", got.errors)
        admitted = self.done("admit", entries[0], "ann", "--json").json
        self.done("node", "remove", admitted["name"], "--yes")
        self.assertEqual(len(self.server.told("/api/v1/register")["pending"]), 1)

    def test_what_a_machine_is_called(self):
        row = self.server.told("/api/v1/node")["nodes"][6]
        for name in (row["name"], row["name"].upper(), f"{row['name']}.tail.example", *row["addresses"], str(row["id"])):
            self.assertEqual(self.done("node", "rename", name, row["name"], "--json").json["id"], row["id"])


class Changes(TailnetTest):
    def node(self, name):
        return next(row for row in self.server.told("/api/v1/node")["nodes"] if row["name"] == name)

    def test_rename(self):
        self.done("node", "rename", "machine-1", "laptop")
        self.assertEqual(self.node("laptop")["id"], 1)

    def test_tags(self):
        self.done("node", "tags", "machine-4", "web,tag:Db-1")
        self.assertEqual(self.node("machine-4")["tags"], ["tag:Db-1", "tag:web"])
        self.done("node", "tags", "machine-4", "none")
        self.assertEqual(self.node("machine-4")["tags"], [])

    def test_routes(self):
        self.assertEqual(cells(self.done("node", "routes", "machine-10").lines[1]), ["10.10.0.0/16", "yes", "no", "no"])
        self.done("node", "approve", "machine-10")
        self.assertEqual(cells(self.done("node", "routes", "machine-10").lines[1]), ["10.10.0.0/16", "yes", "yes", "yes"])
        self.done("node", "approve", "machine-10", "--none")
        self.assertEqual(self.node("machine-10")["approved"], [])

    def test_approval_beside_one_that_is_not_advertised_now(self):
        body = {"NodeKey": f"nodekey:{20 + 65536:064x}", "OmitPeers": True, "Hostinfo": {"RoutableIPs": ["10.99.0.0/16"]}}
        self.done("node", "approve", "machine-20")
        self.server.asked("POST", "/machine/map", body, 20)
        got = self.ran("node", "approve", "machine-20")
        self.assertIn("10.20.0.0/16 of machine-20 isn't advertised now; its approval ends with this one.", got.errors)
        self.assertEqual(self.node("machine-20")["approved"], ["10.99.0.0/16"])

    def test_expire(self):
        self.done("node", "expire", "machine-5", "7d")
        expiry = self.node("machine-5")["expiry"]
        self.assertIn(shown(expiry), self.done("nodes").output)
        self.done("node", "expire", "machine-5")
        self.assertFalse(self.node("machine-5")["live"])
        self.assertIn("expired", self.done("node", "expire", "machine-5").output)

    def test_remove_asks(self):
        self.assertEqual(self.ran("node", "remove", "machine-6").status, 6)
        self.assertEqual(self.ran("node", "remove", "machine-6", typed="n\n").status, 6)
        self.assertEqual(self.node("machine-6")["id"], 6)
        asked = self.ran("node", "remove", "machine-6", typed="y\n")
        self.assertEqual((asked.status, asked.output), (0, "removed machine-6\n"))
        self.assertIn("Remove machine-6 of ", asked.errors)
        self.done("node", "remove", "machine-7", "--yes")

    def test_users_and_keys(self):
        self.assertEqual(self.done("user", "add", "Eve").output, "added eve@\n")
        key = self.done("key", "make", "eve", "--expiry", "24h", "--bare").output.strip()
        row = next(row for row in self.server.told("/api/v1/preauthkey")["keys"] if row["key"] == key)
        self.assertEqual((row["user"], row["reusable"], row["used"]), ("eve@", False, False))
        self.assertEqual(self.ran("key", "expire", key).status, 6)
        self.done("key", "expire", f"tnkey-{row['id']}", "--yes")
        self.assertIn("expired", self.done("keys").lines[row["id"]])
        self.assertEqual(self.ran("user", "remove", "eve").status, 6)
        self.done("user", "remove", "eve", "--yes")
        self.assertNotIn("eve@", self.done("users").output)

    def test_records(self):
        records = [{"Name": "nas.tail.example", "Type": "A", "Value": "192.168.5.9"}]
        path = self.server.file("records.json", json.dumps(records))
        self.assertEqual(self.done("dns").output, "There are no extra records.\n")
        self.assertEqual(cells(self.done("dns", "save", path).lines[1]), ["nas.tail.example", "A", "192.168.5.9"])
        self.assertEqual(self.server.told("/api/v1/dns"), records)

    def test_sweep(self):
        self.assertEqual(self.done("sweep").output, "removed 0 ephemeral machines and 0 waiting entries\n")

    def test_nothing_to_approve(self):
        self.assertIn("machine-11 advertises no routes. ", self.ran("node", "approve", "machine-11").errors)

    def test_what_a_response_tells(self):
        told = Told()
        row = {"ID": 7, "Name": "gate.tail.example."}
        self.assertEqual(told.sentences({"Peers": [row], "Domain": "x"}), ["sees gate"])
        patches = [{"NodeID": 7, "Online": False}, {"NodeID": 7, "Online": True, "Endpoints": ["192.0.2.7:1"]}, {"NodeID": 8, "DERPRegion": 3}]
        wanted = ["gate is offline", "gate is online", 'gate has endpoints ["192.0.2.7:1"]', "machine 8 has DERP region 3"]
        self.assertEqual(told.sentences({"PeersChangedPatch": patches}), wanted)
        self.assertEqual(told.sentences({"PeersRemoved": [7, 9], "PacketFilter": []}), ["sees gate, machine 9 no more", "has another PacketFilter"])
        self.assertEqual(told.sentences({"MapSessionHandle": "s1"}), ["has session s1"])

    def test_watch(self):
        path = self.server.file("machine.keys", f"mkey:{3:064x}\nnodekey:{3 + 65536:064x}\n")
        got = self.ran("watch", path, "--count", "1")
        self.assertTrue(got.output.startswith("this machine is machine-3.tail.example. (100.64.0."), got.output)
        other = self.server.file("other.keys", f"mkey:{999:064x}\nnodekey:{3:064x}\n")
        self.assertEqual(self.ran("watch", other).status, 5)
