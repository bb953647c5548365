"""Lines and columns of faults, against ones that were counted by hand."""

import json
import unittest

from .tailnet import Server, ran
from operator_client.faults import fault_in

LONG = "[" + ",".join(['"ann@"'] * 257) + "]"
# A policy, and its first fault: LINE:COLUMN CODE PLACE. They are the faults of docs/POLICY.md, code by code.
CASES = [
    ('{\n  "acls": [],,\n}', "2:14 P1 offset 15"),
    ('{\n  "acls": [], /* open\n}', "2:15 P1 offset 16"),
    ('{"hosts": {"é": "x}\n', "1:17 P1 offset 17"),
    ('{\n  "acls": [1 2],\n}', "2:14 P1 json"),
    ('{"acls": [1e999]}', "1:11 P1 json"),
    ('{"a":\n 1}\n}', "3:1 P1 json"),
    ('// é\n  []', "2:3 P2 top"),
    ('{\n  "acls": [\n    {"action": "accept",\n     "users": ["ann@"], "src": [], "dst": []},\n  ],\n}', "4:6 P3 acls[0].users"),
    ('{"ACLs": [],\n "acls": []}', "2:2 P3 acls"),
    ('{"acls": [],\n\t"polices": {}}', "2:2 P3 polices"),
    ('{"acls": [],\n "ipsets": {}}', "2:2 P4 ipsets"),
    ('{"grants": [\n  {"src": ["*"], "dst": ["*"], "ip": ["*"], "via": []}]}', "2:45 P4 grants[0].via"),
    ('{"Grants": [\n  {"src": ["*"], "dst": ["*"]}]}', "2:3 P5 grants[0].ip"),
    ('{"Grants": [{"src": ["*"], "dst": ["*"], "IP": ["*",\n  "foo:80"]}]}', "2:3 P10 grants[0].ip[1]"),
    ('{"acls": [\n  {"action": "accept", "src": ["ipset:a"], "dst": []}]}', "2:32 P4 acls[0].src[0]"),
    ('{"tagOwners": {\n  "tag:a": ["ann@", "tag:b"]}}', "2:21 P4 tagOwners.tag:a[1]"),
    ('{"groups":\n  []}', "2:3 P5 groups"),
    ('{"acls": [\n  {"action": "accept", "src": ["ann@"]}]}', "2:3 P5 acls[0].dst"),
    ('{"acls": [\n  {"action": "accept", "users": ["ann@", 7], "ports": []}]}', "2:42 P5 acls[0].src[1]"),
    ('{"groups": {\n  "admin": []}}', "2:3 P6 groups.admin"),
    ('{"Groups": {\n  "group:a.b": ["ann@", "bob"]}}', "2:25 P6 groups.group:a.b[1]"),
    ('{"hosts": {\n  "10.0.0.1": "10.0.0.1"}}', "2:3 P7 hosts.10.0.0.1"),
    ('{"hosts": {\n  "nas": "10.0.0.1/8"}}', "2:10 P7 hosts.nas"),
    ('{"tagOwners": {\n  "web": []}}', "2:3 P8 tagOwners.web"),
    ('{"tagOwners": {\n  "tag:a": ["ann"]}}', "2:13 P8 tagOwners.tag:a[0]"),
    ('{"acls": [\n  {"action":\n    "deny", "src": [], "dst": []}]}', "3:5 P9 acls[0].action"),
    ('{"acls": [\n  {"src": [], "dst": []}]}', "2:3 P9 acls[0].action"),
    ('{"acls": [{"action": "accept", "Proto":\n "TCP", "src": [], "dst": []}]}', "2:2 P10 acls[0].proto"),
    ('{"tests": [{"src": "ann@", "proto":\n  0}]}', "2:3 P10 tests[0].proto"),
    ('{"acls": [{"action": "accept", "src": [\n  "日本", "?"], "dst": []}]}', "2:3 P11 acls[0].src[0]"),
    ('{"autoApprovers": {"exitNode": ["ann@",\n "*"]}}', "2:2 P11 autoApprovers.exitNode[1]"),
    ('{"acls": [{"action": "accept", "src": ["ann@",\n  "group:x"], "dst": []}]}', "2:3 P12 acls[0].src[1]"),
    ('{"acls": [{"action": "accept", "src": [], "dst": [\n\t\t"tag:x:*"]}]}', "2:3 P13 acls[0].dst[0]"),
    ('{"acls": [{"action": "accept", "src": [], "dst": [/* 日本 */ "lab:*"]}]}', "1:60 P14 acls[0].dst[0]"),
    ('{"acls": [{"action": "accept", "src": ["autogroup:self"], "dst": []}]}', "1:40 P15 acls[0].src[0]"),
    ('{"acls": [{"action": "accept", "src": [], "ports": ["ann@"]}]}', "1:53 P16 acls[0].dst[0]"),
    ('{"acls": [{"action": "accept", "proto": "icmp", "src": [], "dst": ["ann@:*",\n"ann@:22"]}]}', "2:1 P17 acls[0].dst[1]"),
    ('{"autoApprovers": {"routes": {\n  "10.0.0.1/8": []}}}', "2:3 P18 autoApprovers.routes.10.0.0.1/8"),
    ('{"autoApprovers": {"routes": {"::/0": [],\n "0::/0": []}}}', "1:31 P18 autoApprovers.routes.::/0"),
    (f'{{"groups": {{\n  "group:a": {LONG}}}}}', "2:14 P19 groups.group:a"),
    (" " * 262143 + "{}", "1:1 P19 text"),
    ('{"tests": [\n  {"accept": []}]}', "2:3 P20 tests[0].src"),
    ('{"tests": [{"src": "ann@", "accept": ["bob@:22",\n "bob@:22,80"]}]}', "2:2 P20 tests[0].accept[1]"),
    ('{"acls": [], "tests": [\n  {"src": "ann@", "accept": ["bob@:22"]}]}', "2:30 P21 tests[0].accept[0]"),
    ('{"Tests": [{"src": "ann@",\n"deny": ["bob@:22"]}]}', "2:10 P21 tests[0].deny[0]"),
    ('{"ssh": ' + "[" * 127 + "]" * 127 + "}", "1:135 P1 json"),
    ('{"ssh": "\\ud800"}', "1:9 P1 json"),
    ('{"a": 1, "a": 2}', "1:10 P3 a"),
    ('{"groups": {"group:a": 1, "group:a": []}, "hosts": 1}', "1:52 P5 hosts"),
]


def spelled(record):
    return f"{record['line']}:{record['column']} {record['code']} {record['place']}"


class Places(unittest.TestCase):
    @classmethod
    def setUpClass(cls):
        cls.server = Server()
        cls.addClassCleanup(cls.server.stop)

    def found(self, text, *more):
        path = self.server.file("policy.hujson", text)
        got = ran("policy", "check", path, "--json", *more, environment=self.server.environment)
        self.assertEqual(got.errors, "")
        return [spelled(record) for record in got.json["faults"]]

    def test_each_code_by_the_program(self):
        codes = set()
        for text, wanted in CASES:
            self.assertEqual(self.found(text, "--offline"), [wanted], text[:200])
            codes.add(wanted.split()[1])
        self.assertEqual(codes, {f"P{number}" for number in range(1, 22)})

    def test_each_code_by_the_server(self):
        before = self.server.policy()
        for text, wanted in CASES:
            self.assertEqual(self.found(text), [wanted], text[:200])
            self.assertEqual(self.server.policy(), before)

    def test_what_is_as_deep_as_it_may_be(self):
        text = '{"ssh": ' + "[" * 126 + "]" * 126 + "}"
        self.assertEqual((self.found(text), self.found(text, "--offline")), ([], []))

    def test_bytes_that_are_no_text(self):
        path = f"{self.server.folder.name}/raw.hujson"
        with open(path, "wb") as file:
            file.write(b'{"hosts":\n {"a\xff": "x"}}')
        for more in ([], ["--offline"]):
            got = ran("policy", "check", path, "--json", *more, environment=self.server.environment)
            self.assertEqual([spelled(record) for record in got.json["faults"]], ["2:5 P1 json"])

    def test_lines_for_editors_and_for_workflows(self):
        path = self.server.file("policy.hujson", '{"acls": [],\n "hosts": {"nas": "x"}}')
        wanted = "a host's name is ill-formed or is an address, or its value is no address or prefix (hosts.nas): choose another name; write a prefix from its base, as `10.0.0.0/8`"
        got = ran("policy", "check", "--offline", path)
        self.assertEqual((got.status, got.output), (1, f"{path}:2:19: P7 {wanted}\n"))
        got = ran("policy", "check", "--offline", "--format", "github", path)
        self.assertEqual(got.output, f"::error file={path},line=2,col=19,title=P7::{wanted}\n")
        self.assertEqual(ran("policy", "check", path).output, f"{path}:2:19: P7 {wanted}\n")

    def test_several_files(self):
        texts = ["{}", '{"acl": []}', "[]"]
        paths = [self.server.file(f"{at}.hujson", text) for at, text in enumerate(texts)]
        got = ran("policy", "check", "--offline", "--json", *paths)
        self.assertEqual((got.status, [(each["file"], each["code"]) for each in got.json["faults"]]), (1, [(paths[1], "P3"), (paths[2], "P2")]))
        lines = ran("policy", "check", "--offline", *paths).lines
        self.assertEqual([line.rsplit("/", 1)[1].split(" ")[0] for line in lines], ["0.hujson:", "1.hujson:1:2:", "2.hujson:1:1:"])

    def test_keys_that_could_deceive(self):
        text = json.dumps({"a\n::error x\u202e\x1b": 1})
        path = self.server.file("policy.hujson", text)
        for more in (["--offline"], ["--offline", "--format", "github"]):
            got = ran("policy", "check", path, *more)
            self.assertEqual(len(got.lines), 1, got.output)
            self.assertIn("\\u000a::error x\\u202e\\u001b", got.output)

    def test_a_place_that_is_nowhere(self):
        self.assertEqual(fault_in(b"{}", "P5", "acls[7].src").line, 1)
        self.assertEqual(fault_in(b"", "P1", "json").column, 1)
