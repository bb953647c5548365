"""What the running server says when it is asked, against the model, and that asking changes nothing."""

import contextlib
import ipaddress
import json
import random
import unittest

from .tailnet import Server, TailnetTest, ran
from granting import ends_of, first_failure, granted
from policies import PolicyFault, Reader, read_policy
from tailnet import Tailnet
from talks import Talk
from operator_client import hujson, questions, untakable
from operator_client.connection import Answer
from operator_client.trouble import Trouble

QUESTIONS = 500
POLICIES = 300
MUTATIONS = 2000
SOURCES = ["ann@", "bob@example.org", "seed@", "eve@", "group:dev", "group:none", "tag:web", "tag:Db-1", "100.64.0.1", "100.64.0.2", "fd7a:115c:a1e0::2", "machine-5", "seed", "one", "10.10.0.1"]
DESTS = [*SOURCES, "[fd7a:115c:a1e0::3]", "8.8.8.8"]
PORTS = [22, 80, 85, 443, 0, 65535]
PROTOCOLS = [None, None, "tcp", "udp", "icmp", "58", "132"]
PIECES = [b'"', b"{", b"}", b"[", b"]", b",", b":", b"//", b"/*", b"*/", b"\n", b"\\", b"\x00", b"\xff", b'"tests":[]', b'"tests":', b'"Tests":[],', b"tests", b" "]
# The machine that is meant by its name, and the user whose @ is left out.
CALLED = {"machine-5": "100.64.0.5", "seed": "seed@"}


def is_read(text):
    """Whether the model takes a policy: of its random ones some have a fault."""
    with contextlib.suppress(PolicyFault):
        read_policy(text.encode())
        return True
    return False


def random_policies(count):
    """Texts of random policies without a fault, as the model's conversations have them; each third lets more through."""
    draw, texts = random.Random(4), []
    talk = Talk(draw, Tailnet({}, 0), {})
    while len(texts) < count:
        policy = json.loads(talk.rules())
        if len(texts) % 3 == 0:
            policy.setdefault("acls", []).append({"action": "accept", "src": ["ann@", "group:dev", "tag:web"], "dst": ["*:22,443"]})
        text = json.dumps(policy)
        if is_read(text):
            texts.append(text)
    return texts


def machines_of(nodes):
    """The live machines, as the model has them."""
    live = [row for row in nodes if row["live"]]
    return [([ipaddress.ip_address(each) for each in row["addresses"]], row["user"], row["tags"]) for row in live]


def wanted_answer(policy, machines, question):
    """What the model says."""
    source, dest, port, protocol = question
    reader = Reader()
    reader.policy = policy
    ends = [ends_of(policy, machines, reader.selector("", CALLED.get(each, each))) for each in (source, dest)]
    numbers = (6, 17) if protocol is None else (reader.proto("", protocol),)
    pairs = [any(granted(policy, one, other, number, port) for number in numbers) for one in ends[0] for other in ends[1]]
    if not pairs:
        return "nobody"
    return "yes" if all(pairs) else "in part" if any(pairs) else "no"


class Can(TailnetTest):
    def test_against_the_model(self):
        draw, counts = random.Random(7), {}
        machines = machines_of(self.server.told("/api/v1/node")["nodes"])
        for text in random_policies(QUESTIONS // 10):
            self.server.save(text)
            policy = read_policy(text.encode())
            for _ in range(10):
                question = draw.choice(SOURCES), draw.choice(DESTS), draw.choice(PORTS), draw.choice(PROTOCOLS)
                source, dest, port, protocol = question
                got = self.ran("can", source, f"{dest}:{port}", *([protocol] if protocol else []), "--json")
                answer = wanted_answer(policy, machines, question)
                self.assertEqual((got.json["answer"], got.status), (answer, int(answer != "yes")), (question, text))
                counts[answer] = counts.get(answer, 0) + 1
            self.assertEqual(self.server.policy(), text.encode())
        self.assertEqual(sum(counts.values()), QUESTIONS)
        self.assertTrue(all(counts.get(answer, 0) >= 10 for answer in ("yes", "no", "in part", "nobody")), counts)

    def test_three_hundred_policies_stay(self):
        for at, text in enumerate(random_policies(POLICIES)):
            # comments, trailing commas, tests of its own and another case of the key, in turn
            text = ["%s", "// all\n%s // end", "%s", "/* a */ %s\n"][at % 4] % text
            tests = [',"tests":[],}', ',"Tests":[{"src":"ann@"},],}', ',"\\u0074ests":[/*none*/]}', "}"][at % 4]
            text = tests.join(text.rsplit("}", 1))
            self.server.save(text)
            for line in (["can", "ann@", "100.64.0.1:22"], ["policy", "check", self.server.file("p.hujson", text)]):
                got = self.ran(*line)
                self.assertIn(got.status, (0, 1), got.errors)
                self.assertEqual(self.server.policy(), text.encode())

    def test_a_policy_whose_own_test_fails_by_now(self):
        text = '{"acls":[{"action":"accept","src":["ann@"],"dst":["100.64.0.200:22"]}],"tests":[{"src":"ann@","deny":["100.64.0.201:22"],"accept":["100.64.0.200:22"]}]}'
        self.server.save(text)
        self.assertEqual(self.done("can", "ann", "100.64.0.200:22").output, "yes: ann@ reaches 100.64.0.200:22\n")
        self.assertEqual(self.ran("can", "ann", "100.64.0.201:22").output, "no: ann@ doesn't reach 100.64.0.201:22\n")

    def test_what_cannot_be_asked(self):
        self.server.save('{"hosts":{"lab":"10.0.0.0/8","ann":"10.0.0.1"}}')
        wanted = {
            ("group:x", "ann@:22"): "the policy in force has no group for 'group:x'",
            ("bob@example.org", "tag:x:22"): "the policy in force defines no tag for 'tag:x:22'",
            ("zoe", "seed:22"): "there is no user, machine or host for 'zoe'",
            ("ann", "seed:22"): "'ann' may be ann or ann@. Write one of these.",
            ("*", "seed:22"): "'*' isn't one user, group, tag, machine or address, with one port",
            ("autogroup:x", "seed:22"): "'autogroup:x' can't be asked about",
            ("seed", "lab:22"): "'lab:22' isn't one user, group, tag, machine or address, with one port",
        }
        for line, told in wanted.items():
            got = self.ran("can", *line)
            self.assertEqual(got.status, 5, line)
            self.assertIn(told, got.errors)
        self.assertIn("there is no protocol 'TCP'", self.ran("can", "seed", "seed:22", "TCP").errors)

    def test_without_a_policy_all_reach_all(self):
        server = Server()
        self.addCleanup(server.stop)
        got = ran("can", "ann@", "bob@:22", environment=server.environment)
        self.assertEqual((got.status, server.policy()), (0, b"{}"))


class Checks(TailnetTest):
    """`policy check` by a server: the text's own first fault over the live machines."""

    def checked(self, text, *more):
        return self.ran("policy", "check", self.server.file("p.hujson", text), *more)

    def test_a_test_over_live_machines(self):
        # sound over no machines, and not over those that are there
        text = '{"acls":[{"action":"accept","src":["ann@"],"dst":["100.64.0.3:22"]}],"tests":[{"src":"ann@","deny":["100.64.0.3:22"]}]}'
        before = self.server.policy()
        self.assertIn(":1:101: P21 ", self.checked(text).output)
        self.assertEqual(self.checked("{}").output.rsplit("/", 1)[1], f"p.hujson: ok, over the live machines of {self.server.address}\n")
        self.assertEqual(self.server.policy(), before)

    def test_many_tests(self):
        one = '{"src":"ann@","accept":["ann@:22"]}'
        for count, status, is_told in ((255, 0, False), (256, 0, True), (257, 1, False)):
            got = self.checked('{"tests":[' + ",".join([one] * count) + ",]}")
            self.assertEqual(got.status, status, got.output)
            self.assertEqual("has 256 tests; the last one made room for the question, and wasn't tried" in got.errors, is_told)
        self.assertIn(" P19 ", got.output)

    def test_long_texts(self):
        for count, told in ((262144, "ok, over"), (262145, "P19")):
            self.assertIn(told, self.checked("{" + " " * (count - 2) + "}").output)
        packed = '{"hosts":{' + ",".join(f'"{"h" * 55}{at:08}":"100.64.0.1"' for at in range(512)) + '},"ssh":["' + "x" * 220000 + '"]}'
        packed = packed[:-3] + "x" * (262144 - len(packed)) + '"]}'
        self.assertEqual(len(packed), 262144)
        self.assertIn("the policy is so long that no test fits behind it", self.checked(packed).errors)

    def test_as_the_model(self):
        """Sound and unsound texts of the model's conversations, with a piece out of some of them."""
        draw, before = random.Random(3), self.server.policy()
        texts = [text.encode() for text in random_policies(100)]
        texts += [text[: (at := draw.randrange(len(text)))] + text[at + draw.randrange(1, 4) :] for text in texts]
        machines = machines_of(self.server.told("/api/v1/node")["nodes"])
        for text in texts:
            path = f"{self.server.folder.name}/cut.hujson"
            with open(path, "wb") as file:
                file.write(text)
            got = self.ran("policy", "check", path, "--json").json["faults"]
            self.assertEqual([(fault["code"], fault["place"]) for fault in got], model_faults(text, machines), text)
        self.assertEqual(self.server.policy(), before)


def model_faults(text, machines):
    """The first fault of a text without tests, by the model."""
    try:
        read_policy(text)
        return []
    except PolicyFault as fault:
        return [(fault.answer["code"], fault.answer["place"])]


class Recorder:
    """A server that refuses each text, and keeps it."""

    def __init__(self):
        self.texts = []

    def answer(self, method, path, body):
        self.texts.append(body)
        return Answer(422, b'{"code":"P1","place":"json"}')

    def object_of(self, answer):
        return json.loads(answer.body)


def mutated(draw, text):
    """A text with some pieces of it taken out, put in or doubled."""
    for _ in range(draw.randrange(4)):
        at, piece = draw.randrange(len(text) + 1), draw.choice(PIECES)
        end = at + draw.randrange(3)
        text = draw.choice([text[:at] + piece + text[at:], text[:at] + text[end:], text[:at] + text[at:end] * 2 + text[end:]])
    return text


def is_kept(text):
    """Whether a server with any machines could keep a text, by the model: no test of it fails already over none."""
    try:
        return first_failure(read_policy(text), []) is None
    except PolicyFault:
        return False


class Untakable(unittest.TestCase):
    """Texts with the impossible test behind their own."""

    def test_nothing_that_is_sent_is_ever_kept(self):
        draw, recorder, kept = random.Random(11), Recorder(), 0
        bases = [text.encode() for text in random_policies(20)] + [b"{}", b"{ }", b'{"tests":[]}', b'{"Tests":[{"src":"ann@"},],}', b'{"tests":null}// x', b"[]", b"", b"\xef\xbb\xbf{}"]
        for _ in range(MUTATIONS):
            text = mutated(draw, draw.choice(bases))
            kept += is_kept(text)
            with contextlib.suppress(Trouble):
                questions.first_fault(recorder, text)
        self.assertEqual([text for text in recorder.texts if is_kept(text)], [])
        self.assertEqual(len(recorder.texts), MUTATIONS)
        # (many of them would have been, as they came)
        self.assertGreater(kept, MUTATIONS // 8)

    def test_commas_and_comments(self):
        impossible = untakable.IMPOSSIBLE.decode()
        wanted = {
            "{}": '{"tests":[%s]}', "{ }": '{ "tests":[%s]}', '{"acls":[]}': '{"acls":[],"tests":[%s]}', '{"acls":[],}': '{"acls":[],"tests":[%s]}',
            '{"acls":[] /* , */}': '{"acls":[] /* , */,"tests":[%s]}', '{"acls":[], // ,\n}': '{"acls":[], // ,\n"tests":[%s]}',
            '{"tests":[]}': '{"tests":[%s]}', '{"tests":[{},]}': '{"tests":[{},%s]}', '{"TESTS":[{}// x\n]}': '{"TESTS":[{}// x\n,%s]}',
            '{"tests":1,"tests":[]}': '{"tests":1,"tests":[%s]}', '{"tests":null}': '{"tests":0}',
        }
        for text, form in wanted.items():
            got, _ = untakable.with_impossible_test(text.encode(), hujson.read(text.encode()))
            self.assertEqual(got.decode(), form % impossible if "%s" in form else form)
            hujson.read(got)

    def test_compact_says_the_same(self):
        text = b'{ // a\n "a\\u0041" : [ 1e5 , "\xc3\xa9//", { } , ], /* b */ "c" : null , }'
        self.assertEqual(hujson.compact(text, hujson.read(text)), b'{"a\\u0041":[1e5,"\xc3\xa9//",{}],"c":null}')
        self.assertEqual(json.loads(hujson.compact(text, hujson.read(text))), hujson.plain_value(hujson.read(text)))
