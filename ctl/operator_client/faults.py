"""The faults of a policy: the sentence of each code, as docs/POLICY.md has it, and the lines that show one."""

from dataclasses import dataclass

from .places import line_and_column, offset_of
from .shown import plain

SYNTAX = {
    "offset": ("a comma before which no value stands; a comment or a string without end", "take the comma out, or close the comment or string that begins there"),
    "json": ("the text is no JSON in UTF-8 once comments and trailing commas are out", "run it through a JSON reader that shows where it stops; numbers too large for a float, values that nest deeper than 127, and one half of a pair of surrogates are refused too"),
}
SENTENCES = {
    "P2": ("the top isn't an object", "put the sections into braces"),
    "P3": ("a key isn't known, or stands for one that was there before, as `users` beside `src`", "correct the spelling, or leave one of the two out"),
    "P4": (
        "a part of the policy file that isn't supported: the keys `ipsets`, `postures`, `defaultSrcPosture`; `srcPosture` in a rule or a grant; `app` or `via` in a grant; `services` in `autoApprovers`; "
        "`srcPostureAttrs` in a test; selectors that begin `ipset:` or `svc:`, and automatic groups other than the four above; a tag or an automatic group as owner of a tag",
        "say it by groups, tags, hosts, rules and grants",
    ),
    "P5": ("a list, an object or a text was due and isn't there; a rule has no `src` or no `dst`; a grant has no `src`, no `dst` or no `ip`", "give the value the shape that this page shows"),
    "P6": ("a group's name is ill-formed, or a member is no login", "begin the name with `group:`; end a login with `@` or `@` and a domain"),
    "P7": ("a host's name is ill-formed or is an address, or its value is no address or prefix", "choose another name; write a prefix from its base, as `10.0.0.0/8`"),
    "P8": ("a tag is ill-formed, or an owner is neither a login nor a group", "begin the tag with `tag:` and a letter; name users as `ann@`"),
    "P9": ("the action is missing or isn't `accept`", 'write `"action": "accept"`; what no rule accepts is refused anyway'),
    "P10": ("the protocol has no such name or number", "write the name in lower case, or the number"),
    "P11": ("the text has no selector's form; or an approver is none of login, group and tag", "correct the spelling; take the brackets off a prefix or an IPv4 address"),
    "P12": ("a group has no entry", "add it to `groups`"),
    "P13": ("a tag has no entry", "add it to `tagOwners`, if need be with an empty list"),
    "P14": ("a host has no entry. A tag or group whose ports are missing is also read so: `tag:web` is the host `tag` with ports `web`", "add it to `hosts`, or add the ports: `tag:web:*`"),
    "P15": ("`autogroup:internet` or `autogroup:self` is a source", "name the users, groups or tags that are meant, or `autogroup:member`"),
    "P16": ("a destination of a rule has no colon; or its ports, or those of an element of `ip`, are ill-formed", "add `:*` or the ports; put the lesser port first; in `ip` write one element for each piece"),
    "P17": ("ports other than `*` for a protocol that has none", "write `*`, or make a rule of its own for TCP, UDP or SCTP"),
    "P18": ("a route is no prefix, or stands there twice", "write the prefix from its base; join the lists of the two"),
    "P19": ("the text, a list or an object is over its limit, or ports have more than 64 pieces; or an `ip` brings the rules over 512", "name ranges, prefixes and groups in place of single ones; make two rules of one"),
    "P20": ("a test has no subject; its subject or a destination is none of login, group, tag and address; or a destination hasn't exactly one port", "name one user, group, tag, address or host, and one port"),
    "P21": ("a test fails", "fix the rules, or the test"),
}


def sentence_of(code, place):
    """What is wrong by a code, and how to fix it."""
    if code == "P1":
        return SYNTAX["json" if place == "json" else "offset"]
    return SENTENCES.get(code, ("a fault that this tailnetctl doesn't know", "See docs/POLICY.md of the server's version"))


@dataclass(frozen=True)
class Fault:
    """The first fault of a policy's text, and where it stands in it."""

    code: str
    place: str
    line: int
    column: int

    def sentence(self):
        """What is wrong, at which place, and how to fix it."""
        what, fix = sentence_of(self.code, self.place)
        at = "" if self.place.startswith(("offset ", "json", "top", "text")) and "." not in self.place else f" ({plain(self.place)})"
        return f"{what}{at}: {fix}"

    def shown(self, file):
        """A line as editors and CI read it."""
        return f"{plain(file)}:{self.line}:{self.column}: {plain(self.code)} {self.sentence()}"

    def annotation(self, file):
        """A line that a workflow of GitHub shows beside the file."""
        properties = f"file={property_text(file)},line={self.line},col={self.column},title={property_text(self.code)}"
        return f"::error {properties}::{data_text(self.sentence())}"

    def record(self, file):
        """What `--json` writes."""
        what, fix = sentence_of(self.code, self.place)
        return {"file": file, "line": self.line, "column": self.column, "code": self.code, "place": self.place, "what": what, "fix": fix}


def data_text(text):
    return text.replace("%", "%25").replace("\r", "%0D").replace("\n", "%0A")


def property_text(text):
    return data_text(text).replace(":", "%3A").replace(",", "%2C")


def fault_in(text, code, place):
    """A fault with its line and its column."""
    return Fault(code, place, *line_and_column(text, offset_of(text, code, place)))
