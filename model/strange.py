"""What strangers may send: random bytes, heads with one byte changed, bodies with one token changed or repeated."""

import re

MACHINE, OTHER = "mkey:" + "1" * 64, "mkey:" + "2" * 64
NODE = "nodekey:" + "a" * 64
OPERATOR = "Authorization: Bearer secret"


def request(line, caller, body="", more="Host: tail\r\n", end="\r\n"):
    """The head and the body of a request."""
    lines = f"{line} HTTP/1.1\r\n{more}{caller}\r\nContent-Length: {len(body.encode())}\r\n\r\n".replace("\r\n", end)
    return lines.encode(), body.encode()


def of_machine(path, body, machine=MACHINE):
    return request(f"POST {path}", f"Ts-Machine-Key: {machine}", body)


REGISTER = (
    '{"Auth":{"AuthKey":"k1"},"Ephemeral":false,"Expiry":"2030-01-01T00:00:00Z","Hostinfo":{"Hostname":"caf\\u00e9","RequestTags":[],'
    f'"RoutableIPs":["10.1.0.0/16","fd00::/8"]}},"NodeKey":"{NODE}","OldNodeKey":"nodekey:{"0" * 64}","Version":131}}'
)
WAITING = f'{{"Hostinfo":{{"Hostname":"desk"}},"NodeKey":"nodekey:{"b" * 64}"}}'
MAP = (
    f'{{"Compress":"","DiscoKey":"discokey:{"c" * 64}","Endpoints":["192.0.2.7:41641","[2001:db8::1]:1"],"Hostinfo":{{"Hostname":"x","NetInfo":'
    f'{{"PreferredDERP":7}},"RoutableIPs":["10.1.0.0/16"]}},"NodeKey":"{NODE}","OmitPeers":true,"ReadOnly":false,"Stream":false}}'
)
POLL = f'{{"MapSessionHandle":"s1-0000000000000001","MapSessionSeq":1,"NodeKey":"{NODE}","Stream":true}}'
KEY = '{"user":"seed@","reusable":true,"ephemeral":false,"expiry":"2030-01-01T00:00:00Z","tags":["tag:web"]}'
RECORDS = '[{"Name":"nas.tail.example","Type":"A","Value":"192.168.5.9"},{"Name":"six","Type":"","Value":"2001:db8::1"}]'
POLICY = """{
    // who may what
    "groups": {"group:dev": ["ann@", "seed@"]}, "hosts": {"lab": "192.168.5.0/24", "one": "100.64.0.1"},
    "tagOwners": {"tag:web": ["group:dev"]},
    "acls": [{"action": "accept", "proto": "tcp", "src": ["group:dev", "100.64.0.0/10"], "dst": ["tag:web:22,80-90", "lab:*"]},],
    "grants": [{"src": ["autogroup:member"], "dst": ["autogroup:self"], "ip": ["*", "udp:53"]}], /* and so on */
    "autoApprovers": {"routes": {"10.0.0.0/8": ["group:dev"]}, "exitNode": ["seed@"]},
    "tests": [{"src": "seed@", "accept": ["tag:web:22"], "deny": ["tag:web:443"]}],
}"""
# a machine, another that waits, and a user
PREPARED = [of_machine("/machine/register", REGISTER), of_machine("/machine/register", WAITING, OTHER), request("POST /api/v1/user", OPERATOR, '{"name":"ann"}')]
BODIES = [
    of_machine("/machine/register", REGISTER),
    of_machine("/machine/register", WAITING, OTHER),
    of_machine("/machine/map", MAP),
    of_machine("/machine/map", POLL),
    request("POST /api/v1/user", OPERATOR, '{"name":"bob"}'),
    request("POST /api/v1/preauthkey", OPERATOR, KEY),
    request("POST /api/v1/register", OPERATOR, '{"id":"reg-1-00000000000000010000000000000002","user":"ann@"}'),
    request("POST /api/v1/node/1/expire", OPERATOR, '{"expiry":"2031-01-01T00:00:00Z"}'),
    request("POST /api/v1/node/1/rename", OPERATOR, '{"name":"laptop"}'),
    request("POST /api/v1/node/1/tags", OPERATOR, '{"tags":[]}'),
    request("POST /api/v1/node/1/routes", OPERATOR, '{"routes":["10.1.0.0/16"]}'),
    request("PUT /api/v1/policy", OPERATOR, POLICY),
    request("PUT /api/v1/dns", OPERATOR, RECORDS),
    request("POST /api/v1/sweep", OPERATOR, "{}"),
]
HEADS = [
    *BODIES,
    request("GET /api/v1/user", OPERATOR),
    request("GET /api/v1/node?all=1", OPERATOR, more="\r\nHost:tail\r\nAccept: */*\r\n", end="\n"),
    request("DELETE /api/v1/node/1", OPERATOR.lower().replace("bearer", "Bearer"), more="HOST: \t tail\t\r\nX-Empty:\r\n"),
    request("DELETE /api/v1/user/ann@", f"{OPERATOR}\r\nAuthorization: Bearer other", more="Host: tail\r\nConnection: keep-alive\r\n"),
    request("GET /api/v1/preauthkey", OPERATOR, more="Host: tail\r\nConnection: Close\r\n"),
    request("GET /caf\u00e9/\u65e5\u672c", OPERATOR, "not looked at"),
    request("POST /api/v1/sweep", f"{OPERATOR}\r\nContent-Length: 2", "{}"),
    request("POST /api/v1/sweep", f"{OPERATOR}\r\nTransfer-Encoding: chunked", "{}"),
    request("POST /machine/map", f"Ts-Machine-Key: {MACHINE}\r\nTs-Machine-Key: {OTHER}", MAP),
    request("GET /api/v1/dns", "\r\n".join([OPERATOR, *(f"X-{at}: {at}" for at in range(61))])),
]
SPECIAL = b"\0\t\n\r !\"#%&()*+,-./0129:;<=>?@[\\]^_`{|}~\x7f\x80\xbf\xc3\xff"
ALPHABETS = [bytes(range(256)), bytes(range(33, 127)), b"GETPOSTHTTP/1.1 :\r\n", b"abcdefgh", b"\r\n", b"X: \n", b"\xc3\xa9a/"]
TOKEN = re.compile(rb'"(?:\\.|[^"\\])*"|//[^\n]*|/\*.*?\*/|[\[\]{}:,]|\s+|[^\s\[\]{}:,"]+', re.DOTALL)
MARKS = [
    b"", b"[", b"]", b"{", b"}", b":", b",", b" ", b"\n", b"\t", b"\xc2\xa0", b"\xff", b"\xef\xbb\xbf", b"//", b"/*", b"/* */", b'"', b"'", b"nul", b"True", b"NaN",
    b"-Infinity", b"+1", b"00", b"1.", b".5",
]
VALUES = [
    b"null", b"true", b"false", b"0", b"-0", b"1", b"-1", b"1.0", b"1e2", b"1E-2", b"0e999", b"1e400", b"9" * 400, b"65535", b"65536", b"18446744073709551615",
    b"18446744073709551616", b'""', b'"x"', b'"\\u0000"', b'"\\ud800"', b'"\\ud83d\\ude00"', b'"\\udc00\\ud800"', b'"\\x"', b'"\\u12"', b'"\0"', b'"\n"', b'"\x7f"',
    b'"\xff"', b'"\\/"', "\"\u00e9\"".encode(), b'"' + b"a" * 256 + b'"', b"[]", b"{}", b"[null]", b"[1]", b"[" * 126 + b"]" * 126, b"[" * 128 + b"]" * 128,
    b'{"a":1,"a":"\\ud800","a":2}', b'"*"', b'"tag:web"', b'"ann@"', b'"10.0.0.0/8"', b'"0001-01-01T00:00:00Z"', b'"' + NODE.encode() + b'"', b'"' + MACHINE.encode() + b'"',
]


def noise(draw):
    """Random bytes of one alphabet, now and then behind the beginning of a request."""
    front = draw.choice([b"", b"", b"GET /", b"GET / HTTP/1.1\r\n", b"GET / HTTP/1.1\r\nHost: tail\r\n", b"\r\n\n"])
    length = draw.choice([draw.randrange(1, 40), draw.randrange(1, 1000), draw.randrange(1, 20000), draw.randrange(16000, 17000)])
    return front + bytes(draw.choices(draw.choice(ALPHABETS), k=length))


def changed_head(draw):
    """A request with one byte of its head changed."""
    head, body = draw.choice(HEADS)
    place = draw.randrange(len(head))
    byte = draw.choice(SPECIAL) if draw.randrange(4) == 0 else draw.randrange(256)
    return head[:place] + bytes([byte]) + head[place + 1 :] + body


def other_token(draw, token, tokens):
    """What stands in a token's place: mostly, of a text, a number or a word, another one; or any token; or that token twice."""
    if draw.randrange(4) == 0:
        return token * 2
    is_value = re.fullmatch(rb'".*"|[^\s\[\]{}:,"/]+', token, re.DOTALL) is not None
    return draw.choice(VALUES if is_value and draw.randrange(4) else MARKS + VALUES + tokens)


def changed_body(draw):
    """A request with one token of its body changed or repeated."""
    head, body = draw.choice(BODIES)
    tokens = TOKEN.findall(body)
    place = draw.randrange(len(tokens))
    body = b"".join([*tokens[:place], other_token(draw, tokens[place], tokens), *tokens[place + 1 :]])
    return re.sub(rb"Content-Length: [0-9]+", b"Content-Length: %d" % len(body), head) + body
