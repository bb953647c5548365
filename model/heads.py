"""Heads of requests, the requests that bytes are cut into, which of them are refused, and the bytes of answers."""

import re
from http import HTTPStatus

HEAD_LIMIT, LINE_LIMIT, BODY_LIMIT = 16384, 64, 1048576
# bytes of a method or of a field's name, of a target, and of a value; and the end of a line
TOKEN, TARGET, VALUE, END = rb"[!#$%&'*+.^_`|~0-9A-Za-z-]", rb"[\x21-\x7e\x80-\xff]", rb"[\t\x20-\x7e\x80-\xff]", rb"\r?\n"
LINES = rb"((?:" + TOKEN + rb"+:" + VALUE + rb"*" + END + rb")*)"
START = rb"(?:" + END + rb")*(" + TOKEN + rb"+) (" + TARGET + rb"+) HTTP/1\.([01])" + END
HEAD = re.compile(START + LINES + END)
PHRASES = {status.value: status.phrase for status in HTTPStatus} | {413: "Payload Too Large"}


class HeadFault(Exception):
    """A head is refused, and the connection ends."""

    def __init__(self, status, error):
        super().__init__(error)
        self.status, self.answer = status, {"error": error}


def head_bytes(request):
    lines = [f"{request['method']} {request['path']} {request['version']}"]
    lines += [f"{name}:{value}" for name, value in request["fields"]]
    return "\r\n".join([*lines, "", ""]).encode()


def values_of(request, name):
    """The values of the field lines with a name, without the spaces and tabs around them."""
    return [value.strip(" \t") for other, value in request["fields"] if other.lower() == name]


def refuse_head(request):
    """Refuses a head that breaks a rule, the first in their order."""
    if request["version"] not in ("HTTP/1.0", "HTTP/1.1"):
        # (what names another version begins no head, however long it is)
        raise HeadFault(400, "BadHead")
    if len(head_bytes(request)) > HEAD_LIMIT:
        raise HeadFault(431, "HeadTooLong")
    refuse_lines(request)


def refuse_lines(request):
    """Refuses a head that is whole and not too long."""
    lengths = values_of(request, "content-length")
    if len(request["fields"]) > LINE_LIMIT:
        raise HeadFault(431, "HeadTooLong")
    if request["version"] != "HTTP/1.1" or len(values_of(request, "host")) != 1:
        raise HeadFault(400, "BadHead")
    if values_of(request, "transfer-encoding") or (request["method"] in ("POST", "PUT") and not lengths):
        raise HeadFault(411, "NoLength")
    if not all(re.fullmatch("[0-9]{1,10}", length) for length in lengths) or len(set(lengths)) > 1:
        raise HeadFault(400, "BadHead")
    if lengths and int(lengths[0]) > BODY_LIMIT:
        raise HeadFault(413, "BodyTooLong")


def is_utf8(text):
    try:
        text.decode("utf-8")
    except ValueError:
        return False
    return True


def beginning_of(text):
    """A pattern of what such a text may begin with, of nothing too."""
    return b"" if not text else rb"(?:" + re.escape(text[:1]) + beginning_of(text[1:]) + rb")?"


# what a head begins with up to somewhere: in its empty lines or its method; in its target; behind it, in the version; in its lines
BEFORE = re.compile(rb"(?:" + END + rb")*(?:\r|" + TOKEN + rb"*)")
WITHIN = re.compile(rb"(?:" + END + rb")*" + TOKEN + rb"+ " + TARGET + rb"*")
BEHIND = re.compile(rb"(?:" + END + rb")*" + TOKEN + rb"+ (" + TARGET + rb"+) (?:" + beginning_of(b"HTTP/1.") + rb"|HTTP/1\.[01]\r?)")
LATER = re.compile(START + LINES + rb"(?:\r|" + TOKEN + rb"*|" + TOKEN + rb"+:" + VALUE + rb"*\r?)")


def begins_head(front):
    """Whether bytes may follow that make a head of these. A target that hasn't ended is taken as text."""
    if BEFORE.fullmatch(front) or WITHIN.fullmatch(front):
        return True
    if found := BEHIND.fullmatch(front):
        return is_utf8(found[1])
    found = LATER.fullmatch(front)
    return found is not None and is_utf8(found[2])


def head_of(found):
    """The request line and the fields of a whole head."""
    lines = [line.split(b":", 1) for line in re.split(END, found[4])[:-1]]
    return {
        "method": found[1].decode(),
        "path": found[2].decode("utf-8"),
        "version": f"HTTP/1.{found[3].decode()}",
        "fields": [(name.decode(), value.decode("latin-1")) for name, value in lines],
    }


def first_request(held):
    """The first request of these bytes and what stands behind it; None where they hold none yet. Raises what refuses them."""
    front = held[:HEAD_LIMIT]
    found = HEAD.match(front)
    if not found or not is_utf8(found[2]):
        if not begins_head(front):
            raise HeadFault(400, "BadHead")
        if len(held) > HEAD_LIMIT:
            raise HeadFault(431, "HeadTooLong")
        return None
    request = head_of(found)
    refuse_lines(request)
    behind = held[found.end() :]
    size = int((values_of(request, "content-length") or ["0"])[0])
    return None if len(behind) < size else ({**request, "body": behind[:size]}, behind[size:])


STREAM_HEAD = b"HTTP/1.1 200 OK\r\nContent-Type: application/json\r\nTransfer-Encoding: chunked\r\n\r\n"
LAST_CHUNK = b"0\r\n\r\n"


def frame_of(text):
    return len(text).to_bytes(4, "little") + text


def chunk_of(frame):
    return f"{len(frame):x}\r\n".encode() + frame + b"\r\n"


def answer_bytes(status, body, ends):
    """An answer with a body, or, where the body is a list of frames, with a stream."""
    if isinstance(body, list):
        return STREAM_HEAD + b"".join(chunk_of(frame) for frame in body) + LAST_CHUNK
    lines = [f"HTTP/1.1 {status} {PHRASES[status]}", "Content-Type: application/json", f"Content-Length: {len(body)}"]
    return "\r\n".join([*lines, *(["Connection: close"] if ends else []), "", ""]).encode() + body
