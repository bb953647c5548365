"""One connection: its bytes, and what they are answered."""

import ipaddress

from front import Front
from heads import HeadFault, answer_bytes, first_request, values_of
from tailnet import Tailnet

MOMENT = 1000000000
SEED = "k1"
SETTINGS = {
    "base_domain": "tail.example",
    "server_url": "http://tail.example",
    "token": "secret",
    "ephemeral_seconds": 1800,
    "pending_seconds": 3600,
    "key_seconds": 0,
    "prefix_v4": ipaddress.ip_network("100.64.0.0/10"),
    "prefix_v6": ipaddress.ip_network("fd7a:115c:a1e0::/48"),
}
SETTINGS_TEXT = "".join(f'{name} = "{SETTINGS[name]}"\n' for name in ("base_domain", "server_url", "token"))
# each ends the connection
EARLY = (400, 411, 413, 431)


class Connection:
    """The first of a tailnet with the default settings and the seed, at one moment, with the words 1, 2, 3, 4 at each draw."""

    def __init__(self):
        tailnet = Tailnet(SETTINGS, MOMENT)
        self.front = Front(tailnet, SETTINGS, lambda: MOMENT, lambda: [1, 2, 3, 4])
        self.front.at_once().seed(SEED)
        self.asked, self.held, self.answered = b"", b"", b""
        self.ended, self.is_early, self.codes = False, False, []
        # the pieces that were taken, each with the answers' length once it was
        self.pieces = []

    def take(self, piece):
        self.asked += piece
        self.held += piece
        while not self.ended and self.go_on():
            pass
        self.pieces.append((piece, len(self.answered)))

    def go_on(self):
        """Whether one more request was there and was answered."""
        try:
            found = first_request(self.held)
        except HeadFault as fault:
            self.write(fault.status, b'{"error":"%s"}' % fault.answer["error"].encode(), True)
            return True
        if found is None:
            return False
        request, self.held = found
        code, body = self.front.answer(request)
        self.write(code, body, "close" in [value.lower() for value in values_of(request, "connection")])
        return True

    def write(self, code, body, is_last):
        self.is_early = code in EARLY
        self.ended = is_last or self.is_early
        self.codes.append(code)
        self.answered += answer_bytes(code, body, self.ended)

    def status(self):
        """What the program ends with once the input ends here: 1 where it ended early, or within a request."""
        return int(self.is_early if self.ended else bool(self.held))
