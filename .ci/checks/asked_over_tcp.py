"""Asks a server over TCP, and says what is wrong with its answer.

usage: asked_over_tcp.py PORT whole|cut|large
  whole: a request that is answered 200; cut: one that ends inside its head; large: one whose body is too long: the
  answer 413 arrives although the body isn't read
"""

import socket
import sys
import time

USERS = b"GET /api/v1/user HTTP/1.1\r\nHost: tail\r\nAuthorization: Bearer secret\r\nConnection: close\r\n\r\n"
LARGE = b"POST /api/v1/user HTTP/1.1\r\nHost: tail\r\nAuthorization: Bearer secret\r\nContent-Length: 2000000\r\n\r\n" + b" " * 200000
ASKED = {"whole": (USERS, b"HTTP/1.1 200 "), "cut": (b"GET / HTTP/1.1\r\n", b""), "large": (LARGE, b"HTTP/1.1 413 ")}


def connected(port):
    """A connection, tried for ten seconds."""
    for _ in range(200):
        try:
            return socket.create_connection(("127.0.0.1", port), timeout=30)
        except OSError:
            time.sleep(0.05)
    sys.exit(f"nobody listens at port {port}")


def answer(port, request):
    with connected(port) as client:
        client.sendall(request)
        client.shutdown(socket.SHUT_WR)
        got = b""
        while piece := client.recv(65536):
            got += piece
        return got


def main(port, what):
    request, begins = ASKED[what]
    got = answer(int(port), request)
    if not got.startswith(begins) or (not begins and got):
        sys.exit(f"{what}: answered {got[:100]!r}")


if __name__ == "__main__":
    main(*sys.argv[1:])
