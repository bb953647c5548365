"""Polls a server as a machine over TCP and closes the connection, and says what is wrong if the machine isn't offline within
two seconds.

usage: left_over_tcp.py PORT
"""

import json
import socket
import sys
import time

from asked_over_tcp import connected

MACHINE = "mkey:" + "1" * 64
NODE = "nodekey:" + "a" * 64
OPERATOR = "Authorization: Bearer secret\r\n"
CALLER = f"Ts-Machine-Key: {MACHINE}\r\n"
# the longest that a machine may look online once its client has left
SECONDS = 2


def request(line, caller, body, more=""):
    return f"{line} HTTP/1.1\r\nHost: tail\r\n{caller}{more}Content-Length: {len(body)}\r\n\r\n{body}".encode()


def answer(port, line, caller, form=None):
    """The JSON that a request is answered."""
    with connected(port) as client:
        client.sendall(request(line, caller, "" if form is None else json.dumps(form), "Connection: close\r\n"))
        got = b""
        while piece := client.recv(65536):
            got += piece
    return json.loads(got.split(b"\r\n\r\n", 1)[1])


def is_online(port):
    return answer(port, "GET /api/v1/node", OPERATOR)["nodes"][0]["online"]


def polling(port):
    """The connection of a poll, once its first frame has come."""
    client = connected(port)
    client.sendall(request("POST /machine/map", CALLER, json.dumps({"NodeKey": NODE, "Stream": True})))
    got = b""
    while b'"Seq":1' not in got:
        piece = client.recv(65536)
        if not piece:
            sys.exit(f"the poll ended: {got[:200]!r}")
        got += piece
    return client


def main(port):
    port = int(port)
    answer(port, "POST /api/v1/user", OPERATOR, {"name": "ann"})
    key = answer(port, "POST /api/v1/preauthkey", OPERATOR, {"user": "ann@"})["key"]
    answer(port, "POST /machine/register", CALLER, {"Auth": {"AuthKey": key}, "NodeKey": NODE})
    client = polling(port)
    # (it waits, and is looked at more than once)
    time.sleep(2.5)
    if not is_online(port):
        sys.exit("a machine that polls isn't online")
    client.close()
    left = time.monotonic()
    while is_online(port):
        if time.monotonic() - left > SECONDS:
            sys.exit(f"online {SECONDS} seconds after its client left")
        time.sleep(0.05)


if __name__ == "__main__":
    main(*sys.argv[1:])
