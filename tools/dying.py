#!/usr/bin/env python3
"""A node that dies beside a free one.

    tools/dying.py LATD [--seconds S]

Two nodes offer one service, the first with two lines and so with the higher rating; a caller of the server is connected to it. The
first node is killed. It passes where this caller is hung up within S seconds (30 by itself), where one who comes right behind the
kill is connected to the second node within S seconds, and one who comes then within two; and where no byte came to anybody for whom
it wasn't. It needs Python 3 and a built `latd`.
"""

import argparse
import socket
import sys
import threading
import time

from pair import NODE, SERVER, client, free_ports, start_with

OTHER = "aa0004000304"


def host(port, word):
    """A host that says its word to whoever dials, and then sends back what comes."""

    def talk(s):
        with s:
            try:
                s.sendall(word)
                while piece := s.recv(4096):
                    s.sendall(piece)
            except OSError:
                pass

    def listen(listener):
        while True:
            threading.Thread(target=talk, args=(listener.accept()[0],), daemon=True).start()

    threading.Thread(target=listen, args=(socket.create_server(("127.0.0.1", port)),), daemon=True).start()


def heard(s, count, seconds):
    """So many bytes as come within some seconds, and how long they took."""
    begun, came = time.monotonic(), b""
    s.settimeout(seconds)
    try:
        while len(came) < count:
            piece = s.recv(4096)
            if not piece:
                break
            came += piece
    except OSError:
        pass
    return came, time.monotonic() - begun


def main():
    words = argparse.ArgumentParser()
    words.add_argument("latd")
    words.add_argument("--seconds", type=float, default=30)
    given = words.parse_args()
    base = free_ports(12)
    one, two, up = base + 3, base + 4, base + 5
    host(one, b"first")
    host(two, b"second")
    first = start_with(given.latd, "node", "VAX1", NODE, base + 1, ["--lines", 2, "--service", f"VAX={one}"], [base])
    start_with(given.latd, "node", "VAX2", OTHER, base + 2, ["--lines", 1, "--service", f"VAX={two}"], [base])
    usual = ["--lines", 3, "--line-port", up, "--service", "VAX"]
    start_with(given.latd, "server", "TS1", SERVER, base, usual, [base + 1, base + 2])
    wrong = []
    for _ in range(10):
        # (a node that isn't heard yet isn't chosen)
        time.sleep(1)
        caller = client(up)
        came, took = heard(caller, 5, 10)
        if came == b"first":
            break
        caller.close()
    print(f"the first caller: {came!r} after {took:.2f} s")
    if came != b"first":
        wrong.append("the first caller isn't at the first node")
    first.kill()
    first.wait()
    next_one = client(up + 1)
    came, took = heard(next_one, 6, given.seconds)
    print(f"behind the kill: {came!r} after {took:.2f} s")
    if came != b"second":
        wrong.append("who came behind the kill isn't at the second node")
    next_one.close()
    left, took = heard(caller, 1, given.seconds)
    print(f"the first caller was hung up {took:.2f} s later" if not left else f"the first caller got {left!r}")
    if left or took >= given.seconds:
        wrong.append("the first caller wasn't hung up, or got a byte that wasn't for him")
    time.sleep(1)
    last = client(up + 2)
    came, took = heard(last, 6, 10)
    print(f"then: {came!r} after {took:.2f} s")
    if came != b"second" or took > 2:
        wrong.append("who came then isn't at the second node within two seconds")
    for w in wrong:
        print(w)
    print("the free node serves" if not wrong else "WRONG")
    return 1 if wrong else 0


if __name__ == "__main__":
    sys.exit(main())
