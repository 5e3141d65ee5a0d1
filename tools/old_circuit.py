#!/usr/bin/env python3
"""Callers behind the restart of a node to which the server still has a circuit.

    tools/old_circuit.py LATD [--rounds N] [--seconds S]

A terminal at line 2 of a server is connected to a node and is quiet, so that the circuit lives and nothing is to be sent on it. The node
is killed and started again at once, in three ways, each N times (twice by itself):

    quiet       a second later a terminal comes to line 1
    waits       one has come to line 1 before, and the node was killed between the acknowledgement of its ask and the answer
    leaves      the same, and it leaves; then another one comes to line 1

It is told how long it takes until who comes or waits gets his first byte, behind the later of his call and the node's start. It passes
where that is at most S seconds (2 by itself). The node's answer is late by its timer of a second. It needs Python 3 and a built `latd`.
"""

import argparse
import socket
import sys
import threading
import time

from pair import NODE, SERVER, client, free_ports, start_with


def host(port):
    """A host that greets whoever dials, and keeps him."""
    kept, listener = [], socket.create_server(("127.0.0.1", port))

    def listen():
        while True:
            kept.append(listener.accept()[0])
            kept[-1].sendall(b"hello")

    threading.Thread(target=listen, daemon=True).start()


def greeted(s, seconds=90):
    """Whether the greeting comes within some seconds."""
    s.settimeout(seconds)
    try:
        return s.recv(5) == b"hello"
    except OSError:
        return False


def case(latd, way):
    """How long it takes in this way."""
    base = free_ports(8)
    at_host, up = base + 2, base + 3
    host(at_host)

    def node(timer):
        words = ["--lines", 2, "--service", f"VAX={at_host}", "--timer", timer]
        return start_with(latd, "node", "VAX1", NODE, base + 1, words, [base])

    first = node(100)
    server = start_with(latd, "server", "TS1", SERVER, base, ["--lines", 2, "--line-port", up, "--service", "VAX"], [base + 1])
    quiet = client(up + 1)
    if not greeted(quiet):
        raise SystemExit("WRONG: nobody is served at all")
    time.sleep(2)
    caller = client(up) if way != "quiet" else None
    # (by then the ask has gone out and was acknowledged, and the answer waits for company)
    time.sleep(0.3)
    first.kill()
    first.wait()
    second = node(8)
    begun = time.monotonic()
    if way != "waits":
        time.sleep(1)
        if caller:
            caller.close()
            time.sleep(0.2)
        caller, begun = client(up), time.monotonic()
    right = greeted(caller)
    took = time.monotonic() - begun
    for daemon in (server, second):
        daemon.kill()
        daemon.wait()
    return took if right else None


def main():
    words = argparse.ArgumentParser()
    words.add_argument("latd")
    words.add_argument("--rounds", type=int, default=2)
    words.add_argument("--seconds", type=float, default=2)
    given = words.parse_args()
    wrong = False
    for way in ("quiet", "waits", "leaves"):
        for _ in range(given.rounds):
            took = case(given.latd, way)
            wrong = wrong or took is None or took > given.seconds
            print(f"{way}: {'never' if took is None else f'{took:.2f} s'}", flush=True)
    print("WRONG" if wrong else f"each within {given.seconds} s")
    return 1 if wrong else 0


if __name__ == "__main__":
    sys.exit(main())
