#!/usr/bin/env python3
"""Four callers over two nodes of two lines each, round after round, and a fifth one who comes while both are full.

    tools/two_nodes.py LATD [--rounds N] [--seconds S]

Two nodes offer one service on two lines each; a server has five lines. In each round four callers come at once. Each must get the
greeting of a node and his own line back within S seconds (15 by itself), and each node has two of them. Then a fifth one comes; he
gets nothing while the four stay, and once one of them has left, the greeting of that one's node, within S seconds. In every second
round the callers of one node leave first, else they leave in any order. It passes where all that is so, and no caller got a byte that
wasn't for him. It needs Python 3 and a built `latd`.
"""

import argparse
import random
import socket
import sys
import threading
import time

from pair import NODE, SERVER, client, free_ports, start_with

OTHER = "aa0004000304"


def host(port, word):
    """A host that says its word to whoever dials, and then sends back what comes."""

    def talk(s):
        with s:
            try:
                s.sendall(word)
                while piece := s.recv(4096):
                    s.sendall(piece)
            except OSError:
                pass

    def listen(listener):
        while True:
            threading.Thread(target=talk, args=(listener.accept()[0],), daemon=True).start()

    threading.Thread(target=listen, args=(socket.create_server(("127.0.0.1", port)),), daemon=True).start()


class Caller(threading.Thread):
    """Who calls a line, and sends a line of his own once he is greeted."""

    def __init__(self, port, number):
        super().__init__(daemon=True)
        self.s, self.line, self.begun = client(port), b"line of %d\n" % number, time.monotonic()
        self.came, self.took, self.node = bytearray(), None, None

    def run(self):
        try:
            while piece := self.s.recv(4096):
                self.came += piece
                if not self.node and len(self.came) >= 5:
                    self.node = bytes(self.came[:5])
                    self.s.sendall(self.line)
                if len(self.came) == 5 + len(self.line):
                    self.took = time.monotonic() - self.begun
        except OSError:
            pass

    def right(self):
        """Whether all that came is the greeting of a node and his own line."""
        return any((word + self.line).startswith(self.came) for word in (b"VAX1\n", b"VAX2\n"))

    def leave(self):
        self.s.shutdown(socket.SHUT_WR)
        self.join(10)
        self.s.close()


def until(done, seconds):
    end = time.monotonic() + seconds
    while not done() and time.monotonic() < end:
        time.sleep(0.01)
    return done()


def main():
    words = argparse.ArgumentParser()
    words.add_argument("latd")
    words.add_argument("--rounds", type=int, default=6)
    words.add_argument("--seconds", type=float, default=15)
    given = words.parse_args()
    base = free_ports(12)
    one, two, up = base + 3, base + 4, base + 5
    host(one, b"VAX1\n")
    host(two, b"VAX2\n")
    start_with(given.latd, "node", "VAX1", NODE, base + 1, ["--lines", 2, "--service", f"VAX={one}"], [base])
    start_with(given.latd, "node", "VAX2", OTHER, base + 2, ["--lines", 2, "--service", f"VAX={two}"], [base])
    usual = ["--lines", 5, "--line-port", up, "--service", "VAX"]
    start_with(given.latd, "server", "TS1", SERVER, base, usual, [base + 1, base + 2])
    wrong, number = [], 0
    for at in range(1, given.rounds + 1):
        callers = []
        for k in range(4):
            number += 1
            callers.append(Caller(up + k, number))
            callers[-1].start()
        if not until(lambda: all(caller.took for caller in callers), given.seconds):
            wrong.append(f"round {at}: {sum(caller.took is None for caller in callers)} of four have nothing after {given.seconds} s")
            break
        nodes = sorted(caller.node for caller in callers)
        if nodes != [b"VAX1\n", b"VAX1\n", b"VAX2\n", b"VAX2\n"]:
            wrong.append(f"round {at}: the four are at {nodes}")
        number += 1
        fifth = Caller(up + 4, number)
        fifth.start()
        time.sleep(2.5)
        if fifth.came:
            wrong.append(f"round {at}: the fifth got {bytes(fifth.came)!r}, and both nodes are full")
        order = sorted(callers, key=lambda caller: caller.node) if at % 2 else random.Random(at).sample(callers, 4)
        order[0].leave()
        left = time.monotonic()
        if not until(lambda: fifth.took, given.seconds):
            wrong.append(f"round {at}: a line is free, and the fifth has nothing after {given.seconds} s")
        elif fifth.node != order[0].node:
            wrong.append(f"round {at}: the fifth is at {fifth.node}, and the free line at {order[0].node}")
        took = time.monotonic() - left
        for caller in [*order[1:], fifth]:
            caller.leave()
        wrong += [f"round {at}: {bytes(c.came)!r} came to {c.line!r}" for c in [*callers, fifth] if not c.right()]
        waits = ", ".join(f"{caller.took:.2f}" for caller in sorted(callers, key=lambda caller: caller.took))
        print(f"round {at}: the four after {waits} s; the fifth {took:.2f} s behind a leaving", flush=True)
    for w in wrong:
        print(w)
    print("each node served as many as it has lines" if not wrong else "WRONG")
    return 1 if wrong else 0


if __name__ == "__main__":
    sys.exit(main())
