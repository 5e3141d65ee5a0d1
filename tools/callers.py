#!/usr/bin/env python3
"""Callers in turn on the lines of two daemons, over a wire that loses, repeats and reorders datagrams.

    tools/callers.py LATD [--callers N] [--lines L] [--bytes B] [--loss P] [--seed X] [--leave P]

N callers come to the L lines of a server, one after another on each line. Each sends bytes of its own, B at most, to a host at
the other end, which sends them back, and hangs up once all came back; of P of them (a share of one) the caller goes in the middle.
The host's end of each session is kept: it passes where every session had bytes of one caller alone, from the first one on, each
once and in order; where each caller that stayed got all its bytes back; and where both daemons end by themselves, with status 0,
behind N sessions. It needs Python 3 and a built `latd`.
"""

import argparse
import random
import socket
import sys
import threading
import time

from lossy_wire import Wire
from pair import NODE, SERVER, ended, free_ports, start


class Hosts(threading.Thread):
    """Who comes to a line of the node again and again, and sends back what comes."""

    def __init__(self, port):
        super().__init__(daemon=True)
        self.port = port
        self.seen = []
        self.over = False

    def run(self):
        while not self.over:
            try:
                s = socket.create_connection(("127.0.0.1", self.port), timeout=5)
            except OSError:
                time.sleep(0.02)
                continue
            came = bytearray()
            s.settimeout(60)
            try:
                while piece := s.recv(4096):
                    came += piece
                    s.sendall(piece)
            except OSError:
                pass
            s.close()
            if came:
                self.seen.append(bytes(came))


class Callers(threading.Thread):
    """The callers of one line of the server, one after another."""

    def __init__(self, line, port, numbers, given):
        super().__init__(daemon=True)
        self.line, self.port, self.numbers, self.given = line, port, numbers, given
        self.wrong, self.sent, self.waits, self.turned = [], {}, [], 0

    def run(self):
        for number in self.numbers:
            r = random.Random(self.given.seed * 1_000_003 + number)
            data = b"%08d" % number + r.randbytes(r.randrange(1, self.given.bytes))
            leaves = r.random() < self.given.leave
            self.sent[number] = (data, leaves)
            self.call(number, data, leaves, r)

    def call(self, number, data, leaves, r):
        """Calls until the line takes the caller: who knocks while another is still there is turned away."""
        most = r.randrange(8, len(data)) if leaves else len(data)
        for _ in range(200):
            came, why = self.talk(data, most)
            if came:
                break
            self.turned += 1
            time.sleep(0.05)
        if bytes(came) != data[: len(came)]:
            self.wrong.append(f"caller {number} on line {self.line} got what it hadn't sent")
        elif len(came) < most:
            self.wrong.append(f"caller {number} on line {self.line} got {len(came)} of {most} bytes back: {why}")

    def talk(self, data, most):
        """Sends the data, not far ahead of what comes back, and tells what came of one call, and why it ended."""
        begun = time.monotonic()
        came, at = bytearray(), 0
        try:
            s = socket.create_connection(("127.0.0.1", self.port), timeout=30)
        except OSError as e:
            return came, e
        with s:
            s.settimeout(60)
            try:
                while len(came) < most:
                    while at < len(data) and at - len(came) < 4096:
                        at += s.send(data[at : at + 512])
                    piece = s.recv(4096)
                    if not piece:
                        return came, "hung up"
                    if not came:
                        self.waits.append(time.monotonic() - begun)
                    came += piece
            except OSError as e:
                return came, e
        return came, "done"


def main():
    words = argparse.ArgumentParser()
    words.add_argument("latd")
    words.add_argument("--callers", type=int, default=200)
    words.add_argument("--lines", type=int, default=4)
    words.add_argument("--bytes", type=int, default=4000)
    words.add_argument("--loss", type=float, default=0.1)
    words.add_argument("--leave", type=float, default=0.3)
    words.add_argument("--seed", type=int, default=1)
    given = words.parse_args()
    base = free_ports(10 + 2 * given.lines)
    wire = Wire(base, given.loss, given.seed)
    wire.start()
    up, down = base + 10, base + 10 + given.lines
    node = start(given.latd, "node", "VAX1", NODE, base + 1, given.lines, down, "VAX", given.callers, [base + 3])
    server = start(given.latd, "server", "TS1", SERVER, base, given.lines, up, "VAX", given.callers, [base + 2])
    time.sleep(1)
    hosts = [Hosts(down + k) for k in range(given.lines)]
    lines = [Callers(k + 1, up + k, range(k, given.callers, given.lines), given) for k in range(given.lines)]
    begun = time.monotonic()
    for thread in hosts + lines:
        thread.start()
    for line in lines:
        line.join()
    took = time.monotonic() - begun
    statuses = []
    for role, process in (("server", server), ("node", node)):
        status, text = ended(process, 20)
        statuses.append(status)
        print(f"{role}: status {status}\n{text}", end="")
    for host in hosts:
        host.over = True
    wrong = [w for line in lines for w in line.wrong]
    sent = {number: kept for line in lines for number, kept in line.sent.items()}
    seen = [bytes_ for host in hosts for bytes_ in host.seen]
    for came in seen:
        number = int(came[:8]) if came[:8].isdigit() else -1
        if number not in sent or came != sent[number][0][: len(came)]:
            wrong.append(f"a session had {len(came)} bytes that aren't one caller's: {came[:24]!r}")
    numbers = [came[:8] for came in seen]
    if len(set(numbers)) != len(numbers):
        wrong.append("a caller's bytes came in two sessions")
    waits = sorted(w for line in lines for w in line.waits)
    turned = sum(line.turned for line in lines)
    print(f"{took:.0f} s; {turned} calls turned away; {len(seen)} sessions with bytes; datagrams {wire.seen}, lost {wire.lost}, repeated {wire.repeated}, late {wire.late}")
    if waits:
        print(f"from a call to its first byte back: {waits[len(waits) // 2]:.2f} s in the middle, {waits[-1]:.2f} s at most")
    for w in wrong[:20]:
        print(w)
    right = not wrong and statuses == [0, 0]
    print("each session had one caller's bytes, each once and in order" if right else "WRONG")
    return 0 if right else 1


if __name__ == "__main__":
    sys.exit(main())
