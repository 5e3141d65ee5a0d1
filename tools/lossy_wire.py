#!/usr/bin/env python3
"""Two daemons over a wire that loses, repeats and reorders datagrams and adds hostile ones.

    tools/lossy_wire.py LATD [--lines N] [--bytes B] [--seconds S] [--loss P] [--seed X]

Each line of the server sends B bytes to its line of the node, and that one B bytes back, or as much as goes in S seconds. Both
ends compare what comes with what was sent, byte by byte. It passes where every byte came once and in order, or the circuit
ended with a reason and what came is a prefix; where both daemons end with status 0, each line with `end`.

Hostile datagrams are cut ones, random ones, ones of another type or for another address, and random payloads from another
address. None of them bears an end's own address, unless it is a cut one. It needs Python 3 and a built `latd`.
"""

import argparse
import random
import select
import socket
import sys
import threading
import time

from pair import Pair, counts, free_ports


# How many bytes a client may be ahead of what came at the other end: else they would lie in sockets when the time is over.
AHEAD = 8192


class Wire(threading.Thread):
    """Takes the datagrams of both daemons, and gives them on, or not."""

    def __init__(self, base, loss, seed):
        super().__init__(daemon=True)
        self.random = random.Random(seed)
        self.loss = loss
        near_server, near_node = self.socket_at(base + 2), self.socket_at(base + 3)
        # Where it comes, from where it goes on, and to whom: each daemon hears its peer's port alone.
        self.ends = [
            (near_server, near_node, ("127.0.0.1", base + 1)),
            (near_node, near_server, ("127.0.0.1", base)),
        ]
        self.held = []
        self.seen = self.lost = self.repeated = self.late = self.hostile = 0

    @staticmethod
    def socket_at(port):
        s = socket.socket(socket.AF_INET, socket.SOCK_DGRAM)
        s.bind(("127.0.0.1", port))
        return s

    def run(self):
        while True:
            ready = select.select([come for come, _, _ in self.ends], [], [], 0.01)[0]
            for come, go, other in self.ends:
                if come in ready:
                    self.came(come.recv(2000), go, other)
            now = time.monotonic()
            for at, datagram, s, other in [h for h in self.held if h[0] <= now]:
                s.sendto(datagram, other)
            self.held = [h for h in self.held if h[0] > now]

    def came(self, datagram, s, other):
        self.seen += 1
        if self.random.random() < 0.1:
            self.hostile += 1
            s.sendto(self.lie(datagram), other)
        if self.random.random() < self.loss:
            self.lost += 1
            return
        times = 2 if self.random.random() < 0.1 else 1
        self.repeated += times - 1
        for _ in range(times):
            if self.random.random() < 0.2:
                self.late += 1
                self.held.append((time.monotonic() + self.random.random() * 0.3, datagram, s, other))
            else:
                s.sendto(datagram, other)

    def lie(self, datagram):
        r = self.random
        noise = bytes(r.randrange(256) for _ in range(r.randrange(1, 200)))
        foreign = bytes.fromhex("02000000000a")
        return r.choice([
            datagram[: r.randrange(len(datagram))],
            noise,
            datagram[:12] + b"\x60\x05" + datagram[14:],
            bytes.fromhex("0200000000ff") + datagram[6:],
            datagram[:6] + foreign + datagram[12:14] + noise,
            datagram[:6] + foreign + datagram[12:],
        ])


def stream(seed, count):
    """The bytes that go one way on one line."""
    return random.Random(seed).randbytes(count)


class Line(threading.Thread):
    """One client that sends its bytes, not far ahead of what comes at the other end, and reads what that one sends."""

    def __init__(self, s, data, until):
        super().__init__(daemon=True)
        self.s, self.data, self.until = s, data, until
        self.sent = 0
        self.came = bytearray()
        self.mate = None
        self.over = False

    def run(self):
        self.s.setblocking(False)
        while True:
            ahead = self.sent - (len(self.mate.came) if self.mate else 0)
            more = self.sent < len(self.data) and ahead < AHEAD and time.monotonic() < self.until
            ready, writable, _ = select.select([self.s], [self.s] if more else [], [], 0.05)
            try:
                if ready:
                    piece = self.s.recv(4096)
                    if not piece:
                        break
                    self.came += piece
                if writable:
                    self.sent += self.s.send(self.data[self.sent : self.sent + 1024])
            except OSError:
                break
        self.over = True


def main():
    words = argparse.ArgumentParser()
    words.add_argument("latd")
    words.add_argument("--lines", type=int, default=4)
    words.add_argument("--bytes", type=int, default=1_000_000)
    words.add_argument("--seconds", type=float, default=300)
    words.add_argument("--loss", type=float, default=0.3)
    words.add_argument("--seed", type=int, default=1)
    given = words.parse_args()
    base = free_ports(10 + 2 * given.lines)
    wire = Wire(base, given.loss, given.seed)
    wire.start()
    pair = Pair(given.latd, given.lines, base, server_peer=base + 2, node_peer=base + 3)
    until = time.monotonic() + given.seconds
    # The first byte that a server's line sends is its number, so that the node's line is known that its session has.
    up = [bytes([k]) + stream((given.seed, "up", k).__repr__(), given.bytes) for k in range(given.lines)]
    servers = [Line(s, data, until) for s, data in zip(pair.at_server, up)]
    for line in servers:
        line.start()
    nodes, mates = [], {}
    for n, s in enumerate(pair.at_node):
        s.settimeout(120)
        first = s.recv(1)
        k = first[0] if first else None
        if k is not None:
            mates[k] = n
        node = Line(s, stream((given.seed, "down", k).__repr__(), given.bytes), until)
        node.came += first
        if k is not None:
            node.mate, servers[k].mate = servers[k], node
        nodes.append(node)
        node.start()

    def through():
        return all(len(nodes[n].came) == servers[k].sent and len(servers[k].came) == nodes[n].sent for k, n in mates.items())

    while not (time.monotonic() > until or all(line.sent == len(line.data) for line in servers + nodes)) and not all(l.over for l in servers):
        time.sleep(0.1)
    last = time.monotonic() + 120
    while not through() and time.monotonic() < last and not all(line.over for line in servers):
        time.sleep(0.1)
    took = time.monotonic() - (until - given.seconds)
    whole = through()
    for s in pair.at_server:
        try:
            s.shutdown(socket.SHUT_WR)
        except OSError:
            pass
    (server_status, server_text), (node_status, node_text) = pair.ended()
    right = True
    for k, n in sorted(mates.items()):
        for word, sender, receiver in (("up", servers[k], nodes[n]), ("down", nodes[n], servers[k])):
            exact = bytes(receiver.came) == bytes(sender.data[: len(receiver.came)])
            right = right and exact and len(receiver.came) <= sender.sent
            print(f"line {k + 1} {word}: sent {sender.sent}, came {len(receiver.came)}, {'in order' if exact else 'NOT WHAT WAS SENT'}")
    print(f"{took:.0f} s; datagrams {wire.seen}, lost {wire.lost}, repeated {wire.repeated}, late {wire.late}, hostile {wire.hostile}")
    print(f"server status {server_status}\n{server_text}node status {node_status}\n{node_text}", end="")
    words = [word for _, _, word in counts(server_text) + counts(node_text)]
    right = right and server_status == node_status == 0 and words == ["end"] * (2 * given.lines)
    print("every byte came once and in order" if right and whole else "a circuit ended; what came is a prefix" if right else "WRONG")
    return 0 if right else 1


if __name__ == "__main__":
    sys.exit(main())
