#!/usr/bin/env python3
"""A node with a tariff that is filled line by line, and servers that take another node once it is full.

    tools/fill.py LATD

VAX1 has the role tariff and four lines, VAX2 is a plain node that offers LOGIN on two. Five terminals come one after another, each
at a server of its own with one line, and are connected to LOGIN. A sixth station listens to the announcements and asks for PRINT
once two lines are held. It passes where each terminal reached the node that the ratings say, what was announced and answered is
byte for byte what `docs/FORMATS.md` and the tariff give, under one incarnation, and all daemons end with status 0. It needs
Python 3 and a built `latd`, and takes about twenty seconds.
"""

import socket
import sys
import time

from pair import client, counts, ended, free_ports, start

LISTENER = bytes.fromhex("020000000009")
EVERYONE = bytes.fromhex("09002b00000f")
NODES = {"VAX1": "aa0004000204", "VAX2": "aa0004000304"}
TERMINALS = 5
# The ratings of LOGIN and PRINT at VAX1 where so many of its four lines are held, by the tariff of `latd`: 20 for each free line,
# and 9 while one is free.
RATINGS = [(80, 9), (60, 9), (40, 9), (20, 9), (0, 0)]


def announcement(incarnation, login, print_):
    """The payload by which VAX1 announces both services: timer 30, version 5, this incarnation, no groups."""
    text = bytes.fromhex("281e05") + incarnation + bytes.fromhex("0004") + b"VAX1" + bytes.fromhex("0002")
    text += bytes([login, 5]) + b"LOGIN\0" + bytes([print_, 5]) + b"PRINT\0"
    return text.ljust(46, b"\0")


def solicit(id_, service):
    """The payload by which a server asks for a service."""
    return (bytes([0x38, 5, id_, 0, 3]) + b"TS9" + bytes([len(service)]) + service).ljust(46, b"\0")


def response(id_, rating):
    """The payload by which VAX1 answers it."""
    return (bytes([0x3C, 5, id_, 0, 4]) + b"VAX1" + bytes([5]) + b"PRINT" + bytes([rating, 30])).ljust(46, b"\0")


class Station:
    """Hears what the nodes send to everyone and to it, and asks them."""

    def __init__(self, port, node_ports):
        self.s = socket.socket(socket.AF_INET, socket.SOCK_DGRAM)
        self.s.bind(("127.0.0.1", port))
        self.node_ports = node_ports

    def ask(self, payload):
        for name, port in self.node_ports.items():
            self.s.sendto(bytes.fromhex(NODES[name]) + LISTENER + b"\x60\x04" + payload, ("127.0.0.1", port))

    def hear(self, node, to, seconds=5):
        """The next payload from this node to this address."""
        end = time.monotonic() + seconds
        while True:
            self.s.settimeout(max(0.01, end - time.monotonic()))
            try:
                datagram = self.s.recv(2000)
            except TimeoutError:
                return None
            if datagram[:6] == to and datagram[6:12] == bytes.fromhex(NODES[node]) and datagram[12:14] == b"\x60\x04":
                return datagram[14:]

    def now(self, id_):
        """What VAX1 answers to a Solicit for PRINT now, and announces behind it."""
        self.s.setblocking(False)
        try:
            while self.s.recv(2000):
                pass
        except BlockingIOError:
            pass
        self.ask(solicit(id_, b"PRINT"))
        return self.hear("VAX1", LISTENER), self.hear("VAX1", EVERYONE)


def one_of(lines):
    """The node and the line that something comes from, and what comes."""
    end = time.monotonic() + 20
    while time.monotonic() < end:
        for node, sockets in lines.items():
            for k, s in enumerate(sockets):
                s.settimeout(0.02)
                try:
                    if piece := s.recv(100):
                        return node, k + 1, piece
                except TimeoutError:
                    pass
    return None, 0, b""


def main():
    if len(sys.argv) != 2 or sys.argv[1].startswith("-"):
        raise SystemExit(__doc__)
    latd = sys.argv[1]
    base = free_ports(30)
    ports = {"VAX1": base, "VAX2": base + 1}
    servers = [base + 2 + k for k in range(TERMINALS)]
    listener = base + 2 + TERMINALS
    peers = [*servers, listener]
    station = Station(listener, ports)
    nodes = {
        "VAX1": start(latd, "tariff", "VAX1", NODES["VAX1"], ports["VAX1"], 4, base + 10, "ANY", 4, peers),
        "VAX2": start(latd, "node", "VAX2", NODES["VAX2"], ports["VAX2"], 2, base + 14, "LOGIN", 1, peers),
    }
    lines = {"VAX1": [client(base + 10 + k) for k in range(4)], "VAX2": [client(base + 14 + k) for k in range(2)]}
    right = True

    def check(what, is_so):
        nonlocal right
        right = right and is_so
        print(f"{what}{'' if is_so else ': WRONG'}")

    # Its incarnation is drawn from the clock, and stays as it is.
    first = station.hear("VAX1", EVERYONE)
    incarnation = first[3:5] if first else bytes(2)
    check(f"VAX1 announces at its start {first.rstrip(bytes(1)).hex() if first else None}",
          incarnation != bytes(2) and first == announcement(incarnation, 80, 9))
    terminals = []
    for k in range(TERMINALS):
        line_port = base + 16 + k
        daemon = start(latd, "server", f"TS{k + 1}", f"aa00040001{k + 1:02x}", servers[k], 1, line_port, "LOGIN", 1, ports.values())
        s = client(line_port)
        began = time.monotonic()
        s.sendall(b"hello from terminal %d" % (k + 1))
        node, line, came = one_of(lines)
        took = time.monotonic() - began
        terminals.append((daemon, s))
        held = min(k + 1, 4)
        wanted = "VAX1" if k < 4 else "VAX2"
        check(f"terminal {k + 1} is at {node}, line {line}, after {took:.1f} s", node == wanted and came == b"hello from terminal %d" % (k + 1))
        login, print_ = RATINGS[held]
        answered, announced = station.now(k + 1)
        check(f"VAX1 with {held} of 4 lines held: PRINT {rating_of(answered)}, and announces {ratings_of(announced)}",
              answered == response(k + 1, print_) and announced == announcement(incarnation, login, print_))
    for daemon, s in terminals:
        s.shutdown(socket.SHUT_WR)
    for name, daemon in [(f"TS{k + 1}", d) for k, (d, _) in enumerate(terminals)] + list(nodes.items()):
        status, text = ended(daemon, 60)
        words = [word for _, _, word in counts(text)]
        check(f"{name}: status {status}, {text.splitlines()[0] if text else 'no text'}, lines {' '.join(words)}",
              status == 0 and set(words) == {"end"})
    print("as the ratings say" if right else "WRONG")
    return 0 if right else 1


def rating_of(payload):
    """The rating of a Response, for the eye."""
    return payload[15] if payload and len(payload) > 15 else None


def ratings_of(payload):
    """The two ratings of VAX1's announcement, for the eye."""
    return (payload[13], payload[21]) if payload and len(payload) > 21 else None


if __name__ == "__main__":
    sys.exit(main())
