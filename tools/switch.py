#!/usr/bin/env python3
"""One terminal that works at two nodes in turn, over one line of a switch.

    tools/switch.py LATD

VAX1 and VAX2 offer the service VAX on one line each. A terminal at a server in the role `switch` is connected to one of them,
connects a second session by the key 1c, which goes to the other, as the first is full by then, and types at both in turn, with the
key 1d in between. It passes where each node has got just what was typed at it, in order; where the terminal is given what comes
from the node whose session it is shown, and the other's once that one is shown; where one more 1c, when both nodes are full, changes
nothing; and where all three daemons end with status 0 and the counts of what went through. It needs Python 3 and a built `latd`,
and takes some ten seconds.
"""

import socket
import sys
import time

from fill import EVERYONE, NODES, Station, solicit
from pair import client, counts, ended, free_ports, start

CONNECT, NEXT = b"\x1c", b"\x1d"
TURNS = 200


def is_full(station, node, id_):
    """Whether this node, asked for VAX, announces it with the rating 0 within some seconds."""
    for _ in range(5):
        station.ask(solicit(id_, b"VAX"))
        announced = station.hear(node, EVERYONE, 1)
        if announced and announced[13] == 0:
            return True
    return False


def read(s, size, seconds=20):
    """So many bytes, or what has come of them in time."""
    end, got = time.monotonic() + seconds, b""
    while len(got) < size and time.monotonic() < end:
        s.settimeout(max(0.01, end - time.monotonic()))
        try:
            got += s.recv(size - len(got))
        except TimeoutError:
            break
    return got


def where(hosts, text):
    """The node at whose line this text comes out."""
    end = time.monotonic() + 20
    while time.monotonic() < end:
        for node, s in hosts.items():
            if read(s, len(text), 0.05) == text:
                return node
    return None


def turns(first, second):
    """What is typed in turns, beginning behind the key for the next session, and what of it is for the one and for the other."""
    typed, texts = b"", {first: b"", second: b""}
    for k in range(TURNS):
        node = (first, second)[k % 2]
        piece = b"%d to %s\n" % (k, node.encode())
        typed += NEXT + piece
        texts[node] += piece
    return typed, texts


def main():
    if len(sys.argv) != 2 or sys.argv[1].startswith("-"):
        raise SystemExit(__doc__)
    latd = sys.argv[1]
    base = free_ports(30)
    ports = {"VAX1": base, "VAX2": base + 1}
    server, listener = base + 2, base + 3
    station = Station(listener, ports)
    daemons = {node: start(latd, "node", node, NODES[node], port, 1, port + 10, "VAX", 1, [server, listener]) for node, port in ports.items()}
    hosts = {node: client(port + 10) for node, port in ports.items()}
    daemons["TS1"] = start(latd, "switch", "TS1", "aa0004000104", server, 1, base + 20, "VAX", 1, ports.values())
    terminal = client(base + 20)
    right = True

    def check(what, is_so):
        nonlocal right
        right = right and is_so
        print(f"{what}{'' if is_so else ': WRONG'}")

    terminal.sendall(b"first ")
    first = where(hosts, b"first ")
    second = {"VAX1": "VAX2", "VAX2": "VAX1"}.get(first)
    check(f"the first session is with {first}", first is not None)
    if first is None:
        return 1
    check(f"{first} announces that it is full", is_full(station, first, 1))
    # (the switch has heard that too, by then)
    time.sleep(1)
    terminal.sendall(CONNECT + b"second")
    check(f"a second session, by 1c, is with {second}", where(hosts, b"second") == second)
    check(f"{second} announces that it is full", is_full(station, second, 2))
    time.sleep(1)
    typed, texts = turns(first, second)
    terminal.sendall(typed)
    for node in (first, second):
        check(f"{node} got the {len(texts[node])} bytes typed at it, in order", read(hosts[node], len(texts[node])) == texts[node])
    for node, s in hosts.items():
        s.sendall(b"from " + node.encode())
    check(f"the terminal is shown {second}", read(terminal, 9) == b"from " + second.encode())
    check("and nothing of the other", read(terminal, 1, 2) == b"")
    terminal.sendall(NEXT)
    check(f"behind 1d it is shown {first}", read(terminal, 9) == b"from " + first.encode())
    terminal.sendall(CONNECT + b"third")
    check(f"where both are full, 1c changes nothing: what is typed goes on to {first}", where(hosts, b"third") == first)
    terminal.shutdown(socket.SHUT_WR)
    sizes = {first: 6 + len(texts[first]) + 5, second: 6 + len(texts[second])}
    wanted = {first: (9, sizes[first], "end"), second: (9, sizes[second], "end"), "TS1": (sum(sizes.values()) + TURNS + 3, 18, "end")}
    for name, daemon in daemons.items():
        status, text = ended(daemon, 60)
        check(f"{name}: status {status}, {', '.join(text.splitlines()) or 'no text'}", status == 0 and counts(text) == [wanted[name]])
    print("each byte at its own node, in order" if right else "WRONG")
    return 0 if right else 1


if __name__ == "__main__":
    sys.exit(main())
