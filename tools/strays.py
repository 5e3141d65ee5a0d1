#!/usr/bin/env python3
"""A flood of stray datagrams at both daemons of a pair while a line works.

    tools/strays.py LATD [--seconds S] [--rate N]

One caller's lines go through a server and a node and come back, before the flood and while it lasts. For S seconds N datagrams a
second (40,000 by itself) go to the ports of both daemons from a port that is no peer's; half of them are frames as the peer sends
them. It passes where each line came back, and no byte that wasn't sent. It needs Python 3 and a built `latd`.
"""

import argparse
import socket
import sys
import threading
import time

from callers import Hosts
from pair import NODE, SERVER, client, free_ports, start


def flood(ports, until, rate, sent):
    """Datagrams that nobody asked for, in bursts of a millisecond."""
    foreign = bytes.fromhex(SERVER + NODE + "6004") + bytes(50)
    with socket.socket(socket.AF_INET, socket.SOCK_DGRAM) as s:
        s.bind(("127.0.0.1", 0))
        while time.monotonic() < until:
            for _ in range(rate // 1000):
                for port in ports:
                    try:
                        s.sendto(foreign if sent[0] % 2 else b"\x00" * 60, ("127.0.0.1", port))
                        sent[0] += 1
                    except OSError:
                        pass
            time.sleep(0.001)


def echoes(s, until):
    """How long each line took that was sent and came back, until then; and whether each came back as it was."""
    times, right = [], True
    while time.monotonic() < until and right:
        line = b"line %d\n" % len(times)
        begun = time.monotonic()
        s.sendall(line)
        came = b""
        while len(came) < len(line):
            piece = s.recv(4096)
            if not piece:
                break
            came += piece
        right = came == line
        times.append(time.monotonic() - begun)
    return times, right


def told(word, times):
    times = sorted(times)
    print(f"{word}: {len(times)} lines, {times[len(times) // 2] * 1000:.0f} ms in the middle, {times[-1] * 1000:.0f} ms at most")


def main():
    words = argparse.ArgumentParser()
    words.add_argument("latd")
    words.add_argument("--seconds", type=float, default=10)
    words.add_argument("--rate", type=int, default=40_000)
    given = words.parse_args()
    base = free_ports(12)
    node = start(given.latd, "node", "VAX1", NODE, base + 1, 1, base + 11, "VAX", 1_000_000, [base])
    server = start(given.latd, "server", "TS1", SERVER, base, 1, base + 10, "VAX", 1_000_000, [base + 1])
    Hosts(base + 11).start()
    with client(base + 10) as s:
        s.settimeout(30)
        calm, first = echoes(s, time.monotonic() + 3)
        sent, until = [0], time.monotonic() + given.seconds
        threading.Thread(target=flood, args=((base, base + 1), until, given.rate, sent), daemon=True).start()
        flooded, second = echoes(s, until)
    told("before", calm)
    told(f"under {sent[0] / given.seconds:.0f} strays a second", flooded)
    runs = node.poll() is None and server.poll() is None
    right = first and second and runs
    print("each line came back" if right else "WRONG")
    return 0 if right else 1


if __name__ == "__main__":
    sys.exit(main())
