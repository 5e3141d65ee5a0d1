#!/usr/bin/env python3
"""Either end of a pair of daemons killed and started again, under callers.

    tools/restarts.py LATD [--restarts N] [--lines L] [--seconds S]

A server and a node with L lines; callers come to each line of the server without end, and each sends a line of its own to a host at
the other end, which sends it back. N times the server is killed and started again, and N times the node, in turn. Behind each start
it is told how long it takes until a caller gets its line back. It passes where that is at most S seconds (2 by itself) each time, and
no caller ever got a byte that it hadn't sent. It needs Python 3 and a built `latd`.
"""

import argparse
import socket
import sys
import threading
import time

from callers import Hosts
from pair import NODE, SERVER, free_ports, start


class Caller(threading.Thread):
    """Who calls a line again and again, and tells when its own line came back."""

    def __init__(self, port):
        super().__init__(daemon=True)
        self.port, self.count, self.backs, self.wrong, self.over = port, 0, [], [], False

    def run(self):
        while not self.over:
            self.count += 1
            line = b"%d says %d\n" % (self.port, self.count)
            came = b""
            try:
                with socket.create_connection(("127.0.0.1", self.port), timeout=5) as s:
                    s.settimeout(5)
                    s.sendall(line)
                    while len(came) < len(line):
                        piece = s.recv(4096)
                        if not piece:
                            break
                        came += piece
            except OSError:
                pass
            if not line.startswith(came):
                self.wrong.append((line, came))
            if came == line:
                self.backs.append(time.monotonic())
            time.sleep(0.02)


def main():
    words = argparse.ArgumentParser()
    words.add_argument("latd")
    words.add_argument("--restarts", type=int, default=8)
    words.add_argument("--lines", type=int, default=2)
    words.add_argument("--seconds", type=float, default=2)
    given = words.parse_args()
    base = free_ports(10 + 2 * given.lines)
    up, down = base + 10, base + 10 + given.lines

    def server():
        return start(given.latd, "server", "TS1", SERVER, base, given.lines, up, "VAX", 1_000_000, [base + 1])

    def node():
        return start(given.latd, "node", "VAX1", NODE, base + 1, given.lines, down, "VAX", 1_000_000, [base])

    daemons = {"server": server(), "node": node()}
    hosts = [Hosts(down + k) for k in range(given.lines)]
    callers = [Caller(up + k) for k in range(given.lines)]
    for thread in hosts + callers:
        thread.start()
    slowest = 0.0
    for at in range(2 * given.restarts + 1):
        who, make = ("server", server) if at % 2 else ("node", node)
        if at:
            daemons[who].kill()
            daemons[who].wait()
            daemons[who] = make()
        begun = time.monotonic()
        while not any(back > begun for caller in callers for back in caller.backs[-1:]) and time.monotonic() < begun + 30:
            time.sleep(0.01)
        took = time.monotonic() - begun
        slowest = max(slowest, took)
        print(f"{'start of both' if not at else who + ' started again'}: {took:.2f} s", flush=True)
        time.sleep(0.5)
    for thread in hosts + callers:
        thread.over = True
    wrong = [w for caller in callers for w in caller.wrong]
    for line, came in wrong[:10]:
        print(f"WRONG: sent {line!r}, got {came!r}")
    print(f"{sum(len(caller.backs) for caller in callers)} lines came back, {len(wrong)} wrong; at most {slowest:.2f} s behind a start")
    return 0 if not wrong and slowest <= given.seconds else 1


if __name__ == "__main__":
    sys.exit(main())
