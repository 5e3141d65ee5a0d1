#!/usr/bin/env python3
"""One pair of daemons for an hour: each byte compared, memory watched.

    tools/hour.py LATD [--seconds S] [--lines L] [--block B] [--asks A] [--events N]

A server and a node with L lines, each with a timer of 10 ms, whose service is a host that sends back what comes. One caller stays
at each line but the last and sends blocks of B bytes at most, and reads them back; to the last line one comes anew each minute. Each
tenth of the time the bytes so far and the memory of both daemons are told. Behind S seconds the callers leave, and both daemons end
by themselves. It passes where each byte came back once and in order; where neither daemon has more than 1 MiB more at its end than
behind the first tenth; where each was told N events at least (a million in an hour, by itself); and where both end with status 0.
On a machine with other work the clock comes late, and lines have fewer events; a third station, a peer of both, then makes up for it:
it asks each A times in all (never, by itself) for a service that nobody offers. It needs Linux, Python 3 and a built `latd`.
"""

import argparse
import random
import re
import socket
import sys
import threading
import time

from pair import NODE, SERVER, client, ended, free_ports, start_with


class Host(threading.Thread):
    """Takes connections at a port, and sends back what comes."""

    def __init__(self, port):
        super().__init__(daemon=True)
        self.listener = socket.create_server(("127.0.0.1", port))

    def run(self):
        while True:
            s, _ = self.listener.accept()
            threading.Thread(target=self.echo, args=(s,), daemon=True).start()

    @staticmethod
    def echo(s):
        with s:
            try:
                while piece := s.recv(4096):
                    s.sendall(piece)
            except OSError:
                pass


class Caller(threading.Thread):
    """Who calls a line so many times in so many seconds, sends blocks of bytes and reads each one back."""

    def __init__(self, port, seed, seconds, calls, most):
        super().__init__(daemon=True)
        self.port, self.random, self.seconds, self.calls, self.most = port, random.Random(seed), seconds, calls, most
        self.bytes, self.wrong = 0, None

    def run(self):
        begun = time.monotonic()
        for call in range(1, self.calls + 1):
            with client(self.port) as s:
                s.settimeout(30)
                self.talk(s, begun + self.seconds * call / self.calls - 1)
            if self.wrong:
                return
            time.sleep(1)

    def talk(self, s, until):
        """One block at least, and then until the time is over."""
        while not self.wrong:
            block = self.random.randbytes(self.random.randint(1, self.most))
            came = b""
            try:
                s.sendall(block)
                while len(came) < len(block):
                    piece = s.recv(4096)
                    if not piece:
                        break
                    came += piece
            except OSError as e:
                self.wrong = f"{e}"
            if came != block:
                self.wrong = self.wrong or f"of {len(block)} bytes behind {self.bytes}, {len(came)} came back, or others"
            self.bytes += len(block)
            if time.monotonic() > until:
                return


class Station(threading.Thread):
    """Asks both daemons for a service that nobody offers, so many times each in so many seconds, if they take it."""

    SOLICIT = bytes.fromhex("09002b00000f" "020000000009" "6004" "3805010003545339024e4f").ljust(60, b"\0")
    # How many bytes may wait at a daemon's port before it is asked again.
    MOST = 32_768

    def __init__(self, port, ports, asks, seconds):
        super().__init__(daemon=True)
        self.s, self.ports, self.asks, self.seconds = socket.socket(socket.AF_INET, socket.SOCK_DGRAM), ports, asks, seconds
        self.s.bind(("127.0.0.1", port))
        self.sent = {port: 0 for port in ports}

    def run(self):
        begun = time.monotonic()
        while (passed := time.monotonic() - begun) < self.seconds:
            # (a tenth faster than it must, so that what is late can be made up for)
            due = min(self.asks, int(1.1 * self.asks * passed / self.seconds))
            for port in self.ports:
                for _ in range(min(50, due - self.sent[port]) if waiting(port) < self.MOST else 0):
                    self.s.sendto(self.SOLICIT, ("127.0.0.1", port))
                    self.sent[port] += 1
            time.sleep(0.02)


def waiting(port):
    """How many bytes wait at this port of a datagram socket."""
    sockets = open("/proc/net/udp").read()
    found = re.search(r":%04X [0-9A-F]{8}:[0-9A-F]{4} [0-9A-F]{2} [0-9A-F]{8}:([0-9A-F]{8}) " % port, sockets)
    return int(found[1], 16) if found else 0


def memory(daemon):
    """The memory of a daemon now, in KiB."""
    return int(re.search(r"VmRSS:\s+(\d+)", open(f"/proc/{daemon.pid}/status").read())[1])


def main():
    words = argparse.ArgumentParser()
    words.add_argument("latd")
    words.add_argument("--seconds", type=int, default=3600)
    words.add_argument("--lines", type=int, default=2)
    words.add_argument("--block", type=int, default=700)
    words.add_argument("--asks", type=int, default=0)
    words.add_argument("--events", type=int)
    given = words.parse_args()
    least = given.events if given.events is not None else 1_000_000 * given.seconds // 3600
    base = free_ports(12 + given.lines)
    third, host, up = base + 2, base + 10, base + 11
    Host(host).start()
    brief = max(1, given.seconds // 60)
    usual = ["--lines", given.lines, "--timer", 1, "--sessions", given.lines - 1 + brief]
    node = start_with(given.latd, "node", "VAX1", NODE, base + 1, [*usual, "--service", f"VAX={host}"], [base, third])
    server = start_with(given.latd, "server", "TS1", SERVER, base, [*usual, "--line-port", up, "--service", "VAX"], [base + 1, third])
    station = Station(third, [base, base + 1], given.asks, given.seconds)
    station.start()
    begun = time.monotonic()
    calls = [1] * (given.lines - 1) + [brief]
    callers = [Caller(up + k, k, given.seconds, calls[k], given.block) for k in range(given.lines)]
    for caller in callers:
        caller.start()
    kept = []
    for tenth in range(1, 11):
        time.sleep(max(0, begun + given.seconds * tenth / 10 - 1.5 - time.monotonic()))
        kept.append((memory(server), memory(node)))
        sent = sum(caller.bytes for caller in callers)
        print(f"{time.monotonic() - begun:.0f} s: {sent} bytes; server {kept[-1][0]} KiB, node {kept[-1][1]} KiB", flush=True)
    for caller in callers:
        caller.join(60)
    wrong = [caller.wrong for caller in callers if caller.wrong]
    for at, who, daemon in ((0, "server", server), (1, "node", node)):
        status, text = ended(daemon, 20)
        print(f"{who}: status {status}\n{text}", end="")
        events = int((re.search(r"^events (\d+)$", text, re.M) or ["", "0"])[1])
        if status != 0 or events < least:
            wrong.append(f"the {who} ended with status {status} and {events} events")
        if kept[-1][at] > kept[0][at] + 1024:
            wrong.append(f"the {who} has {kept[-1][at] - kept[0][at]} KiB more than behind the first tenth")
    if given.asks:
        print(f"a third station asked {', '.join(str(sent) for sent in station.sent.values())} times")
    print(f"{sum(caller.calls for caller in callers)} calls, {sum(caller.bytes for caller in callers)} bytes each way")
    for w in wrong:
        print(w)
    print("each byte came back once and in order; memory stays" if not wrong else "WRONG")
    return 1 if wrong else 0


if __name__ == "__main__":
    sys.exit(main())
