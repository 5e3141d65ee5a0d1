#!/usr/bin/env python3
"""Forged announcements, and how long they keep callers away.

    tools/forged.py LATD [--seconds S] [--many N]

A server hears a node and a liar, each at a peer's port. The liar announces, and answers nothing: under the node's name from an address
of its own; as a node of its own with the highest rating; and from the node's own address and name without room, without a service,
and for groups that nobody listens to; last all of them. Each kind comes once, just before a caller calls, and then, at a fresh pair,
each tenth of a second for ten seconds, and he calls among them. It passes where each caller has his first byte within S seconds (12 by
itself: nine until a station that doesn't answer is given up, and three) behind the later of his call and the last forgery, where one
who was there before goes on, and where both daemons run on. With `--many` so many liars announce at last, each at an address of its
own; how long a caller waits then is told, and isn't judged. It needs Python 3 and a built `latd`, and takes about three minutes.
"""

import argparse
import socket
import sys
import threading
import time

from pair import NODE, SERVER, client, free_ports, start_with

EVERYONE = bytes.fromhex("09002b00000f")
SOMEONE = bytes.fromhex("02000000000a")


def announcement(source, name, services, groups=b""):
    """A datagram of version 5, incarnation 1, and the longest timer, 255 s."""
    payload = bytes([0x28, 255, 5, 1, 0, len(groups)]) + groups + bytes([len(name)]) + name + bytes([0, len(services)])
    for service, rating in services:
        payload += bytes([rating, len(service)]) + service + b"\0"
    return EVERYONE + source + b"\x60\x04" + payload.ljust(46, b"\0")


OWN = bytes.fromhex(NODE)
FORGERIES = {
    "the node's name at another address": [announcement(SOMEONE, b"VAX1", [(b"VAX", 255)])],
    "another node with the highest rating": [announcement(SOMEONE, b"AAAA", [(b"VAX", 255)])],
    "the node without room": [announcement(OWN, b"VAX1", [(b"VAX", 0)])],
    "the node without a service": [announcement(OWN, b"VAX1", [])],
    "the node in groups of nobody": [announcement(OWN, b"VAX1", [(b"VAX", 2)], b"\0")],
}
FORGERIES["all of them"] = [datagram for kind in FORGERIES.values() for datagram in kind]


def echoed(s, line, seconds):
    """Sends a line, and says whether it alone comes back within some seconds, and how long that takes."""
    begun, came = time.monotonic(), b""
    try:
        s.sendall(line)
        while len(came) < len(line):
            s.settimeout(max(0.01, begun + seconds - time.monotonic()))
            piece = s.recv(4096)
            if not piece:
                break
            came += piece
    except OSError:
        pass
    return came == line, time.monotonic() - begun


class Liar(threading.Thread):
    """Sends datagrams again and again."""

    def __init__(self, s, port, datagrams, seconds):
        super().__init__(daemon=True)
        self.s, self.port, self.datagrams, self.last = s, port, datagrams, time.monotonic()
        self.until = time.monotonic() + seconds

    def run(self):
        while True:
            for datagram in self.datagrams:
                self.s.sendto(datagram, ("127.0.0.1", self.port))
            self.last = time.monotonic()
            if self.last >= self.until:
                return
            time.sleep(0.1)


class Trial:
    """Both daemons, the liar's socket, and who has come first and stays."""

    def __init__(self, latd):
        self.wrong = []
        base = free_ports(16)
        self.port, self.up = base, base + 3
        self.liar = socket.socket(socket.AF_INET, socket.SOCK_DGRAM)
        self.liar.bind(("127.0.0.1", base + 2))
        host(base + 4)
        self.daemons = [start_with(latd, "node", "VAX1", NODE, base + 1, ["--lines", 4, "--service", f"VAX={base + 4}"], [base])]
        server = ["--lines", 2, "--line-port", base + 5, "--service", "VAX"]
        self.daemons.append(start_with(latd, "server", "TS1", SERVER, base, server, [base + 1, base + 2]))
        self.lines = base + 5
        self.stays = client(self.lines)
        if not echoed(self.stays, b"the first\n", 20)[0]:
            self.wrong.append("nobody is served, and nothing was forged yet")

    def call(self, datagrams, seconds, within):
        """Forgeries for so many seconds, and a caller among them: how long he waits behind the later of his call and the last one."""
        liar = Liar(self.liar, self.port, datagrams, seconds)
        liar.start()
        time.sleep(0.5)
        begun = time.monotonic()
        with client(self.lines + 1) as s:
            right, took = echoed(s, b"a caller\n", within + seconds)
        waited = max(0, begun + took - max(begun, liar.last))
        if not right or waited > within:
            self.wrong.append(f"{'served' if right else 'not served'} after {waited:.1f} s")
        if not echoed(self.stays, b"still there\n", 10)[0]:
            self.wrong.append("who was there before isn't served any more")
        if any(daemon.poll() is not None for daemon in self.daemons):
            self.wrong.append("a daemon has ended")
        return waited

    def over(self):
        for daemon in self.daemons:
            daemon.kill()
            daemon.wait()
        self.liar.close()


def host(port):
    """A host that sends back what comes."""

    def talk(s):
        with s:
            try:
                while piece := s.recv(4096):
                    s.sendall(piece)
            except OSError:
                pass

    def listen(listener):
        while True:
            threading.Thread(target=talk, args=(listener.accept()[0],), daemon=True).start()

    threading.Thread(target=listen, args=(socket.create_server(("127.0.0.1", port)),), daemon=True).start()


def tried(latd, datagrams, seconds, within):
    """How long a caller waits, and what was wrong."""
    trial = Trial(latd)
    waited = trial.call(datagrams, seconds, within)
    trial.over()
    return waited, trial.wrong


def main():
    words = argparse.ArgumentParser()
    words.add_argument("latd")
    words.add_argument("--seconds", type=float, default=12)
    words.add_argument("--many", type=int, default=0)
    given = words.parse_args()
    wrong = []
    for what, datagrams in FORGERIES.items():
        once, first = tried(given.latd, datagrams, 0, given.seconds)
        often, second = tried(given.latd, datagrams, 10, given.seconds)
        wrong += [f"{what}: {w}" for w in first + second]
        print(f"{what}: once, and a caller waits {once:.2f} s; for ten seconds, and he waits {often:.2f} s behind them", flush=True)
    if given.many:
        liars = [announcement(bytes.fromhex("0200000001%02x" % k), b"A%d" % k, [(b"VAX", 255)]) for k in range(given.many)]
        waited, why = tried(given.latd, liars, 0, 60.0 + 12 * given.many)
        print(f"{given.many} liars: {waited:.0f} s; {', '.join(why) or 'he was served'}")
    for w in wrong:
        print(w)
    print("no forgery keeps callers away for long" if not wrong else "WRONG")
    return 1 if wrong else 0


if __name__ == "__main__":
    sys.exit(main())
