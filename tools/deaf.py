#!/usr/bin/env python3
"""Clients that never read, and the end of their daemon.

    tools/deaf.py LATD [--seconds S]

A server and a node with two lines. Who is at line 1 of one end never reads, while who is at its other end sends without end; who is at
line 2 sends to and fro, and then leaves, so that the daemon at the end of the deaf one ends (`--sessions 1`). First the deaf one is a
terminal at the server, then a host's program at the node, each with what its daemon lingers by itself and with `--linger 0`. It passes
where each of these daemons ended with status 0, within S seconds (3 by itself) more than it lingers, where all bytes of line 2 came,
and where the daemon at the other end runs on and serves the next caller. It needs Python 3 and a built `latd`.
"""

import argparse
import socket
import sys
import threading
import time

from pair import NODE, SERVER, client, counts, ended, free_ports, start_with


def pour(s):
    """Sends without end."""
    try:
        while True:
            s.sendall(b"x" * 4096)
    except OSError:
        pass


class Host(threading.Thread):
    """Takes connections, and does as the first byte says: `d` reads nothing more, `p` pours, `e` sends back what comes."""

    def __init__(self, port):
        super().__init__(daemon=True)
        self.listener, self.kept = socket.create_server(("127.0.0.1", port)), []

    def run(self):
        while True:
            threading.Thread(target=self.serve, args=(self.listener.accept()[0],), daemon=True).start()

    def serve(self, s):
        self.kept.append(s)
        try:
            word = s.recv(1)
            if word == b"d":
                return
            if word == b"p":
                pour(s)
            while word:
                s.sendall(word)
                word = s.recv(4096)
        except OSError:
            pass
        s.close()


def echoed(s, line, seconds):
    """Whether a line that is sent comes back within some seconds."""
    s.sendall(line)
    s.settimeout(seconds)
    came = b""
    try:
        while len(came) < len(line):
            piece = s.recv(4096)
            if not piece:
                break
            came += piece
    except OSError:
        pass
    return came == line


def case(latd, who, linger, seconds):
    """One deaf client at this end, whose daemon ends. Gives what was wrong."""
    wrong = []
    base = free_ports(12)
    host, up = base + 2, base + 3
    Host(host).start()
    usual = {"server": ["--lines", 2, "--line-port", up, "--service", "VAX"], "node": ["--lines", 2, "--service", f"VAX={host}"]}
    usual[who] += ["--sessions", 1] + (["--linger", linger] if linger is not None else [])
    daemons = {"node": start_with(latd, "node", "VAX1", NODE, base + 1, usual["node"], [base])}
    daemons["server"] = start_with(latd, "server", "TS1", SERVER, base, usual["server"], [base + 1])
    first = client(up)
    # (a small window, so that what the sockets hold is soon full)
    first.setsockopt(socket.SOL_SOCKET, socket.SO_RCVBUF, 4096)
    first.sendall(b"p" if who == "server" else b"d")
    if who == "node":
        threading.Thread(target=pour, args=(first,), daemon=True).start()
    time.sleep(5)
    with client(up + 1) as second:
        if not echoed(second, b"echo " + b"y" * 1000, 30):
            wrong.append("line 2 didn't work beside a deaf client")
    begun = time.monotonic()
    status, text = ended(daemons[who], 90)
    took = time.monotonic() - begun
    most = seconds + (5 if linger is None else linger)
    if status != 0 or took > most:
        wrong.append(f"the {who} ended with status {status} after {took:.1f} s; {most:.0f} are allowed")
    at = "a terminal at the server" if who == "server" else "a program at the node"
    print(f"{at} is deaf, linger {5 if linger is None else linger}: the daemon ended after {took:.2f} s, "
          f"{', '.join(f'put {put} took {taken}' for put, taken, _ in counts(text))}", flush=True)
    other = "node" if who == "server" else "server"
    if daemons[other].poll() is not None:
        wrong.append(f"the {other} ended too")
    daemons[who] = start_with(latd, who, *(["TS1", SERVER, base] if who == "server" else ["VAX1", NODE, base + 1]), usual[who],
                              [base + 1 if who == "server" else base])
    end, served = time.monotonic() + 30, False
    while not served and time.monotonic() < end:
        with client(up + 1) as third:
            served = echoed(third, b"echo again", 5)
    if not served:
        wrong.append(f"nobody was served behind the {who}'s next start")
    for daemon in daemons.values():
        daemon.kill()
        daemon.wait()
    first.close()
    return wrong


def main():
    words = argparse.ArgumentParser()
    words.add_argument("latd")
    words.add_argument("--seconds", type=float, default=3)
    given = words.parse_args()
    wrong = []
    for who in ("server", "node"):
        for linger in (None, 0):
            wrong += case(given.latd, who, linger, given.seconds)
    for w in wrong:
        print(w)
    print("no deaf client holds its daemon up" if not wrong else "WRONG")
    return 1 if wrong else 0


if __name__ == "__main__":
    sys.exit(main())
