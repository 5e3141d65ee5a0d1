#!/usr/bin/env python3
"""How fast two daemons are: a typed byte's way there and back, bytes a second on one line and on eight, and an idle pair's
processor time, beside what the protocol's pace allows.

    tools/pace.py LATD [--typed N] [--seconds S]

It needs Python 3 and a built `latd`, and takes about three times S and N / 5 seconds more.
"""

import argparse
import socket
import statistics
import sys
import threading
import time

from pair import Pair, free_ports

# A server sends a message each 80 ms at most, with one slot of a session; a slot has at most 255 bytes, a message 1,492 of slots.
MESSAGES = 12.5
SLOT = 255
SLOTS = 1492


def finish(pair):
    for s in pair.at_server:
        s.shutdown(socket.SHUT_WR)
    for status, text in pair.ended():
        if status:
            raise SystemExit(f"status {status}\n{text}")


def echo(s):
    while True:
        piece = s.recv(4096)
        if not piece:
            return
        s.sendall(piece)


def typed(latd, count):
    pair = Pair(latd, 1, free_ports(12))
    threading.Thread(target=echo, args=(pair.at_node[0],), daemon=True).start()
    s, times = pair.at_server[0], []
    for k in range(count + 1):
        began = time.monotonic()
        s.sendall(b"a")
        s.recv(1)
        # (the first byte waits for the circuit)
        if k:
            times.append((time.monotonic() - began) * 1000)
        time.sleep(0.013)
    finish(pair)
    times.sort()
    print(f"a typed byte there and back: median {statistics.median(times):.0f} ms, 90 % within {times[len(times) * 9 // 10]:.0f} ms, most {times[-1]:.0f} ms")


def carried(latd, lines, seconds):
    pair = Pair(latd, lines, free_ports(10 + 2 * lines))
    taken = [0] * lines
    over = threading.Event()

    def write(s):
        s.settimeout(0.2)
        while not over.is_set():
            try:
                s.send(b"x" * 1024)
            except TimeoutError:
                pass
            except OSError:
                return

    def read(k, s):
        try:
            while piece := s.recv(4096):
                taken[k] += len(piece)
        except OSError:
            return

    for k in range(lines):
        threading.Thread(target=write, args=(pair.at_server[k],), daemon=True).start()
        threading.Thread(target=read, args=(k, pair.at_node[k]), daemon=True).start()
    time.sleep(3)
    before, began = sum(taken), time.monotonic()
    time.sleep(seconds)
    rate = (sum(taken) - before) / (time.monotonic() - began)
    over.set()
    # (what the sockets still hold would take minutes)
    pair.server.kill()
    pair.node.kill()
    most = MESSAGES * min(lines * SLOT, SLOTS // (SLOT + 5) * SLOT + SLOTS % (SLOT + 5) - 4)
    print(f"{lines} line{'s' if lines > 1 else ''}, server to node: {rate:.0f} bytes a second; the pace allows {most:.0f}")


def idle(latd, seconds):
    pair = Pair(latd, 1, free_ports(12))
    time.sleep(3)
    before = pair.processor_seconds()
    time.sleep(seconds)
    spent = (pair.processor_seconds() - before) / seconds * 1000
    finish(pair)
    print(f"an idle pair: {spent:.1f} ms of processor time a second")


def main():
    words = argparse.ArgumentParser()
    words.add_argument("latd")
    words.add_argument("--typed", type=int, default=100)
    words.add_argument("--seconds", type=float, default=20)
    given = words.parse_args()
    typed(given.latd, given.typed)
    carried(given.latd, 1, given.seconds)
    carried(given.latd, 8, given.seconds)
    idle(given.latd, given.seconds)
    return 0


if __name__ == "__main__":
    sys.exit(main())
