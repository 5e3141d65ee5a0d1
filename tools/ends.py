#!/usr/bin/env python3
"""Daemons that end by themselves under load, daemons that are killed under load, and the next start of each at the same ports.

    tools/ends.py LATD [--rounds N] [--lines L] [--seconds S] [--first F]

A server and a node with L lines. At all lines but the last a caller and a host send to each other as fast as it goes. In each round
the server ends by itself under this load, as soon as a caller of the last line has left (`--sessions 1`); it is started again at once
at the same ports, killed under load, and started again; and then the node in the same way. It passes where each daemon ended with
status 0 within S seconds (8 by itself: those that it lingers, and three more); where behind this end the hosts had exactly what the
daemon's last text says was put, and the callers what it says was taken, as it was sent; where behind each start a caller gets his
first byte within F seconds (2 by itself); and where nobody ever got a byte that wasn't for him. It needs Python 3 and a built `latd`.
"""

import argparse
import random
import socket
import sys
import threading
import time

from pair import NODE, SERVER, client, counts, ended, free_ports, start_with

# What each end of a session sends at most: more than goes through while it lasts.
MOST = 2_000_000


def stream(way, head):
    """What a caller sends, or what a host sends to him. It begins with his head: his number, and whether he is one of the load."""
    return head + (random.Random(f"{way} {head}").randbytes(MOST) if head.endswith(b"L") else b"")


class End(threading.Thread):
    """One end of a session: sends its data as fast as it goes, and keeps what comes, until it is hung up."""

    def __init__(self, s, head, way, came=b""):
        super().__init__(daemon=True)
        self.s, self.head, self.data, self.came, self.first = s, head, stream(way, head), bytearray(came), None
        self.sender = threading.Thread(target=self.send, daemon=True)

    def run(self):
        self.sender.start()
        try:
            while piece := self.s.recv(4096):
                self.first = self.first or time.monotonic()
                self.came += piece
        except OSError:
            pass
        self.s.close()

    def send(self):
        try:
            self.s.sendall(self.data)
        except OSError:
            pass


class Host(threading.Thread):
    """Takes a connection for each session, and answers by the head that comes first."""

    def __init__(self, port):
        super().__init__(daemon=True)
        self.listener, self.ends = socket.create_server(("127.0.0.1", port)), {}

    def run(self):
        while True:
            threading.Thread(target=self.serve, args=(self.listener.accept()[0],), daemon=True).start()

    def serve(self, s):
        head = b""
        try:
            while len(head) < 8 and (piece := s.recv(8 - len(head))):
                head += piece
        except OSError:
            pass
        if len(head) == 8:
            self.ends[head] = end = End(s, head, "down", head)
            end.start()
        else:
            s.close()


class Run:
    """The two daemons, the host, the callers, and all that was wrong."""

    def __init__(self, latd, lines):
        self.latd, self.lines = latd, lines
        base = free_ports(12 + lines)
        self.port = {"server": base, "node": base + 1}
        self.host_port, self.up = base + 2, base + 3
        self.host = Host(self.host_port)
        self.host.start()
        self.daemons, self.callers, self.called, self.wrong = {}, [], 0, []

    def start(self, who, sessions=1_000_000):
        """Starts this daemon, which ends behind so many sessions."""
        usual = ["--lines", self.lines, "--sessions", sessions]
        if who == "server":
            words = ["TS1", SERVER, self.port[who], [*usual, "--line-port", self.up, "--service", "VAX"], [self.port["node"]]]
        else:
            words = ["VAX1", NODE, self.port[who], [*usual, "--service", f"VAX={self.host_port}"], [self.port["server"]]]
        self.daemons[who] = start_with(self.latd, who, *words)

    def kill(self, who):
        self.daemons[who].kill()
        self.daemons[who].wait()

    def call(self, line, kind):
        """A caller at this line, from 0 on: one of the load, `L`, or one who sends his head alone, `B`."""
        self.called += 1
        caller = End(client(self.up + line), b"%07d%s" % (self.called, kind), "up")
        caller.start()
        self.callers.append(caller)
        return caller

    def served(self, line, kind, seconds=30):
        """Calls until a caller gets a byte, and gives this caller."""
        end = time.monotonic() + seconds
        while time.monotonic() < end:
            caller = self.call(line, kind)
            while caller.is_alive() and not caller.first and time.monotonic() < end:
                time.sleep(0.01)
            if caller.first:
                return caller
            time.sleep(0.02)
        raise SystemExit(f"WRONG: nobody at line {line + 1} got a byte within {seconds} s")

    def load(self):
        for line in range(self.lines - 1):
            self.served(line, b"L")
        time.sleep(1)

    def over(self):
        """Waits until all connections are over, checks what came, and gives how much, at the host and at the caller, of each."""
        end, sizes = time.monotonic() + 30, []
        for one in [*self.callers, *self.host.ends.values()]:
            one.join(max(0, end - time.monotonic()))
            if one.is_alive():
                self.wrong.append(f"{one.head} wasn't hung up within 30 s")
        for caller in self.callers:
            at_host = self.host.ends.get(caller.head)
            up = bytes(at_host.came) if at_host else b""
            if not stream("up", caller.head).startswith(up) or not stream("down", caller.head).startswith(caller.came):
                self.wrong.append(f"{caller.head} or its host got what wasn't sent")
            if up or caller.came:
                sizes.append((len(up), len(caller.came)))
        self.callers, self.host.ends = [], {}
        return sizes

    def ends_by_itself(self, who, seconds):
        """This daemon, which ends behind one session, ends under load."""
        self.load()
        last = self.served(self.lines - 1, b"B")
        last.sender.join()
        last.s.shutdown(socket.SHUT_WR)
        begun = time.monotonic()
        status, text = ended(self.daemons[who], 60)
        took = time.monotonic() - begun
        if status != 0 or took > seconds:
            self.wrong.append(f"the {who} ended with status {status}, {took:.1f} s behind the last caller")
        return took, [(put, taken) for put, taken, word in counts(text) if word == "end"]

    def next_start(self, who, most):
        """Starts this daemon at once, and gives how long it takes until a caller gets a byte."""
        self.start(who)
        begun = time.monotonic()
        caller = self.served(0, b"B")
        took = caller.first - begun
        if took > most:
            self.wrong.append(f"{took:.1f} s from the {who}'s start to a caller's first byte")
        caller.sender.join()
        caller.s.shutdown(socket.SHUT_WR)
        caller.join(10)
        return took

    def round(self, who, seconds, first):
        other = "node" if who == "server" else "server"
        self.start(other)
        self.start(who, 1)
        took, said = self.ends_by_itself(who, seconds)
        sizes = self.over()
        came = sizes if who == "server" else [(down, up) for up, down in sizes]
        if sorted(said) != sorted(came):
            self.wrong.append(f"the {who} says {sorted(said)}, and {sorted(came)} came")
        behind = self.next_start(who, first)
        self.load()
        self.kill(who)
        killed = self.next_start(who, first)
        self.kill("server")
        self.kill("node")
        self.over()
        total = [sum(numbers) for numbers in zip(*said)]
        print(f"{who}: ended by itself {took:.2f} s behind the last caller, put {total[0]}, took {total[1]}; "
              f"a first byte {behind:.2f} s behind the next start, and {killed:.2f} s behind that which follows a kill", flush=True)


def main():
    words = argparse.ArgumentParser()
    words.add_argument("latd")
    words.add_argument("--rounds", type=int, default=4)
    words.add_argument("--lines", type=int, default=4)
    words.add_argument("--seconds", type=float, default=8)
    words.add_argument("--first", type=float, default=2)
    given = words.parse_args()
    run = Run(given.latd, given.lines)
    for _ in range(given.rounds):
        run.round("server", given.seconds, given.first)
        run.round("node", given.seconds, given.first)
    for w in run.wrong:
        print(w)
    print("nothing that was read is lost, and each start is at once" if not run.wrong else "WRONG")
    return 1 if run.wrong else 0


if __name__ == "__main__":
    sys.exit(main())
