"""Daemons of `latd` on the loopback address, and clients at their lines: one by one, or a server and a node. Used by the scripts beside it."""

import atexit
import re
import socket
import subprocess
import time

SERVER, NODE = "aa0004000104", "aa0004000204"
STARTED = []


@atexit.register
def kill_what_runs():
    """No daemon outlives the script that started it, however the script ends."""
    for daemon in STARTED:
        if daemon.poll() is None:
            daemon.kill()
            daemon.wait()


def start_with(latd, role, name, address, port, options, peers):
    """A daemon with these words."""
    words = [latd, "--role", role, "--name", name, "--address", address, "--port", port, *options, *peers]
    daemon = subprocess.Popen([str(word) for word in words], stdout=subprocess.PIPE)
    STARTED.append(daemon)
    return daemon


def start(latd, role, name, address, port, lines, line_port, service, sessions, peers):
    """A daemon whose lines all have ports and one service, and which ends behind so many sessions."""
    options = ["--lines", lines, "--line-port", line_port, "--service", service, "--sessions", sessions]
    return start_with(latd, role, name, address, port, options, peers)


def ended(daemon, seconds=120):
    """Waits for a daemon's end, and gives its status and its last text. One that doesn't end is killed, and the text says so."""
    try:
        text = daemon.communicate(timeout=seconds)[0].decode()
    except subprocess.TimeoutExpired:
        daemon.kill()
        text = "killed: it didn't end\n" + daemon.communicate()[0].decode()
    return daemon.returncode, text


def free_ports(count):
    """That many ports in a row that nobody listens at now."""
    for base in range(28000, 60000, count):
        try:
            for port in range(base, base + count):
                for kind in (socket.SOCK_DGRAM, socket.SOCK_STREAM):
                    with socket.socket(socket.AF_INET, kind) as s:
                        s.bind(("127.0.0.1", port))
            return base
        except OSError:
            continue
    raise SystemExit("no free ports")


def client(port, seconds=30):
    """A client of the line at this port, once the daemon listens there."""
    end = time.monotonic() + seconds
    while True:
        try:
            s = socket.create_connection(("127.0.0.1", port))
            s.setsockopt(socket.IPPROTO_TCP, socket.TCP_NODELAY, 1)
            return s
        except OSError:
            if time.monotonic() > end:
                raise
            time.sleep(0.02)


class Pair:
    """Both daemons. `lines` at each; frames go to `server_peer` and `node_peer`, by themselves to each other."""

    def __init__(self, latd, lines, base, server_peer=None, node_peer=None):
        self.lines = lines
        server_port, node_port = base, base + 1
        server_lines, node_lines = base + 10, base + 10 + lines
        self.node = start(latd, "node", "VAX1", NODE, node_port, lines, node_lines, "VAX", lines, [node_peer or server_port])
        self.server = start(latd, "server", "TS1", SERVER, server_port, lines, server_lines, "VAX", lines, [server_peer or node_port])
        self.at_node = [client(node_lines + k) for k in range(lines)]
        self.at_server = [client(server_lines + k) for k in range(lines)]

    def ended(self, seconds=120):
        """Waits for both to end, and gives the status and the last text of each, the server's first."""
        return [ended(daemon, seconds) for daemon in (self.server, self.node)]

    def processor_seconds(self):
        """How much processor time both have taken so far."""
        total = 0.0
        for daemon in (self.server, self.node):
            fields = open(f"/proc/{daemon.pid}/stat").read().rsplit(")", 1)[1].split()
            total += (int(fields[11]) + int(fields[12])) / 100
        return total


def counts(text):
    """Per line what its last text tells: put, taken, and the word of its end."""
    return [(int(put), int(taken), word) for put, taken, word in re.findall(r"^line \d+ put (\d+) took (\d+) end (\w+)$", text, re.M)]
