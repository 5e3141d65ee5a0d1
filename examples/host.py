#!/usr/bin/env python3
"""A host's program for a service node. It listens at a port of the loopback address and serves each connection by itself:

    examples/host.py PORT echo NAME     greets with the name, and sends back what comes
    examples/host.py PORT login NAME    asks who is there, and runs a shell in a terminal of its own, until it ends

Whoever can connect to the port of `login` has a shell of the user who started it, and is asked for no password.
"""

import os
import pty
import select
import signal
import socket
import sys
import threading


def echo(caller, name):
    caller.sendall(b"Welcome to %s\r\n" % name)
    while data := caller.recv(4096):
        caller.sendall(data)


def asked(caller, question):
    """The line that the caller types, with his own keys echoed, or none where he leaves."""
    caller.sendall(question)
    line = b""
    while byte := caller.recv(1):
        if byte in b"\r\n":
            caller.sendall(b"\r\n")
            return line
        if byte in b"\b\x7f":
            if line:
                line = line[:-1]
                caller.sendall(b"\b \b")
        elif len(line) < 64:
            line += byte
            caller.sendall(byte)
    return None


def copy(caller, terminal):
    """Copies both ways until one end is gone."""
    while True:
        for end in select.select([caller, terminal], [], [])[0]:
            try:
                data = caller.recv(4096) if end is caller else os.read(terminal, 4096)
            except OSError:
                return
            if not data:
                return
            if end is caller:
                os.write(terminal, data)
            else:
                caller.sendall(data)


def login(caller, name):
    caller.sendall(b"Welcome to %s\r\n" % name)
    who = asked(caller, b"login: ")
    if who is None:
        return
    shell = os.environ.get("SHELL", "/bin/sh")
    child, terminal = pty.fork()
    if child == 0:
        os.environ.update(LOGNAME=who.decode("latin-1"), PS1="%s$ " % name.decode())
        os.execv("/bin/sh", ["sh", "-i"]) if shell.endswith("/sh") else os.execv(shell, [shell, "-i"])
    try:
        copy(caller, terminal)
    finally:
        os.close(terminal)
        try:
            os.kill(child, signal.SIGHUP)
        except ProcessLookupError:
            pass
        os.waitpid(child, 0)


def serve(caller, work, name):
    with caller:
        try:
            work(caller, name)
        except OSError:
            pass


def main():
    port, kind, name = int(sys.argv[1]), sys.argv[2], sys.argv[3].encode()
    work = {"echo": echo, "login": login}[kind]
    with socket.create_server(("127.0.0.1", port)) as listener:
        while True:
            caller, _ = listener.accept()
            threading.Thread(target=serve, args=(caller, work, name), daemon=True).start()


if __name__ == "__main__":
    if len(sys.argv) != 4 or sys.argv[2] not in ("echo", "login"):
        sys.exit(__doc__)
    try:
        main()
    except KeyboardInterrupt:
        pass
