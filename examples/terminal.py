#!/usr/bin/env python3
"""A terminal for a line of a terminal server: what is typed goes out byte by byte, what comes is shown.

    examples/terminal.py PORT

At a keyboard each key is sent as it is struck, control-C and control-D too, and control-^ (control-6 on many) leaves. Where
standard input is a file or a pipe, its end leaves. It ends when the line hangs up.
"""

import os
import select
import socket
import sys
import termios
import tty

LEAVES = b"\x1e"


def typed(line, keyboard):
    """Sends what is typed, and says whether there may be more."""
    data = os.read(0, 4096)
    left = not data
    if keyboard and LEAVES in data:
        data, left = data.split(LEAVES)[0], True
    line.sendall(data)
    if left:
        line.shutdown(socket.SHUT_WR)
    return not left


def talk(line, keyboard):
    more = True
    while True:
        for end in select.select([line, 0] if more else [line], [], [])[0]:
            if end == 0:
                more = typed(line, keyboard)
                continue
            data = line.recv(4096)
            if not data:
                return
            os.write(1, data)


def main():
    keyboard = os.isatty(0)
    before = termios.tcgetattr(0) if keyboard else None
    with socket.create_connection(("127.0.0.1", int(sys.argv[1]))) as line:
        try:
            if keyboard:
                tty.setraw(0)
            talk(line, keyboard)
        except ConnectionResetError:
            pass
        finally:
            if keyboard:
                termios.tcsetattr(0, termios.TCSADRAIN, before)


if __name__ == "__main__":
    if len(sys.argv) != 2:
        sys.exit(__doc__)
    main()
