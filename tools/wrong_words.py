#!/usr/bin/env python3
"""Command lines that are wrong, and what a daemon says of each on standard error.

    tools/wrong_words.py LATD

Each case is a right command line in which one text is replaced, and the line that `docs/FORMATS.md` gives for it ("What is wrong with
them"). It passes where standard error has this line alone, standard output has `words`, and the status is 1, of every case. Each is
printed: what was changed, and what was said. It needs Python 3 and a built `latd`, and takes about a minute.
"""

import subprocess
import sys

RIGHT = {
    "server": "--role server --name TS1 --address aa0004000104 --port 27000 --lines 2 --line-port 27101 --service VAX 27001",
    "switch": "--role switch --name TS1 --address aa0004000104 --port 27000 --lines 2 --line-port 27101 --service VAX 27001",
    "node": "--role node --name VAX1 --address aa0004000204 --port 27001 --lines 2 --service VAX=27301 27000",
    "tariff": "--role tariff --name VAX1 --address aa0004000204 --port 27001 --lines 2 --line-port 27201 27000",
}
NINE = "1 2 3 4 5 6 7 8 9"
SERVICES = " ".join(f"--service S{k}=27301" for k in range(1, 34))
A_SERVICE = "NAME or NAME=PORT, a port of 1 to 65535"
A_RATE = "NAME=free, NAME=each:N or NAME=while-free:N, N of 1 to 255"
AN_OFFER = "LINE=NAME=PORT, a line of 1 to 2, a port of 1 to 65535"
GROUPS = "groups of 0 to 255, as 0,3,7-9"

# The role, what is replaced, by what, and the line behind `latd: `. A replacement of nothing stands at the end.
CASES = [
    ("server", "--role server ", "", "--role: needed"),
    ("server", "--name TS1 ", "", "--name: needed"),
    ("server", "--address aa0004000104 ", "", "--address: needed"),
    ("server", "--port 27000 ", "", "--port: needed"),
    ("server", " 27001", "", "peer: needed"),
    ("server", "--line-port 27101 ", "", "--line-port: needed"),
    ("server", "--service VAX ", "", "--service: needed"),
    ("node", "--service VAX=27301 ", "", "--service: needed"),
    ("node", "VAX=27301", "VAX", "--line-port: needed"),
    ("tariff", "--line-port 27201 ", "", "--line-port: needed"),
    ("switch", "--line-port 27101 ", "", "--line-port: needed"),
    ("server", "server", "Server", '--role: server, switch, node or tariff, not "Server"'),
    ("server", "server", "", '--role: server, switch, node or tariff, not ""'),
    ("server", "TS1", "SEVENTEEN-LETTERS", '--name: a name of 1 to 16 bytes, not "SEVENTEEN-LETTERS"'),
    ("server", "TS1", "", '--name: a name of 1 to 16 bytes, not ""'),
    ("server", "TS1", "T%4", '--name: a name of 1 to 16 bytes, not "T%4"'),
    ("server", "TS1", "T\u00fc", '--name: a name of 1 to 16 bytes, not "T%c3%bc"'),
    ("server", "aa0004000104", "aa-00-04-00-01-04", '--address: 12 hex digits, not "aa-00-04-00-01-04"'),
    ("server", "aa0004000104", "aa000400010", '--address: 12 hex digits, not "aa000400010"'),
    ("server", "aa0004000104", "aa000400010g", '--address: 12 hex digits, not "aa000400010g"'),
    ("server", "27000", "0", '--port: 1 to 65535, not "0"'),
    ("server", "27000", "65536", '--port: 1 to 65535, not "65536"'),
    ("server", "27000", "027000", '--port: 1 to 65535, not "027000"'),
    ("server", "27000", "+27000", '--port: 1 to 65535, not "+27000"'),
    ("server", "27000", "telnet", '--port: 1 to 65535, not "telnet"'),
    ("server", "27000", "99999999999999999999999", '--port: 1 to 65535, not "99999999999999999999999"'),
    ("server", "--lines 2", "--lines 33", '--lines: 1 to 32, not "33"'),
    ("switch", "--lines 2", "--lines 9", '--lines: 1 to 8, not "9"'),
    ("node", "--lines 2", "--lines 65", '--lines: 1 to 64, not "65"'),
    ("node", "--lines 2", "--lines 0", '--lines: 1 to 64, not "0"'),
    ("server", "27101", "65535", '--line-port: 1 to 65534, not "65535"'),
    ("server", "VAX", "A,B/%zz", '--service: a name of 1 to 16 bytes, not "A,B/%zz"'),
    ("server", "--service VAX", "--service VAX --service PDP", '--service: one value alone, not "PDP"'),
    ("node", "VAX=27301", "VAX=0", f'--service: {A_SERVICE}, not "VAX=0"'),
    ("node", "VAX=27301", "VAX=65536", f'--service: {A_SERVICE}, not "VAX=65536"'),
    ("node", "VAX=27301", "=27301", f'--service: {A_SERVICE}, not "=27301"'),
    ("node", "VAX=27301", "VAX=27301 --service vax=27302", '--service: each service once, not "vax=27302"'),
    ("node", "--service VAX=27301", SERVICES, '--service: 32 at most, not "S33=27301"'),
    ("node", "--service", "--rate VAX=slow --service", f'--rate: {A_RATE}, not "VAX=slow"'),
    ("node", "--service", "--rate VAX=each:0 --service", f'--rate: {A_RATE}, not "VAX=each:0"'),
    ("node", "--service", "--rate VAX=each:256 --service", f'--rate: {A_RATE}, not "VAX=each:256"'),
    ("node", "--service", "--rate free --service", f'--rate: {A_RATE}, not "free"'),
    ("node", "--service", "--rate PDP=free --service", '--rate: a service that is offered, not "PDP=free"'),
    ("node", "--service", "--rate VAX=free --rate VAX=each:2 --service", '--rate: each service once, not "VAX=each:2"'),
    ("server", "--service", "--rate VAX=free --service", '--rate: none in this role, not "VAX=free"'),
    ("node", "--service", "--offer 1=LP=27501 --service", '--offer: none in this role, not "1=LP=27501"'),
    ("switch", "--service", "--offer 1=LP=27501 --service", '--offer: none in this role, not "1=LP=27501"'),
    ("server", "--service", "--offer LP=27501 --service", f'--offer: {AN_OFFER}, not "LP=27501"'),
    ("server", "--service", "--offer 3=LP=27501 --service", f'--offer: {AN_OFFER}, not "3=LP=27501"'),
    ("server", "--service", "--offer 1=LP --service", f'--offer: {AN_OFFER}, not "1=LP"'),
    ("server", "--service", "--offer 1=LP=27501 --offer 1=LQ=27502 --service", '--offer: each line once, not "1=LQ=27502"'),
    ("server", "--service", "--groups 7-3 --service", f'--groups: {GROUPS}, not "7-3"'),
    ("server", "--service", "--groups 256 --service", f'--groups: {GROUPS}, not "256"'),
    ("server", "--service", "--groups 1,,2 --service", f'--groups: {GROUPS}, not "1,,2"'),
    ("server", "--service", "--groups= --service", f'--groups: {GROUPS}, not ""'),
    ("server", "--service", "--timer 0 --service", '--timer: 1 to 100, not "0"'),
    ("server", "--service", "--timer 80ms --service", '--timer: 1 to 100, not "80ms"'),
    ("server", "--service", "--keep-alive 9 --service", '--keep-alive: 10 to 255, not "9"'),
    ("server", "--service", "--credits 16 --service", '--credits: 1 to 15, not "16"'),
    ("node", "--service", "--announce 181 --service", '--announce: 10 to 180, not "181"'),
    ("server", "--service", "--sessions 0 --service", '--sessions: 1 to 1000000, not "0"'),
    ("server", "--service", "--linger 61 --service", '--linger: 0 to 60, not "61"'),
    ("server", "--service", "--log all --service", '--log: off, error, info or debug, not "all"'),
    ("server", "--service", "--log --service", '--log: off, error, info or debug, not ""'),
    ("server", "--service", "--history 1000001 --service", '--history: 0 to 1000000, not "1000001"'),
    ("node", "--service", "--once --service", "--once: none in this role"),
    ("server", "--service", "--once=yes --service", "--once=yes: no word of latd"),
    ("server", "--service", "--speed 9600 --service", "--speed: no word of latd"),
    ("server", "--service", "--Log info --service", "--Log: no word of latd"),
    ("server", "--service", "-v --service", "-v: no word of latd"),
    ("server", "27001", "localhost", 'peer: 1 to 65535, not "localhost"'),
    ("server", "27001", "127.0.0.1:27001", 'peer: 1 to 65535, not "127.0.0.1:27001"'),
    ("server", "27001", NINE, 'peer: 8 at most, not "9"'),
]


def main():
    if len(sys.argv) != 2 or sys.argv[1].startswith("-"):
        raise SystemExit(__doc__)
    wrong = 0
    for role, old, new, wanted in CASES:
        words = RIGHT[role].replace(old, new, 1)
        # A value that has no byte stands behind `=`.
        words = words.replace("--role  ", "--role= ").replace("--name  ", "--name= ")
        ran = subprocess.run([sys.argv[1], *words.split()], stdin=subprocess.DEVNULL, capture_output=True, timeout=60)
        said = ran.stderr.decode()
        right = said == f"latd: {wanted}\n" and ran.stdout == b"words\n" and ran.returncode == 1
        wrong += not right
        print(f"{role}: {old.strip()!r} -> {new.strip()[:60]!r}\n    {said.strip()}")
        if not right:
            print(f"    WRONG: status {ran.returncode}, {ran.stdout!r}, and latd: {wanted} was due")
    print(f"{len(CASES)} command lines, {wrong} wrong")
    return 1 if wrong else 0


if __name__ == "__main__":
    sys.exit(main())
