#!/usr/bin/env python3
"""Cells that are told ten million events, and the memory that they take.

    tools/soak.py LAT_SOAK [--events N]

Each case is two runs of `lat_soak`: over 100,000 events, and over all. It passes where both print what `docs/PROTOCOL.md`, "Cells", gives, and
the second took no more memory than the first at its highest, but for a quarter of a MiB. A cell that keeps 1,000,000 entries
isn't full after 100,000, so there the first run has a tenth more events than entries, and so has one that is full of bytes: by then
it has let entries go, and used their memory again.
It needs Python 3 and a built `lat_soak`, and takes about two minutes.
"""

import argparse
import os
import subprocess
import sys

MOST_BYTES = 64 * 1024 * 1024
FEW = 100_000
SLACK_KIB = 256

# What is told, how many bytes an entry of it holds, its seat, and what is counted of one: bytes put, items taken.
KINDS = {
    "time": ("time {}", 0, 65, 0, 0),
    "a put of one byte": ("put {} 1", 1, 1, 1, 0),
    "a take": ("take {}", 0, 2, 0, 1),
    "a frame of 1,500 bytes": ("heard {} 1500", 1500, 0, 0, 0),
}
# The entries kept at most, and the kind of event.
CASES = [
    (0, "time"),
    (1, "time"),
    (10_000, "time"),
    (10_000, "a put of one byte"),
    (10_000, "a take"),
    (10_000, "a frame of 1,500 bytes"),
    (1_000_000, "time"),
    (1_000_000, "a frame of 1,500 bytes"),
]


def due(most, kind, count):
    """What is printed of so many events of a kind, by the rules."""
    line, held, seat, put, took = KINDS[kind]
    kept = min(count, most, MOST_BYTES // held if held else count)
    has_number = kind in ("time", "a frame of 1,500 bytes") and kept > 0
    numbers = f" from {count - kept} to {count - 1}" if has_number else ""
    text = f"> kept {most}\n> {line.format(count)}\nevents {count}\nkept {kept}{numbers}\n"
    for at in (0, 1, 2, 65):
        n = count if at == seat else 0
        text += f"seat {at} events {n} bytes {n * put} items {n * took}\n"
    return text + "the shares agree\n\n"


def run(program, most, kind, count):
    """The highest number of KiB that a run had in memory; it ends this program where the run prints anything else than is due."""
    script = f"kept {most}\n{KINDS[kind][0].format(count)}\n"
    child = subprocess.Popen([program], stdin=subprocess.PIPE, stdout=subprocess.PIPE, text=True)
    child.stdin.write(script)
    child.stdin.close()
    text = child.stdout.read()
    _, status, usage = os.wait4(child.pid, 0)
    child.returncode = os.waitstatus_to_exitcode(status)
    if child.returncode != 0 or text != due(most, kind, count):
        sys.exit(f"kept {most}, {kind}, {count} events: status {child.returncode}\n{text}instead of\n{due(most, kind, count)}")
    return usage.ru_maxrss


def first_count(most, kind, events):
    """After how many events a cell has all that it will ever have, 100,000 at least."""
    held = KINDS[kind][1]
    full = min(most, MOST_BYTES // held if held else most)
    return min(max(FEW, full + full // 10), events)


def main():
    words = argparse.ArgumentParser(description=__doc__.splitlines()[0])
    words.add_argument("program", metavar="LAT_SOAK")
    words.add_argument("--events", type=int, default=10_000_000, help="told in the second run of each case")
    given = words.parse_args()
    grown = False
    print("| Kept at most | Events | Told first | MiB | Told in all | MiB |")
    print("|---|---|---|---|---|---|")
    for most, kind in CASES:
        few = first_count(most, kind, given.events)
        before = run(given.program, most, kind, few)
        behind = run(given.program, most, kind, given.events)
        print(f"| {most:,} | {kind} | {few:,} | {before / 1024:.1f} | {given.events:,} | {behind / 1024:.1f} |", flush=True)
        grown = grown or behind > before + SLACK_KIB
    sys.exit("memory grew" if grown else 0)


if __name__ == "__main__":
    main()
