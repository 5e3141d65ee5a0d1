#!/usr/bin/env python3
"""Writes the schedules by which the pace of both cores is measured: what their events cost, and that it grows with their number alone.

    tools/paces_of_cores.py FOLDER [--size PERCENT]

It writes a schedule for each case to FOLDER/CASE.txt, at full size or at so many percent of it:

    hour            8 lines at both ends, both clocks in steps of 80 ms for an hour; on each line 40 turns, each of 10 bytes up and
                    1,920 down; then the sessions are closed
    messages        30,000 messages of one session, half of them each way, with 10 bytes in each
    lines           32 lines with a session each; in each of 10,000 rounds 10 bytes are sent each way on one of them
    circuits        eight circuits at each end with a session each, and 10,000 times alone
    offers          32 lines that offer a service, and 10,000 times alone; nothing was ever requested
    offers-settled  the same with eight circuits, 64 requests that were cancelled, and 24 free lines
    offers-waiting  the same with 64 requests that wait, as no ninth circuit can be had for them
    nodes           250 nodes that announce two services every 30 seconds, for five minutes of times, and connects that find no service

Nothing is lost in any of them. They are for `lat replay`. It needs Python 3. How to measure with valgrind, PROGRAM being `lat`:

    valgrind --tool=callgrind --callgrind-out-file=OUT PROGRAM replay < FOLDER/CASE.txt > REPORT
    callgrind_annotate --inclusive=yes --threshold=100 OUT | grep -e ServerCore -e NodeCore

The cores' own figure is that of `ServerCoreCore::step` and of `NodeCoreCore::step`; the other lines of the world's `play` are the
frames and rows that the report is made of. Setting up is `ServerCore::make` and `NodeCore::make`. A compiler that puts `step` into
its caller hides its line: give both `step` and both `make` the LLVM attribute `noinline`, or take the figure of the whole program
less that of the same schedule without its last line, `end`, which is read and not played. For microseconds, where perf is there:

    perf record -e cpu-clock:u -F 10000 --call-graph fp -o OUT PROGRAM replay < FOLDER/CASE.txt > REPORT
    perf report -i OUT --children --stdio -g none

Growth is linear where --size 50 comes to half. Two programs did the same where their reports are the same.
"""

import argparse
import pathlib

STEP = 80
KEEPALIVE = 20
SILENT = 255
ROOM = 1492
SLOT = 255


class Session:
    """One end of a session between the server and the node, as far as it decides which frames go out."""

    def __init__(self, ceiling):
        self.ceiling = ceiling
        self.starts = True
        self.answered = self.closed = self.stopped = self.heard_stop = self.over = False
        self.unframed = self.credits = self.given = 0
        self.held = []

    def due(self):
        return self.ceiling - self.given - len(self.held)

    def give(self):
        due = self.due()
        self.given += due
        return due

    def slot(self, room):
        """Its next slot as (kind, credits, items, bytes); None where it has none, "full" where no byte of it fits."""
        if self.starts:
            return ("start", self.due(), 0, 14)
        if not self.answered or self.stopped:
            return None
        if self.heard_stop or (self.closed and not self.unframed):
            return ("stop", 0, 0, 4)
        if self.unframed and self.credits:
            items = min(self.unframed, SLOT, (room - 4) // 2 * 2)
            return ("data", self.due(), items, 4 + items + items % 2) if items > 0 else "full"
        return ("data", self.due(), 0, 4) if self.due() else None

    def formed(self, slot):
        kind, _, items, _ = slot
        if kind == "stop":
            self.stopped = True
            self.over = self.heard_stop and not self.held
            return
        self.give()
        self.starts = False
        self.unframed -= items
        self.credits -= items > 0

    def hears(self, slot):
        kind, credits, items, _ = slot
        self.credits += credits
        self.answered = True
        if kind == "stop":
            self.heard_stop, self.unframed = True, 0
            self.over = self.stopped and not self.held
        if items:
            self.given -= 1
            self.held += [items] * (not self.closed)

    def take(self):
        self.held = []
        self.over = self.stopped and self.heard_stop


class End:
    def __init__(self):
        self.sessions = {}
        self.last = 0
        self.owes = False
        self.sent_at = 0

    def pack(self):
        slots, room = [], ROOM
        ids = [it for it in self.sessions if it > self.last] + [it for it in self.sessions if it <= self.last]
        for it in ids:
            session = self.sessions[it]
            slot = None if session.over else session.slot(room)
            if slot == "full" or (slot and slot[3] > room):
                break
            if slot:
                session.formed(slot)
                slots.append((it, slot))
                room -= slot[3]
                self.last = it
        return slots


class Pair:
    """A schedule of a server and a node on a wire that loses nothing."""

    def __init__(self, lines, ceiling, keepalive=KEEPALIVE):
        self.events, self.sent, self.coming = [], 0, []
        self.ends = {"s": End(), "n": End()}
        self.ceiling, self.keepalive, self.now = ceiling, keepalive, 0
        self.head = head(lines, lines, ceiling, keepalive)
        self.tell("n announce", "deliver 0")
        self.tell(*(f"s connect {line} VAX" for line in range(1, lines + 1)), "deliver 1", "deliver 2")
        self.sent = 3
        self.ends["s"].sessions = {line: Session(ceiling) for line in range(1, lines + 1)}
        self.ends["s"].owes = True
        self.round()
        self.round()

    def tell(self, *lines):
        self.events += lines

    def send(self, name, slots):
        self.coming.append((self.sent, "n" if name == "s" else "s", slots))
        self.sent += 1
        self.ends[name].owes, self.ends[name].sent_at = False, self.now

    def occasion(self, name):
        slots = self.ends[name].pack()
        if slots or self.ends[name].owes:
            self.send(name, slots)

    def time(self, name):
        self.tell(f"{name} time {self.now}")
        self.occasion(name)
        if name == "s" and self.now - self.ends["s"].sent_at >= self.keepalive * 1000:
            self.send("s", None)

    def hear(self, name, slots):
        end, asked = self.ends[name], []
        end.owes |= slots is None or bool(slots)
        for it, slot in slots or []:
            if it not in end.sessions:
                # (it is answered behind the occasion of this frame)
                asked.append((it, slot))
            else:
                end.sessions[it].hears(slot)
        if name == "n":
            self.occasion("n")
        for it, slot in asked:
            end.sessions[it] = Session(self.ceiling)
            end.sessions[it].hears(slot)

    def deliver(self):
        while self.coming:
            index, name, slots = self.coming.pop(0)
            self.tell(f"deliver {index}")
            self.hear(name, slots)

    def round(self, ends="sn"):
        self.now += STEP
        for name in ends:
            self.time(name)
        self.deliver()

    def put(self, name, line, count):
        self.tell(f"{name} put {line} {'61' * count}")
        self.ends[name].sessions[line].unframed += count

    def take(self, name, line):
        self.tell(f"{name} take {line} 4096")
        self.ends[name].sessions[line].take()

    def close_all(self):
        for line, session in self.ends["s"].sessions.items():
            self.tell(f"s close {line}")
            session.closed, session.held = True, []

    def text(self):
        return text(self.head, self.events)


def head(server_lines, node_lines, ceiling=4, keepalive=KEEPALIVE, offers=0):
    lines = ["lat 1", f"server aa0004000104 TS1 {server_lines}", f"node aa0004000204 VAX1 {node_lines} 1 255"]
    lines += [f"circuit {STEP // 10} {keepalive} 64 7 {ceiling}", "service VAX"]
    return lines + [f"offer {line} PRN" for line in range(1, offers + 1)]


def text(front, events):
    return "\n".join([*front, "go", *events, "end", ""])


def hour(size):
    pair = Pair(8, 4)
    rounds, turns = 45_000 * size // 100, 320 * size // 100
    for number in range(2, rounds):
        pair.round()
        turn, phase = divmod(number - 10, 136)
        if 0 <= turn < turns:
            turn_of_line(pair, turn % 8 + 1, phase)
        elif number == rounds - 20:
            pair.close_all()
    return pair.text()


def turn_of_line(pair, line, phase):
    """One round of a turn: 10 bytes up, and then 1,920 down, which are taken as they come."""
    if phase == 0:
        pair.put("s", line, 10)
    if phase == 3:
        pair.take("n", line)
        pair.put("n", line, 1920)
    if 6 <= phase < 24 and phase % 3 == 0:
        pair.take("s", line)


def messages(size):
    pair = Pair(1, 15)
    for number in range(15_000 * size // 100):
        pair.put("s", 1, 10)
        pair.put("n", 1, 10)
        pair.round("s")
        if number % 8 == 7:
            pair.take("n", 1)
            pair.take("s", 1)
    return pair.text()


def lines(size):
    pair = Pair(32, 4)
    for number in range(10_000 * size // 100):
        line = number % 32 + 1
        pair.put("s", line, 10)
        pair.put("n", line, 10)
        pair.round()
        pair.take("n", line)
        pair.take("s", line)
    return pair.text()


def short(number):
    return number.to_bytes(2, "little").hex()


def counted(word):
    return f"{len(word):02x}{word.encode().hex()}"


def station(number):
    return f"02000000{number:04x}"


def start(master, to, node, server):
    kind, timer, keepalive = ("06", STEP // 10, SILENT) if master else ("04", 0, 0)
    return f"{kind}00{short(to)}01000000dc0505014007{timer:02x}{keepalive:02x}00000000{counted(node)}{counted(server)}0000"


def run(master, to, number, acknowledged, slot=""):
    kind, count = "02" if master else "00", "01" if slot else "00"
    return f"{kind}{count}{short(to)}0100{number:02x}{acknowledged:02x}{slot}"


def announcement(node, services, timer=SILENT):
    listed = "".join(f"c8{counted(it)}00" for it in services)
    return f"28{timer:02x}05010000{counted(node)}00{len(services):02x}{listed}"


def of_eight(end, payload):
    return [f"inject {end} {station(it)} {payload(it)}" for it in range(1, 9)]


def eight_at_server():
    """Lines 1 to 8 of the server are connected to eight stations, at moment 160. It sends 24 frames."""
    asks = lambda it: run(False, it, 1, 1, f"010108940101ff{counted(f'S{it}')}0000")
    events = of_eight("s", lambda it: announcement(f"N{it}", [f"S{it}"]))
    events += [f"s connect {it} S{it}" for it in range(1, 9)]
    events += of_eight("s", lambda it: start(False, it, f"N{it}", "TS1"))
    return [*events, f"s time {STEP}", *of_eight("s", asks), f"s time {2 * STEP}"]


def eight_at_node():
    """Eight stations are connected to lines 1 to 8 of the node."""
    asks = lambda it: run(True, it, 1, 0, f"000109940101ff{counted('VAX')}000000")
    events = of_eight("n", lambda it: start(True, 0, "VAX1", f"T{it}")) + of_eight("n", asks)
    return [*events, f"n time {3 * STEP}", *of_eight("n", lambda it: run(True, it, 1, 1))]


def alive(end):
    return of_eight(end, lambda it: run(end == "n", it, 1, 1))


def times(ends, count, first, lives):
    """So many rounds of times alone, but that the stations of circuits are heard before they count as silent."""
    events = []
    for number in range(count):
        events += [f"{end} time {(first + number) * STEP}" for end in ends]
        if number % 3000 == 2999:
            events += [line for end in lives for line in alive(end)]
    return events


def circuits(size):
    events = eight_at_server() + eight_at_node()
    return text(head(8, 8, keepalive=SILENT), events + times("sn", 5_000 * size // 100, 4, "sn"))


def offers(size):
    return text(head(32, 1, keepalive=SILENT, offers=32), times("s", 10_000 * size // 100, 1, ""))


def asked(size, cancels):
    events, frame = eight_at_server(), 24
    for verb in ["request {} PRN", *["cancel {}"] * cancels]:
        for number in range(64):
            events += [f"n {verb.format(number)}", f"deliver {frame}"]
            # (behind the command comes its status)
            frame += 2
    return text(head(32, 1, keepalive=SILENT, offers=32), events + times("s", 10_000 * size // 100, 4, "s"))


def offers_settled(size):
    return asked(size, True)


def offers_waiting(size):
    return asked(size, False)


def nodes(size):
    events = []
    for turn in range(10 * size // 100):
        for number in range(375):
            events.append(f"s time {(turn * 375 + number) * STEP}")
            for it in range(number * 2 // 3, (number + 1) * 2 // 3):
                events.append(f"inject s {station(it + 1)} {announcement(f'N{it}', ['LOGIN', f'S{it}'], 30)}")
            if number % 12 == 11:
                events.append("s connect 1 NONE")
    return text(head(1, 1), events)


CASES = [hour, messages, lines, circuits, offers, offers_settled, offers_waiting, nodes]


def main():
    words = argparse.ArgumentParser()
    words.add_argument("folder", type=pathlib.Path)
    words.add_argument("--size", type=int, default=100)
    given = words.parse_args()
    given.folder.mkdir(parents=True, exist_ok=True)
    for case in CASES:
        name = case.__name__.replace("_", "-")
        (given.folder / f"{name}.txt").write_text(case(given.size))


if __name__ == "__main__":
    main()
