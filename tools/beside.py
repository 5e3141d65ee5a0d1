#!/usr/bin/env python3
"""What `lat` takes beside a plain Rust program of the same rules: processor time and peak memory, case by case, in one run.

    (cd tools/reference && cargo build --release --offline)
    tools/beside.py LAT [--reference PROGRAM] [--runs N] [--size PERCENT] [--instructions]

LAT is a built `lat`. For each case both programs run N times by turns (9), and the least processor time of each counts; the outputs must
be the same, byte for byte. The last column is the ratio of `lat` to the other: of time, and of peak memory. With --instructions each
case runs once more under callgrind (valgrind), and instructions are compared. --size 1000 makes the schedules ten times as long, as far
as a schedule may be (100,000 events). It needs Python 3, and ends by itself within a few minutes.

    bench, gen      the commands with the number 7; replay-gen plays what `gen 7` prints
    hour            8 lines, both clocks in steps of 80 ms for an hour, 40 turns a line
    one             30,000 messages of one session, half of them each way
    chat            8 lines that send 10 bytes each way in turn, 10,000 rounds
    bulk            two lines that send 1,500 bytes each way in turn, 1,200 rounds
    lines32         32 lines with a session each, 10,000 rounds of 10 bytes each way on one of them
"""

import argparse
import pathlib
import subprocess
import sys
import tempfile

import paces_of_cores as paces

HERE = pathlib.Path(__file__).resolve().parent


def chat(size):
    pair = paces.Pair(8, 4)
    for number in range(10_000 * size // 100):
        line = number % 8 + 1
        pair.put("s", line, 10)
        pair.put("n", line, 10)
        pair.round()
        pair.take("n", line)
        pair.take("s", line)
    return pair.text()


def bulk(size):
    pair = paces.Pair(2, 15)
    for number in range(1_200 * size // 100):
        line = number % 2 + 1
        pair.put("s", line, 1500)
        pair.put("n", line, 1500)
        pair.round()
        pair.take("n", line)
        pair.take("s", line)
    return pair.text()


def cases(size, reference):
    """Each case: its name, its words, its input."""
    drawn = subprocess.run([reference, "gen", "7"], capture_output=True, check=True).stdout
    yield "bench", ["bench", "7"], b""
    yield "gen", ["gen", "7"], b""
    yield "replay-gen", ["replay"], drawn
    for name, make in [("hour", paces.hour), ("one", paces.messages), ("chat", chat), ("bulk", bulk), ("lines32", paces.lines)]:
        yield name, ["replay"], make(size).encode()


def run(measure, program, words, path):
    """Output, processor seconds, peak memory in KB."""
    with open(path, "rb") as given:
        done = subprocess.run([measure, program, *words], stdin=given, capture_output=True)
    if done.returncode:
        raise SystemExit(f"{program} {' '.join(words)}: status {done.returncode}")
    micros, peak = done.stderr.split()[-2:]
    return done.stdout, int(micros) / 1e6, int(peak)


def instructions(program, words, path):
    with open(path, "rb") as given, tempfile.TemporaryDirectory() as folder:
        out = f"{folder}/out"
        command = ["valgrind", "--tool=callgrind", f"--callgrind-out-file={out}", program, *words]
        subprocess.run(command, stdin=given, stdout=subprocess.DEVNULL, stderr=subprocess.DEVNULL, check=True)
        totals = [line for line in open(out) if line.startswith(("summary:", "totals:"))]
        return int(totals[-1].split()[1])


def main():
    words = argparse.ArgumentParser()
    words.add_argument("lat")
    words.add_argument("--reference", default=str(HERE / "reference/target/release/reference"))
    words.add_argument("--runs", type=int, default=9)
    words.add_argument("--size", type=int, default=100)
    words.add_argument("--instructions", action="store_true")
    given = words.parse_args()
    measure = str(pathlib.Path(given.reference).parent / "measure")
    worst = 0.0
    with tempfile.TemporaryDirectory() as folder:
        for name, command, text in cases(given.size, given.reference):
            path = pathlib.Path(folder, "input")
            path.write_bytes(text)
            best, peak = {}, {}
            for _ in range(given.runs):
                outputs = []
                for program in (given.lat, given.reference):
                    output, seconds, memory = run(measure, program, command, path)
                    outputs.append(output)
                    best[program] = min(seconds, best.get(program, seconds))
                    peak[program] = min(memory, peak.get(program, memory))
                if outputs[0] != outputs[1]:
                    raise SystemExit(f"{name}: the outputs differ")
            ours, theirs = given.lat, given.reference
            ratio = best[ours] / max(best[theirs], 1e-6)
            worst = max(worst, ratio)
            line = f"{name:10} {best[ours]*1000:9.1f} ms {best[theirs]*1000:9.1f} ms {ratio:6.2f}"
            line += f"   {peak[ours]/1024:7.1f} MB {peak[theirs]/1024:7.1f} MB {peak[ours]/peak[theirs]:6.2f}"
            if given.instructions:
                counts = [instructions(program, command, path) for program in (ours, theirs)]
                line += f"   {counts[0]/1e6:9.1f} M {counts[1]/1e6:9.1f} M {counts[0]/counts[1]:6.2f}"
            print(line, flush=True)
    print(f"worst ratio of time {worst:.2f}")


if __name__ == "__main__":
    sys.path.insert(0, str(HERE))
    main()
