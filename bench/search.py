#!/usr/bin/env python3
"""Measures the search in the proved program: time and memory a path where nothing can commit, and the time a commit.

    bench/search.py [--program PATH] [--yardstick PATH] [--runs N]

Each figure is the least of N runs (9), of processor time, with the output thrown away. The program is
crates/tevents/out/tevents, which the launcher ./tevents builds. With --yardstick, a program with the same modes is timed in
turns with it, and each line has the ratio.

blocked   one thread receives from each of M others, which each choose what to send, and can't go on with any sum: all
          1 + 3 M + 2 (2^(M+1) - 2) paths are made. Time less that of an empty run; memory is the peak of what is resident
          (bench/peak_resident.c, which cc builds, tells it) less that of an empty run.
crowd     nine threads with some thousand paths stay parked while a ring of three goes its rounds: the time of a commit,
          from runs with 10 and with 1,010 rounds.
rings     `gen` with 1, 7 and 21 rings of three threads: the time of a commit, less an empty run.
"""
import argparse
import os
import resource
import subprocess
import sys
import tempfile

TOP = os.path.dirname(os.path.dirname(os.path.abspath(__file__)))
NOTHING = ["gen", "--number", "0"]
SERIAL = ["serial", "--budget", "1000000"]
# the numbers of scripts with so many rings and rounds
RINGS = ((294, 1, 295), (594, 7, 295), (293, 21, 294))


def blocked(senders):
    """The list that can't commit, as a script."""
    lines = ["channels " + " ".join(f"c{i}" for i in range(senders)) + ";"]
    steps = ["v0 <- recv c0;"]
    total = "v0"
    for i in range(1, senders):
        steps.append(f"v{i} <- recv c{i}; s{i} <- always ({total}.0 + v{i}.0);")
        total = f"s{i}"
    lines.append("thread r { x <- sync do { " + " ".join(steps) + f" if {total}.0 = -1 {{ always {total} }} else {{ never }} }}; }}")
    for i in range(senders):
        lines.append(f"thread t{i} {{ x <- sync choose {{ send c{i} (0) | send c{i} (1) }}; }}")
    return "\n".join(lines) + "\n"


def ring_member(turn):
    """A thread of a ring of three, which sends to the next and receives from the one before."""
    sends, receives = f"send r{turn} ({turn})", f"v <- recv r{(turn + 2) % 3}"
    if turn == 0:
        return f"x <- sync do {{ u <- {sends}; {receives}; always v }};"
    return f"x <- sync do {{ {receives}; u <- {sends}; always v }};"


def crowd(rounds):
    """A list of nine threads that can't commit, and a ring beside it."""
    lines = blocked(8).splitlines()
    lines[0] = lines[0].replace(";", " r0 r1 r2;")
    for turn in range(3):
        lines.append(f"thread m{turn} {{ {ring_member(turn) * rounds} }}")
    return "\n".join(lines) + "\n"


def run(words, source, status, environment=None):
    """Processor seconds of one run, which has to end with this status."""
    before = resource.getrusage(resource.RUSAGE_CHILDREN)
    with open(source) as given:
        done = subprocess.run(words, stdin=given, stdout=subprocess.DEVNULL, env=environment, check=False)
    after = resource.getrusage(resource.RUSAGE_CHILDREN)
    if done.returncode != status:
        sys.exit(f"{' '.join(words)} < {source}: status {done.returncode}")
    return after.ru_utime + after.ru_stime - before.ru_utime - before.ru_stime


def least(programs, words, source, status, runs):
    """For each program the least seconds of so many runs, which take turns."""
    turns = [[run([program] + words, source, status) for program in programs] for _ in range(runs)]
    return [min(times) for times in zip(*turns)]


def resident(program, words, source, status, folder):
    """The most bytes that one run has resident."""
    told = os.path.join(folder, "peak")
    run([program] + words, source, status, {"LD_PRELOAD": os.path.join(folder, "peak_resident.so"), "PEAK": told})
    with open(told) as file:
        return int(file.read())


def show(title, microseconds, more=""):
    """One line: microseconds of each program, and the ratio of the first to the second."""
    line = f"  {title}: {microseconds[0]:.3f} us{more}"
    if len(microseconds) > 1:
        line += f"; the yardstick {microseconds[1]:.3f} us, x{microseconds[0] / microseconds[1]:.2f}"
    print(line)


def main():
    parser = argparse.ArgumentParser()
    parser.add_argument("--program", default=os.path.join(TOP, "crates/tevents/out/tevents"))
    parser.add_argument("--yardstick")
    parser.add_argument("--runs", type=int, default=9)
    order = parser.parse_args()
    programs = [os.path.abspath(path) for path in (order.program, order.yardstick) if path]
    for program in programs:
        if not os.access(program, os.X_OK):
            sys.exit(f"{program} is missing")

    print(f"{os.cpu_count()} processors, the least of {order.runs} runs")
    nothing = least(programs, NOTHING, os.devnull, 0, order.runs)
    with tempfile.TemporaryDirectory() as folder:
        shared = os.path.join(folder, "peak_resident.so")
        subprocess.run(["cc", "-O2", "-shared", "-fPIC", "-o", shared, os.path.join(TOP, "bench", "peak_resident.c")], check=True)
        empty = resident(programs[0], NOTHING, os.devnull, 0, folder)
        path = os.path.join(folder, "script.te")

        def timed(script):
            with open(path, "w") as file:
                file.write(script)
            return least(programs, SERIAL, path, 1, order.runs)

        print("blocked, a path:")
        for senders in (8, 11, 14):
            paths = 1 + 3 * senders + 2 * ((1 << (senders + 1)) - 2)
            each = [(a - b) / paths * 1e6 for a, b in zip(timed(blocked(senders)), nothing)]
            held = (resident(programs[0], SERIAL, path, 1, folder) - empty) / paths
            show(f"{paths:6} paths", each, f", {held:.0f} bytes")
        print("crowd, a commit:")
        few, many = timed(crowd(10)), timed(crowd(1010))
        show("1,000 commits", [(b - a) / 1000 * 1e6 for a, b in zip(few, many)])
    print("rings, a commit:")
    for number, rings, rounds in RINGS:
        best = least(programs, ["gen", "--number", str(number)], os.devnull, 0, order.runs)
        each = [(a - b) / (rings * rounds) * 1e6 for a, b in zip(best, nothing)]
        show(f"{rings:2} rings, {rounds} rounds", each)


if __name__ == "__main__":
    main()
