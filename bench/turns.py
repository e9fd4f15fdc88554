#!/usr/bin/env python3
"""Measures the calls of a runtime of one caller against a free turn of a lock over a board.

    bench/turns.py [--runs N]

It proves and builds the program of bench/turns, whose files end in .rattle so that no check of the repository takes them for
a crate of its own, over copies of the crates in a temporary folder. Each time is the least of
N runs (9), of the processor, less that of making the runtime: a free turn over 10,000,000, `poll` of a parked caller over
10,000,000, and `offer` and `recall` from an empty board until it is full.
"""
import argparse
import os
import resource
import shutil
import subprocess
import sys
import tempfile

TOP = os.path.dirname(os.path.dirname(os.path.abspath(__file__)))
COUNT = "10000000"


def build(folder):
    """The proved program."""
    crates = os.path.join(folder, "crates")
    shutil.copytree(os.path.join(TOP, "crates"), crates, ignore=shutil.ignore_patterns("out", "must-fail"))
    shutil.copy(os.path.join(TOP, "HANDLES"), folder)
    turns = os.path.join(crates, "turns")
    shutil.copytree(os.path.join(TOP, "bench", "turns"), turns)
    for at, _, files in os.walk(turns):
        for file in files:
            os.rename(os.path.join(at, file), os.path.join(at, file.removesuffix(".rattle")))
    with open(os.path.join(TOP, "crates.txt")) as file:
        listed = file.read()
    with open(os.path.join(folder, "crates.txt"), "w") as file:
        file.write(listed + "turns: te_runtime te_board te_lock te_history te_terms\n")
    subprocess.run(["git", "init", "-q", folder], check=True)
    built = subprocess.run(["rt", "run", "--", "board", "0"], cwd=turns, capture_output=True, text=True, check=False)
    if built.returncode != 0:
        sys.exit(built.stdout + built.stderr)
    return os.path.join(turns, "out", "turns")


def run(words):
    """The processor time of one run in seconds, and the number of turns."""
    before = resource.getrusage(resource.RUSAGE_CHILDREN)
    done = subprocess.run(words, capture_output=True, text=True, check=True)
    after = resource.getrusage(resource.RUSAGE_CHILDREN)
    return after.ru_utime + after.ru_stime - before.ru_utime - before.ru_stime, int(done.stdout)


def main():
    parser = argparse.ArgumentParser()
    parser.add_argument("--runs", type=int, default=9)
    order = parser.parse_args()
    with tempfile.TemporaryDirectory() as folder:
        program = build(folder)
        print(f"{os.cpu_count()} processors, the least of {order.runs} runs")
        orders = (("board", "0"), ("free", COUNT), ("offers", "0"), ("polls", COUNT))
        rounds = [[run([program, *words]) for words in orders] for _ in range(order.runs)]
        least = [min(each) for each in zip(*rounds)]
        nothing = least[0][0]
        free, *calls = [(time - nothing) / turns * 1e9 for time, turns in least[1:]]
        print(f"a free turn of a lock over a board: {free:.1f} ns")
        for what, each in zip(("offer and recall until full, a call", "poll of a parked caller"), calls):
            print(f"{what}: {each:.1f} ns, {each / free:.1f} free turns")


if __name__ == "__main__":
    main()
