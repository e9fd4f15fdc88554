#!/usr/bin/env python3
"""Measures the moves of path states: instructions, time and calls that take memory.

    bench/paths.py [--runs N] [--moves N]

It proves and builds the program bench/paths.rattle over copies of te_terms and te_path in a temporary folder, and runs
it on an event of height 4 (four moves a walk) and one of height 32 (thirty-one moves a walk). Each walk is made by a copy of
the first state. The time is the least of N runs (5), of the processor; that of the copies alone is taken off. The
instructions are those that valgrind's callgrind counts over 1,000 walks, those of the copies alone taken off. The calls that
take memory are counted by bench/count_allocations.c, which cc builds.
"""
import argparse
import os
import re
import resource
import shutil
import subprocess
import sys
import tempfile

TOP = os.path.dirname(os.path.dirname(os.path.abspath(__file__)))
CRATES = "te_terms: thiserror\nte_path: te_terms smallvec\npaths: te_path te_terms\n"
MOVES_A_WALK = {"short": 4, "tall": 31}


def build(folder):
    """The proved program, and the counter of allocations."""
    crates = os.path.join(folder, "crates")
    for name in ("te_terms", "te_path"):
        shutil.copytree(os.path.join(TOP, "crates", name), os.path.join(crates, name))
    os.makedirs(os.path.join(crates, "paths", "src"))
    shutil.copy(os.path.join(TOP, "bench", "paths.rattle"), os.path.join(crates, "paths", "src", "main.rt"))
    with open(os.path.join(folder, "crates.txt"), "w") as file:
        file.write(CRATES)
    subprocess.run(["git", "init", "-q", folder], check=True)
    paths = os.path.join(crates, "paths")
    built = subprocess.run(["rt", "run", "--", "short", "moves", "0"], cwd=paths, capture_output=True, text=True, check=False)
    if built.returncode != 0:
        sys.exit(built.stdout + built.stderr)
    counter = os.path.join(folder, "count_allocations.so")
    source = os.path.join(TOP, "bench", "count_allocations.c")
    subprocess.run(["cc", "-O2", "-shared", "-fPIC", "-o", counter, source, "-ldl"], check=True)
    return os.path.join(paths, "out", "paths"), counter


def run(words, environment=None):
    """The processor time of one run in seconds, and the number of moves that it made."""
    before = resource.getrusage(resource.RUSAGE_CHILDREN)
    done = subprocess.run(words, capture_output=True, text=True, check=True, env=environment)
    after = resource.getrusage(resource.RUSAGE_CHILDREN)
    return after.ru_utime + after.ru_stime - before.ru_utime - before.ru_stime, int(done.stdout)


def allocations(program, counter, folder, words):
    """How many calls took memory."""
    told = os.path.join(folder, "allocations")
    run([program, *words], {"LD_PRELOAD": counter, "ALLOCATIONS": told})
    with open(told) as file:
        return int(file.read())


def instructions(program, words):
    """How many instructions callgrind counts, and the number of moves."""
    counting = ["valgrind", "--tool=callgrind", "--callgrind-out-file=/dev/null", program, *words]
    done = subprocess.run(counting, capture_output=True, text=True, check=True)
    return int(re.search(r"Collected : (\d+)", done.stderr).group(1)), int(done.stdout)


def main():
    parser = argparse.ArgumentParser()
    parser.add_argument("--runs", type=int, default=5)
    parser.add_argument("--moves", type=int, default=1_000_000)
    order = parser.parse_args()
    with tempfile.TemporaryDirectory() as folder:
        program, counter = build(folder)
        print(f"{os.cpu_count()} processors, the least of {order.runs} runs")
        for event, each in MOVES_A_WALK.items():
            walks = str(order.moves // each)
            spent = {}
            taken = {}
            moves = 0
            for what in ("copies", "moves"):
                words = [event, what, walks]
                answers = [run([program, *words]) for _ in range(order.runs)]
                spent[what] = min(time for time, _ in answers)
                moves = answers[0][1]
                taken[what] = allocations(program, counter, folder, words) - allocations(program, counter, folder, [event, what, "0"])
            move = (spent["moves"] - spent["copies"]) / moves * 1e9
            copy = spent["copies"] / int(walks) * 1e9
            walked, counted = instructions(program, [event, "moves", "1000"])
            copied, _ = instructions(program, [event, "copies", "1000"])
            made, _ = instructions(program, [event, "copies", "0"])
            print(f"{event}: {moves} moves, {(walked - copied) / counted:.0f} instructions and {move:.0f} ns a move, {taken['moves'] - taken['copies']} allocations")
            print(f"  {walks} copies, {(copied - made) / 1000:.0f} instructions and {copy:.0f} ns a copy, {taken['copies']} allocations")


if __name__ == "__main__":
    main()
