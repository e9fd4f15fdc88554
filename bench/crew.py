#!/usr/bin/env python3
"""Measures `find_with` and `find_steal` against `find` on lists that can't commit.

    bench/crew.py [--runs N] [--instructions]

It proves and builds the program bench/crew.rattle over copies of the crates in a temporary folder, and a second time with each
look taken twice, which tells the share of the looks. Each time is the least of N runs (9), by the clock; the runs of one list
take turns. With --instructions, callgrind counts those of one run each on the first list instead, for machines that others use.

blocked   one thread receives from each of 14 or 15 others, which each choose what to send, and can't go on with any sum:
          65,575 or 131,114 paths, of which each is compared with two ends at most.
apart     2^8 to 2^12 ends each for sending and for receiving on one channel, of which each agrees with one of the others.
"""
import argparse
import os
import re
import shutil
import subprocess
import sys
import tempfile
import time

TOP = os.path.dirname(os.path.dirname(os.path.abspath(__file__)))
LISTS = (("blocked", "14"), ("blocked", "15"), ("apart", "8"), ("apart", "10"), ("apart", "11"), ("apart", "12"))
WORKERS = ("1", "2", "4", "16")
THIEVES = ("1", "3", "7")
LOOK = "    match search.look(batch[i]) {\n"


def build(folder, is_doubled):
    """The proved program, in which each look is taken twice or once."""
    crates = os.path.join(folder, "crates")
    shutil.copytree(os.path.join(TOP, "crates"), crates, ignore=shutil.ignore_patterns("out", "must-fail"))
    shutil.copy(os.path.join(TOP, "HANDLES"), folder)
    if is_doubled:
        looking = os.path.join(crates, "te_crew", "src", "looking.rt")
        with open(looking) as file:
            text = file.read()
        if text.count(LOOK) != 1:
            sys.exit("te_crew looks at a path in another way: change LOOK")
        with open(looking, "w") as file:
            file.write(text.replace(LOOK, "    let _other = search.look(batch[i]);\n" + LOOK))
    crew = os.path.join(crates, "crew")
    os.makedirs(os.path.join(crew, "src"))
    shutil.copy(os.path.join(TOP, "bench", "crew.rattle"), os.path.join(crew, "src", "main.rt"))
    with open(os.path.join(TOP, "crates.txt")) as file:
        listed = file.read()
    with open(os.path.join(folder, "crates.txt"), "w") as file:
        file.write(listed + "crew: te_steal te_crew te_search te_terms\n")
    subprocess.run(["git", "init", "-q", folder], check=True)
    built = subprocess.run(["rt", "run", "--", "apart", "1", "find"], cwd=crew, capture_output=True, text=True, check=False)
    if built.returncode != 0:
        sys.exit(built.stdout + built.stderr)
    return os.path.join(crew, "out", "crew")


def run(words):
    """The seconds that one run took by the clock."""
    before = time.perf_counter()
    subprocess.run(words, check=True, stdout=subprocess.DEVNULL)
    return time.perf_counter() - before


def instructions(words):
    """The instructions that callgrind counts in one run."""
    done = subprocess.run(
        ["valgrind", "--tool=callgrind", "--callgrind-out-file=/dev/null", *words], capture_output=True, text=True, check=True
    )
    return int(re.search(r"Collected : (\d+)", done.stderr).group(1))


def times(found, find):
    """What each way took, as times what `find` took."""
    return ", ".join(f"{way} {each / find:.2f}" for way, each in found)


def main():
    parser = argparse.ArgumentParser()
    parser.add_argument("--runs", type=int, default=9)
    parser.add_argument("--instructions", action="store_true")
    order = parser.parse_args()
    ways = [["find"], *(["workers", many] for many in WORKERS), *(["thieves", many] for many in THIEVES)]
    names = [" ".join(way) for way in ways]
    with tempfile.TemporaryDirectory() as folder:
        once = build(os.path.join(folder, "once"), False)
        if order.instructions:
            find, *found = [instructions([once, *LISTS[0], *way]) for way in ways]
            print(f"{' '.join(LISTS[0])}: find {find} instructions; times find: {times(zip(names[1:], found), find)}")
            return
        twice = build(os.path.join(folder, "twice"), True)
        print(f"{os.cpu_count()} processors, the least of {order.runs} runs")
        for what, size in LISTS:
            orders = [*([once, what, size, *way] for way in ways), [twice, what, size, *ways[1]]]
            rounds = [[run(words) for words in orders] for _ in range(order.runs)]
            find, *found, doubled = [min(each) for each in zip(*rounds)]
            told = times(zip(names[1:], found), find)
            print(f"{what} {size}: find {find:.3f} s; times find: {told}; looks {(doubled - found[0]) / found[0]:.0%}")


if __name__ == "__main__":
    main()
