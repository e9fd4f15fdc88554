#!/usr/bin/env python3
"""Refuses each call of the proved program in turn, and says what became of it.

    bench/refusals.py [--program PATH] [--tries N]

Each allocation of the three-way swap and of the traders' script, by `serial` and by `run`, and each thread that they start by
`run`; each read and each write of the exchange and of a check of its report; and reads and writes in pieces of 1 to 64 bytes.
One call is refused a run. Where threads run, which allocation has a number changes from run to run, so each number is tried N
times (5).

What the promises allow, and nothing else: memory refused is 9 with nothing written, or a report that `check` finds legal (a run
whose worker found no memory rests, and is finished); a thread refused gives a legal report; a read refused is 3 with nothing
written, a write refused is 4 with a prefix of the text written; pieces change nothing.
"""
import argparse
import collections
import os
import subprocess
import sys
import tempfile

TOP = os.path.dirname(os.path.dirname(os.path.abspath(__file__)))
EXCHANGE = "channels c; thread a { x <- sync send c (7); } thread b { y <- sync recv c; emit y; }\n"
ALLOCATIONS = ("three_way_swap", "traders")


def script(name):
    with open(os.path.join(TOP, "scripts", f"{name}.te"), encoding="utf-8") as file:
        return file.read().encode()


class Program:
    """The program, with calls of it refused."""

    def __init__(self, path, room):
        self.path, self.shim, self.calls = path, os.path.join(room, "refuse_calls.so"), os.path.join(room, "calls")
        made = ["cc", "-O2", "-shared", "-fPIC", "-o", self.shim, os.path.join(TOP, "bench/refuse_calls.c"), "-ldl"]
        subprocess.run(made, check=True)

    def run(self, words, given, **refused):
        """The status and the output, with these calls refused."""
        place = {name: str(value) for name, value in refused.items()}
        place.update(LD_PRELOAD=self.shim, CALLS=self.calls)
        done = subprocess.run([self.path, *words], input=given, capture_output=True, env=place, timeout=60, check=False)
        if done.stderr or done.returncode < 0:
            sys.exit(f"{words} {refused}: status {done.returncode}, {done.stderr[:300]!r}")
        return done.returncode, done.stdout

    def counts(self):
        """The allocations, threads, reads and writes of the last run."""
        with open(self.calls, encoding="utf-8") as file:
            return [int(word) for word in file.read().split()]

    def is_legal(self, text, report):
        status, said = self.run(["check"], text + b"---\n" + report)
        return status == 0 and said == b"legal %d\n" % (report.count(b"\n") - 2)


def is_allowed(program, text, status, written):
    """Whether this may become of a run whose memory was refused."""
    if status == 9:
        return written == b""
    return status in (0, 1) and program.is_legal(text, written)


def refuse_memory(program, name, mode, tries):
    text = script(name)
    program.run([mode], text)
    most = program.counts()[0]
    came = collections.Counter()
    for number in range(1, most + 1):
        for _ in range(tries):
            status, written = program.run([mode], text, ALLOCATION=number)
            if not is_allowed(program, text, status, written):
                sys.exit(f"{name} by {mode}, allocation {number}: status {status}, {written[:200]!r}")
            came["rested" if b" rest " in written else "no call refused" if status < 2 else f"status {status}"] += 1
    told = ", ".join(f"{what} {count}" for what, count in sorted(came.items()))
    print(f"{name} by {mode}: {most} allocations, {tries} runs each: {told}")


def refuse_threads(program, name):
    text = script(name)
    program.run(["run"], text)
    most = program.counts()[1]
    for number in range(1, most + 1):
        status, report = program.run(["run"], text, THREAD=number)
        if status not in (0, 1) or b" rest " not in report or not program.is_legal(text, report):
            sys.exit(f"{name}, thread {number}: status {status}, {report[:200]!r}")
    print(f"{name} by run: {most} threads, each refused in turn: a legal report with a rest")


def refuse_ends(program, what, words, text):
    """Each read and each write of one byte refused, and pieces of each length."""
    status, whole = program.run(words, text, PIECE=1)
    _, _, reads, writes = program.counts()
    for number in range(1, reads + 1):
        if program.run(words, text, PIECE=1, READ=number) != (3, b""):
            sys.exit(f"{what}: read {number}")
    for number in range(1, writes + 1):
        if program.run(words, text, PIECE=1, WRITE=number) != (4, whole[: number - 1]):
            sys.exit(f"{what}: write {number}")
    for size in range(1, 65):
        if program.run(words, text, PIECE=size) != (status, whole):
            sys.exit(f"{what}: pieces of {size}")
    print(f"{what}: {reads} reads are 3 with nothing written, {writes} writes are 4 with what was written before; pieces of 1 to 64 change nothing")


def main():
    parser = argparse.ArgumentParser()
    parser.add_argument("--program", default=os.path.join(TOP, "crates/tevents/out/tevents"))
    parser.add_argument("--tries", type=int, default=5)
    words = parser.parse_args()
    with tempfile.TemporaryDirectory() as room:
        program = Program(os.path.abspath(words.program), room)
        for name in ALLOCATIONS:
            refuse_memory(program, name, "serial", 1)
            refuse_memory(program, name, "run", words.tries)
            refuse_threads(program, name)
        text = EXCHANGE.encode()
        _, report = program.run(["serial"], text)
        refuse_ends(program, "the exchange", ["serial"], text)
        refuse_ends(program, "the check of its report", ["check"], text + b"---\n" + report)


if __name__ == "__main__":
    main()
