#!/usr/bin/env python3
"""Runs random scripts in threads of their own, and has each report checked.

    bench/random_runs.py [--program PATH] [--count N] [--seed N] [--mode run]

Each script has 1 to 6 threads of events of every form, some within a repeat. A report with status 0 or 1 has to be legal by
`check`; one with 6 or 7 has to be at fault in its last line alone. Status 9 is for want of memory. The rest is told and ends
the run.
"""
import argparse
import collections
import concurrent.futures
import os
import random
import subprocess
import sys

TOP = os.path.dirname(os.path.dirname(os.path.abspath(__file__)))
CHANNELS = ("c0", "c1", "c2")


class Writer:
    """Writes one random script."""

    def __init__(self, seed):
        self.random, self.names = random.Random(seed), 0

    def new_name(self):
        self.names += 1
        return f"n{self.names}"

    def operand(self, known):
        """An integer, or the first atom of a name that is known."""
        return f"{self.random.choice(known)}.0" if known and self.random.random() < 0.5 else str(self.random.randint(-3, 9))

    def atom(self, known):
        return self.operand(known) + self.random.choice(["", "", " + 1", " * 2"])

    def value(self, known):
        return "(" + ", ".join(self.atom(known) for _ in range(self.random.choice([0, 1, 1, 1, 2]))) + ")"

    def channel(self, made):
        return f"{self.random.choice(made)}.0" if made and self.random.random() < 0.6 else self.random.choice(CHANNELS)

    def event(self, depth, known, made):
        one = self.random
        forms = ["send", "recv", "send", "recv", "always"] + ["never", "throw"] * (one.random() < 0.3)
        if depth:
            forms += ["do", "choose", "if", "try", "do", "choose"]
        form = one.choice(forms)
        if form == "send":
            return f"send {self.channel(made)} {self.value(known)}"
        if form == "recv":
            return f"recv {self.channel(made)}"
        if form in ("always", "throw"):
            return f"{form} {self.value(known)}"
        if form == "choose":
            return "choose { " + " | ".join(self.event(depth - 1, known, made) for _ in range(one.randint(2, 3))) + " }"
        if form == "if":
            sides = [self.event(depth - 1, known, made) for _ in range(2)]
            return f"if {self.operand(known)} {one.choice(['<', '='])} {self.operand(known)} {{ {sides[0]} }} else {{ {sides[1]} }}"
        if form == "try":
            name = self.new_name()
            return f"try {{ {self.event(depth - 1, known, made)} }} catch {name} {{ {self.event(depth - 1, [*known, name], made)} }}"
        if form == "do":
            return self.steps(depth, known, made)
        return form

    def steps(self, depth, known, made):
        """A `do`: some parts whose values get names, a fresh channel among them at times, and a last part."""
        known, made, parts = list(known), list(made), []
        for _ in range(self.random.randint(1, 3)):
            name = self.new_name()
            if self.random.random() < 0.1:
                parts.append(f"{name} <- fresh")
                made.append(name)
            else:
                parts.append(f"{name} <- {self.event(depth - 1, known, made)}")
                known.append(name)
        return "do { " + "; ".join([*parts, self.event(depth - 1, known, made)]) + " }"

    def statement(self, known):
        name = self.random.choice(["x", "y"])
        text = f"{name} <- sync {self.event(self.random.choice([0, 1, 2, 2]), known, [])};"
        known.append(name)
        return text

    def thread(self, number):
        known, parts = [], []
        for _ in range(self.random.randint(1, 4)):
            parts.append(self.statement(known))
            if self.random.random() < 0.4:
                parts.append(f"emit {known[-1]};")
        if self.random.random() < 0.2:
            parts.append(f"repeat {self.random.randint(1, 4)} {{ {self.statement(known)} }}")
        return f"thread t{number} {{ {' '.join(parts)} }}"

    def script(self):
        threads = [self.thread(number) for number in range(self.random.randint(1, 6))]
        return f"channels {' '.join(CHANNELS)};\n" + "\n".join(threads) + "\n"


def call(program, words, text):
    done = subprocess.run([program, *words], input=text, capture_output=True, timeout=120, check=False)
    return done.returncode, done.stdout


def look_at(program, mode, seed):
    """What one script came to, and the script where that isn't allowed."""
    text = Writer(seed).script().encode()
    status, report = call(program, [mode, "--budget", str(random.Random(seed).choice([3, 20, 100_000]))], text)
    lines = report.count(b"\n")
    said = call(program, ["check"], text + b"---\n" + report)
    if status in (0, 1):
        good = said == (0, b"legal %d\n" % (lines - 2))
    elif status in (6, 7):
        good = said == (8, b"report fault 4 at line %d\n" % lines)
    else:
        good = status == 9 and report == b""
    rested = " with a rest" if b" rest " in report else ""
    return f"status {status}{rested}", None if good else (text, report, said)


def main():
    parser = argparse.ArgumentParser()
    parser.add_argument("--program", default=os.path.join(TOP, "crates/tevents/out/tevents"))
    parser.add_argument("--count", type=int, default=10_000)
    parser.add_argument("--seed", type=int, default=1)
    parser.add_argument("--mode", default="run")
    words = parser.parse_args()
    came = collections.Counter()
    with concurrent.futures.ThreadPoolExecutor(os.cpu_count()) as pool:
        seeds = range(words.seed, words.seed + words.count)
        for what, wrong in pool.map(lambda seed: look_at(os.path.abspath(words.program), words.mode, seed), seeds):
            came[what] += 1
            if wrong:
                pool.shutdown(cancel_futures=True)
                sys.exit("\n".join(part.decode() if isinstance(part, bytes) else repr(part) for part in (what.encode(), *wrong)))
    print(f"{words.count} scripts by {words.mode}: " + ", ".join(f"{what} {count}" for what, count in sorted(came.items())))


if __name__ == "__main__":
    main()
