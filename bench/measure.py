#!/usr/bin/env python3
"""Measures the proved program: the time per entry as the threads grow, and the time to read scripts as they grow.

    bench/measure.py [--program PATH] [--runs N]

Each figure is the least of N runs (5), in milliseconds of processor time, with the output thrown away. The program is
crates/tevents/out/tevents, which the launcher ./tevents builds.

entries   2, 16 and 64 threads of 700 synchronisations each, in pairs: the first half sends `x<-sync send c(7);`, the
          second half receives `x<-sync recv c;`. Once over one channel for all, once with a channel for each pair.
reading   scripts of 64 KiB, 256 KiB and 1 MiB, whose 64 threads wait at their first statement, for ever: the time is
          that of reading the rest.
"""
import argparse
import os
import resource
import subprocess
import sys
import tempfile

TOP = os.path.dirname(os.path.dirname(os.path.abspath(__file__)))
SYNCS = 700


def exchanges(threads, channel_each):
    """Pairs of threads that meet SYNCS times; pair i is the threads s<i> and r<i>."""
    pairs = threads // 2
    channels = [f"c{i}" for i in range(pairs)] if channel_each else ["c"]
    lines = [f"channels {' '.join(channels)};"]
    for side, statement in (("s", "x<-sync send {}(7);"), ("r", "x<-sync recv {};")):
        for i in range(pairs):
            body = statement.format(channels[i % len(channels)]) * SYNCS
            lines.append(f"thread {side}{i} {{{body}}}")
    return "\n".join(lines) + "\n"


def waiting(size):
    """A script of at most so many bytes, whose threads all wait at their first statement."""
    statement = "x<-sync recv c;\n"
    head = "channels c;\n"
    frame = len("thread t63 {\n}\n")
    count = min(1024, ((size - len(head)) // 64 - frame) // len(statement))
    threads = (f"thread t{i} {{\n{statement * count}}}\n" for i in range(64))
    return head + "".join(threads)


def processor_time(program, path):
    """The processor time of one run in seconds, and its last line."""
    before = resource.getrusage(resource.RUSAGE_CHILDREN)
    with open(path, "rb") as script:
        done = subprocess.run([program, "serial"], stdin=script, capture_output=True, check=False)
    after = resource.getrusage(resource.RUSAGE_CHILDREN)
    if done.returncode not in (0, 1) or done.stderr:
        sys.exit(f"{path}: status {done.returncode}, {done.stdout[:200]!r} {done.stderr[:200]!r}")
    spent = after.ru_utime + after.ru_stime - before.ru_utime - before.ru_stime
    return spent, done.stdout.rstrip(b"\n").rsplit(b"\n", 1)[-1].decode()


def least(program, text, runs):
    """The least time of the runs in seconds, and the number of entries."""
    with tempfile.NamedTemporaryFile("w", suffix=".te") as script:
        script.write(text)
        script.flush()
        answers = [processor_time(program, script.name) for _ in range(runs)]
    word, entries = answers[0][1].split()
    if word != "closed":
        sys.exit(f"the report ends in {answers[0][1]!r}")
    return min(spent for spent, _ in answers), int(entries)


def main():
    parser = argparse.ArgumentParser()
    parser.add_argument("--program", default=os.path.join(TOP, "crates/tevents/out/tevents"))
    parser.add_argument("--runs", type=int, default=5)
    words = parser.parse_args()
    program = os.path.abspath(words.program)
    if not os.access(program, os.X_OK):
        sys.exit(f"{program} is missing: ./tevents builds it")

    print(f"{os.cpu_count()} processors, the least of {words.runs} runs")
    for title, channel_each in (("one channel", False), ("a channel for each pair", True)):
        print(f"entries, {title}:")
        first = None
        for threads in (2, 16, 64):
            spent, entries = least(program, exchanges(threads, channel_each), words.runs)
            each = spent / entries * 1e6
            first = first or each
            print(f"  {threads:2} threads  {entries:6} entries  {spent * 1e3:8.1f} ms  {each:7.3f} us an entry  x{each / first:.2f}")
    print("reading:")
    last = None
    for size in (65_536, 262_144, 1_048_576):
        text = waiting(size)
        spent, _ = least(program, text, words.runs)
        growth = f"  x{spent / last:.2f}" if last else ""
        last = spent
        print(f"  {len(text):7} bytes  {spent * 1e3:8.1f} ms{growth}")


if __name__ == "__main__":
    main()
