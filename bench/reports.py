#!/usr/bin/env python3
"""Measures how fast reports are written, in bytes a second.

    bench/reports.py [--runs N]

It proves and builds the tests of te_report with those of bench/reports.rattle beside them, over copies of the crates in a
temporary folder: they write the report of a history of 157 entries (4,322 bytes) 100,000 times, and that of one of 892
entries (26,345 bytes) 20,000 times. The time is the least of N runs (5), of the processor; that of making the same history
without a report is taken off.
"""
import argparse
import os
import resource
import shutil
import subprocess
import sys
import tempfile

TOP = os.path.dirname(os.path.dirname(os.path.abspath(__file__)))
CRATES = ("te_terms", "te_path", "te_cert", "te_history", "te_script", "te_report")
BYTES = {"short": 100_000 * 4_322, "long": 20_000 * 26_345}


def build(folder):
    """The proved tests, as a program."""
    crates = os.path.join(folder, "crates")
    for name in CRATES:
        shutil.copytree(os.path.join(TOP, "crates", name), os.path.join(crates, name))
    report = os.path.join(crates, "te_report")
    with open(os.path.join(TOP, "bench", "reports.rattle")) as more, open(os.path.join(report, "src", "tests.rt"), "a") as tests:
        tests.write(more.read())
    with open(os.path.join(TOP, "crates.txt")) as all_lines, open(os.path.join(folder, "crates.txt"), "w") as lines:
        lines.writelines(line for line in all_lines if line.split(":")[0] in CRATES)
    subprocess.run(["git", "init", "-q", folder], check=True)
    built = subprocess.run(["rt", "test"], cwd=report, capture_output=True, text=True, check=False)
    if built.returncode != 0:
        sys.exit(built.stdout + built.stderr)
    return os.path.join(report, "out", "te_report_tests")


def seconds(program, test):
    """The processor time of one test."""
    before = resource.getrusage(resource.RUSAGE_CHILDREN)
    subprocess.run([program, f"tests::{test}"], capture_output=True, check=True)
    after = resource.getrusage(resource.RUSAGE_CHILDREN)
    return after.ru_utime + after.ru_stime - before.ru_utime - before.ru_stime


def main():
    parser = argparse.ArgumentParser()
    parser.add_argument("--runs", type=int, default=5)
    runs = parser.parse_args().runs
    with tempfile.TemporaryDirectory() as folder:
        program = build(folder)
        print(f"{os.cpu_count()} processors, the least of {runs} runs")
        for length, count in BYTES.items():
            writing = min(seconds(program, f"{length}_reports") for _ in range(runs))
            without = min(seconds(program, f"{length}_without") for _ in range(runs))
            print(f"{length}: {count / (writing - without) / 1e6:.0f} MB a second")


if __name__ == "__main__":
    main()
