#!/usr/bin/env python3
"""Measures the memory and the time of reading a script and printing it.

    bench/reading.py [--program PATH] [--runs N]

The scripts are read and printed by `print` of the proved program. For each it gives the bytes of memory held at most, the
input and the canonical text among them, for a byte of the script, as bench/peak_bytes.c counts them (cc builds it; what the
machine's allocator rounds up is counted), and the time, the least of N runs (5), of the processor. The program is crates/tevents/out/tevents, which the launcher ./tevents builds.

rings         the generator's 21 rings of 250 rounds, which have nearly 1 MiB
the others    one small statement, or one kind of event, as often as the limits allow
"""
import argparse
import os
import resource
import subprocess
import sys
import tempfile

TOP = os.path.dirname(os.path.dirname(os.path.abspath(__file__)))
# A first statement, which writes the register.
FIRST = "x<-sync never;"


def rings(count, rounds):
    """The canonical text of rings that pass a number round."""
    lines = ["channels " + " ".join(f"c{i}" for i in range(3 * count)) + ";"]
    for i in range(3 * count):
        first = 3 * (i // 3)
        lines.append(f"thread t{i} {{")
        for j in range(rounds):
            if i % 3 == 0:
                event = f"do {{ _0 <- send c{first} ({j}); recv c{first + 2} }}"
            else:
                event = f"do {{ _0 <- recv c{i - 1}; _1 <- send c{i} (_0.0 + 1); always _0 }}"
            lines.append(f"  x <- sync {event};")
        lines.append("  emit x;")
        lines.append("}")
    return "\n".join(lines) + "\n"


def threads(count, statements):
    """So many threads of these statements."""
    return "".join(f"thread t{i}{{{statements}}}" for i in range(count))


def chosen(leaf, count):
    """A choice of so many leaves, whose height is small."""
    return leaf if count == 1 else f"choose{{{chosen(leaf, count - count // 2)}|{chosen(leaf, count // 2)}}}"


def scripts():
    """Each script with its name."""
    yield "rings", rings(21, 250)
    yield "emits, 64 threads of 1,024", threads(64, FIRST + "emit();" * 1023)
    yield "emits, 64 threads of 513", threads(64, FIRST + "emit();" * 512)
    yield "emits, one thread of 1,024", threads(1, FIRST + "emit();" * 1023)
    yield "emits, one thread of 513", threads(1, FIRST + "emit();" * 512)
    yield "syncs, 64 threads of 1,024", threads(64, FIRST * 1023)
    yield "syncs, 64 threads of 513", threads(64, FIRST * 513)
    yield "syncs, one thread of 513", threads(1, FIRST * 513)
    yield "empty tuples, 64 threads of 513", threads(64, FIRST + "x<-sync always();" * 512)
    yield "one event of 4,095 nodes a thread", threads(32, f"x<-sync {chosen('never', 2048)};")
    yield "threads of one statement", threads(64, FIRST)


def run(program, path, environment=None):
    """The processor time of one run in seconds."""
    before = resource.getrusage(resource.RUSAGE_CHILDREN)
    with open(path, "rb") as script:
        done = subprocess.run([program, "print"], stdin=script, capture_output=True, check=False, env=environment)
    after = resource.getrusage(resource.RUSAGE_CHILDREN)
    if done.returncode != 0 or not done.stdout.startswith((b"channels", b"thread")):
        sys.exit(f"{path}: status {done.returncode}, {done.stdout[:200]!r} {done.stderr[:200]!r}")
    return after.ru_utime + after.ru_stime - before.ru_utime - before.ru_stime


def peak(program, counter, path, told):
    """The most bytes that one run holds."""
    run(program, path, {"LD_PRELOAD": counter, "PEAK": told})
    with open(told) as file:
        return int(file.read())


def main():
    parser = argparse.ArgumentParser()
    parser.add_argument("--program", default=os.path.join(TOP, "crates/tevents/out/tevents"))
    parser.add_argument("--runs", type=int, default=5)
    words = parser.parse_args()
    program = os.path.abspath(words.program)
    if not os.access(program, os.X_OK):
        sys.exit(f"{program} is missing: ./tevents builds it")
    with tempfile.TemporaryDirectory() as folder:
        counter = os.path.join(folder, "peak_bytes.so")
        source = os.path.join(TOP, "bench", "peak_bytes.c")
        subprocess.run(["cc", "-O2", "-shared", "-fPIC", "-o", counter, source, "-ldl"], check=True)
        path, told = os.path.join(folder, "script.te"), os.path.join(folder, "peak")
        print(f"{os.cpu_count()} processors, the least of {words.runs} runs")
        for name, text in scripts():
            with open(path, "w") as file:
                file.write(text)
            least = min(run(program, path) for _ in range(words.runs))
            held = peak(program, counter, path, told)
            print(f"  {name:34} {len(text):8} bytes  {least * 1e3:7.1f} ms  {held / len(text):6.1f} bytes a byte")


if __name__ == "__main__":
    main()
