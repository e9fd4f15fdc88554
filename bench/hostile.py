#!/usr/bin/env python3
"""Times the proved program on texts that were made to be slow to read, and says whether the time grows faster than the text.

    bench/hostile.py [--program PATH] [--runs N]

Each shape is made at a quarter, a half and the whole of the most bytes: of a script 1 MiB, by `print` and `serial`; of a report
64 MiB, by `check`. A time is the least of N runs (3), in milliseconds of processor time. The status and the first bytes written
stand beside it. A shape whose time more than triples where the text doubles, and is above 50 ms, ends the run with status 1.
"""
import argparse
import os
import resource
import subprocess
import sys
import tempfile

TOP = os.path.dirname(os.path.dirname(os.path.abspath(__file__)))
MIB = 1 << 20
HEAD = b"channels c;\nthread a {"


def fill(head, part, tail, size):
    """As many of a part as there is room for."""
    return head + part * ((size - len(head) - len(tail)) // len(part)) + tail


def one_name(size):
    return b"channels " + b"n" * (size - 10) + b";"


def one_comment(size):
    return b"#" + b" comment" * ((size - 1) // 8)


def deep(size):
    nested = b"".join(b"do { y%d <- never; " % number for number in range(31))
    return fill(HEAD, b"x <- sync " + nested + b"never" + b" }" * 31 + b";\n", b"}", size)


def braces(size):
    return fill(HEAD + b"x <- sync ", b"{", b"", size)


def choices(size):
    return fill(HEAD + b"x <- sync choose { never", b"|never", b" }; }", size)


def parts(size):
    named = b"".join(b"n%d<-never;" % number for number in range(size // 15))
    return HEAD + b"x <- sync do { " + named[: size - 60].rsplit(b";", 1)[0] + b"; never }; }"


def threads(size):
    body = b"x<-sync never;" * min(1024, size // 64 // 14 - 2)
    return b"".join(b"thread t%d{%b}\n" % (number, body) for number in range(64))


def long_integers(size):
    return HEAD + b"x <- sync always (" + b"1" * (size - len(HEAD) - 30) + b"); }"


def line_feeds(size):
    return b"\n" * size


def blanks(size):
    return fill(HEAD, b" \t", b"x <- sync never; }", size)


def many_channels(size):
    names = b" ".join(b"c%d" % number for number in range(size // 8))
    return b"channels " + names[: size - 11] + b";"


def no_text(size):
    return bytes(range(256)) * (size // 256)


SCRIPTS = (one_name, one_comment, deep, braces, choices, parts, threads, long_integers, line_feeds, blanks, many_channels, no_text)

SCRIPT = b"channels c; thread a { repeat 10000 { x <- sync send c (7); } } thread b { repeat 10000 { y <- sync recv c; } }\n"


def checked(report):
    return SCRIPT + b"---\n" + report


def numbered_lines(size):
    return checked(fill(b"tevents report 2\n", b"1 post a 0 at 2.0\n", b"closed 1\n", size))


def one_line(size):
    return checked(b"tevents report 2\n" + b"1 " * (size // 2 - 10))


def long_commit(size):
    return checked(fill(b"tevents report 2\n1 post a 0 at 2.0\n2 post b 0 at 2.0\n3 commit a: a.0[]=() b.0[]=(7);", b" a>b", b"\n", size))


def digits(size):
    return checked(b"tevents report 2\n" + b"9" * (size - 20) + b"\n")


def feeds(size):
    return checked(b"tevents report 2\n" + b"\n" * (size - 20))


def letters(size):
    return checked(fill(b"tevents report 2\n1 post a 0 at 2.0\n2 commit a: a.0[", b"LR", b"]=();\n", size))


def rules(size):
    return fill(SCRIPT, b"---\n", b"", size)


def whole_report(size):
    """That of two threads that meet as often as they may, 10,000 times for the whole, which is legal."""
    passes = 10_000 * size // (64 * MIB)
    script = SCRIPT.replace(b"10000", b"%d" % passes)
    lines = []
    for ticket in range(passes):
        lines += [b"post a %d at 2.%d" % (ticket, ticket), b"post b %d at 2.%d" % (ticket, ticket)]
        lines += [b"commit a: a.%d[]=() b.%d[]=(7); a>b" % (ticket, ticket), b"take a %d =()" % ticket, b"take b %d =(7)" % ticket]
    lines += [b"end a done", b"end b done"]
    told = b"".join(b"%d %b\n" % (number, line) for number, line in enumerate(lines, 1))
    return script + b"---\ntevents report 2\n" + told + b"closed %d\n" % len(lines)


REPORTS = (numbered_lines, one_line, long_commit, digits, feeds, letters, rules, whole_report)


def least(program, mode, text, runs):
    """The least time in seconds, the status, and the first bytes written."""
    times = []
    with tempfile.TemporaryFile() as given:
        given.write(text)
        for _ in range(runs):
            given.seek(0)
            before = resource.getrusage(resource.RUSAGE_CHILDREN)
            done = subprocess.run([program, mode], stdin=given, capture_output=True, timeout=300, check=False)
            after = resource.getrusage(resource.RUSAGE_CHILDREN)
            times.append(after.ru_utime + after.ru_stime - before.ru_utime - before.ru_stime)
    if done.returncode < 0 or done.stderr:
        sys.exit(f"{mode}: status {done.returncode}, {done.stderr[:200]!r}")
    return min(times), done.returncode, done.stdout[:40].decode("ascii", "replace").split("\n")[0]


def main():
    parser = argparse.ArgumentParser()
    parser.add_argument("--program", default=os.path.join(TOP, "crates/tevents/out/tevents"))
    parser.add_argument("--runs", type=int, default=3)
    words = parser.parse_args()
    program, slow = os.path.abspath(words.program), []
    jobs = [(mode, shape, MIB) for mode in ("print", "serial") for shape in SCRIPTS] + [("check", shape, 64 * MIB) for shape in REPORTS]
    print("| mode | shape | a quarter | a half | the whole | status | written |\n|---|---|---|---|---|---|---|")
    for mode, shape, most in jobs:
        told = [least(program, mode, shape(most // part), words.runs) for part in (4, 2, 1)]
        times = [time for time, _, _ in told]
        name = shape.__name__.replace("_", " ")
        print(f"| {mode} | {name} | " + " | ".join(f"{time * 1000:.0f} ms" for time in times) + f" | {told[2][1]} | `{told[2][2]}` |", flush=True)
        if any(later > 0.05 and later > 3 * earlier for earlier, later in zip(times, times[1:])):
            slow.append(f"{mode} of {name}")
    if slow:
        sys.exit("grows faster than the text: " + ", ".join(slow))


if __name__ == "__main__":
    main()
