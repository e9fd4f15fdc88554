"""Tests of comparing two reports."""
from __future__ import annotations

import os
import subprocess
import sys
import tempfile
import unittest
from typing import List, Tuple

from samples import REPORTS, SCRIPTS, TOOLS, bytes_of, pairs, report_of, report_paths

EXCHANGE = os.path.join(SCRIPTS, "exchange.report")
VERSION_1 = os.path.join(REPORTS, "version_1.report")
ENTRIES = [
    "post a 0 at 1.0",
    "post b 0 at 1.0",
    "commit a: a.0[L]=() b.0[]=(7); a>b b>a",
    "take a 0 =()",
    "take b 0 =(7)",
    "end a done",
    "end b raised (7)",
]


def run(words: List[str], data: bytes = b"") -> Tuple[int, List[str], str]:
    """Runs tools/te-diff: its status, the lines that it writes, and what it writes on standard error."""
    command = [sys.executable, "-B", os.path.join(TOOLS, "te-diff"), *words]
    done = subprocess.run(command, input=data, capture_output=True, check=False)
    return done.returncode, done.stdout.decode().splitlines(), done.stderr.decode()


class Compared(unittest.TestCase):
    def compare(self, left: bytes, right: bytes, *words: str) -> Tuple[int, List[str]]:
        """What te-diff says of two reports, which aren't faulty."""
        with tempfile.TemporaryDirectory() as folder:
            path = os.path.join(folder, "left")
            with open(path, "wb") as file:
                file.write(left)
            status, lines, said = run([*words, path, "-"], right)
        self.assertEqual(said, "")
        return status, lines

    def test_a_report_is_the_same_as_itself(self):
        for path in report_paths():
            status, lines, said = run([path, path])
            entries = bytes_of(path).decode().splitlines()[1:]
            self.assertEqual((status, said), (0, ""))
            self.assertEqual(lines[-1], f"same: {len(entries) - 1} entries")
            joined = " ".join(" ".join(line[:48].split()) for line in lines[:-1])
            self.assertEqual(" ".join(joined.split()), " ".join(entries))

    def test_the_versions_tell_the_same(self):
        status, lines, said = run([EXCHANGE, VERSION_1])
        self.assertEqual((status, said, lines[-1]), (0, "", "same: 7 entries"))
        self.assertEqual(lines[0], f"{'1 post a 0 at 1.0':<48}   1 post a 0")

    def test_the_first_difference_is_named(self):
        def changed(*changes: Tuple[str, str]) -> bytes:
            text = "\n".join(ENTRIES)
            for before, after in changes:
                self.assertIn(before, text)
                text = text.replace(before, after)
            return report_of(text.split("\n"), "full")

        whole = changed()
        for other, expected in (
            (changed(("post a 0 at 1.0\npost b 0 at 1.0", "post b 0 at 1.0\npost a 0 at 1.0")),
             "entry 1, thread: post of a on the left, post of b on the right"),
            (changed(("post b 0 at 1.0", "post b 0 at 2.3")), "entry 2, site of b.0: 1.0 on the left, 2.3 on the right"),
            (changed(("commit a", "commit b")), "entry 3, thread: commit of a on the left, commit of b on the right"),
            (changed(("[L]", "[R]")), "entry 3, choices of a.0: [L] on the left, [R] on the right"),
            (changed(("=(7)", "=(8)")), "entry 3, outcome of b.0: =(7) on the left, =(8) on the right"),
            (changed(("=(7)", "!(7)")), "entry 3, outcome of b.0: =(7) on the left, !(7) on the right"),
            (changed((" b>a", " a>b")), "entry 3, meeting 2: b>a on the left, a>b on the right"),
            (changed((" b>a", "")), "entry 3, meeting 2: b>a on the left, none on the right"),
            (changed(("take a 0 =()\ntake b 0 =(7)", "take b 0 =(7)\ntake a 0 =()")),
             "entry 4, thread: take of a on the left, take of b on the right"),
            (changed(("end a done\n", "post a 1 at 2.0\n")), "entry 6, entry: end of a on the left, post of a on the right"),
            (changed(("end a done", "end a done (1) ()")), "entry 6, emitted by a: nothing on the left, (1) () on the right"),
            (changed(("raised (7)", "raised (8)")), "entry 7, raised by b: (7) on the left, (8) on the right"),
            (changed(("raised (7)", "done (7)")), "entry 7, end of b: raised on the left, done on the right"),
            (changed(("\nend b raised (7)", "")), "line of entry 7: 7 end b raised (7) on the left, full 6 on the right"),
            (report_of(ENTRIES, "closed"), "last line: full 7 on the left, closed 7 on the right"),
        ):
            self.assertEqual(self.compare(whole, other, "--brief")[1][0], f"first difference: {expected}")
            self.assertEqual(self.compare(whole, other)[0], 1)
        left = report_of(["post a 0 at 1.0", "withdraw a 0", "post a 1 at 1.0", "commit a: a.1[]=();"], "full")
        right = report_of(["post a 0 at 1.0", "post b 0 at 1.0", "withdraw b 0", "commit a: a.0[]=();"], "full")
        group = report_of(["post a 0 at 1.0", "post b 0 at 1.0", "commit a: a.0[]=() b.0[]=();"], "full")
        alone = report_of(["post a 0 at 1.0", "post b 0 at 1.0", "commit a: a.0[]=();"], "full")
        said = self.compare(left, right, "--brief")[1][0]
        self.assertEqual(said, "first difference: entry 2, entry: withdraw of a on the left, post of b on the right")
        said = self.compare(group, alone, "--brief")[1][0]
        self.assertEqual(said, "first difference: entry 3, members: a.0 b.0 on the left, a.0 on the right")

    def test_threads_that_differ_are_told_apart_from_another_order(self):
        pair = bytes_of(os.path.join(SCRIPTS, "two_pairs.report")).decode().splitlines()[1:-1]
        entries = [line.partition(" ")[2] for line in pair]
        first, second, rest = entries[4:7], entries[7:10], entries[10:]
        other = report_of(entries[:4] + second + first + rest)
        status, lines = self.compare(report_of(entries), other, "--brief")
        self.assertEqual((status, lines[1]), (1, "each thread did and got the same"))
        other = report_of([entry.replace("(2)", "(3)") for entry in entries])
        status, lines = self.compare(report_of(entries), other, "--brief")
        self.assertEqual((status, lines[1]), (1, "threads that differ: f"))
        self.assertEqual(len(lines), 2)

    def test_entries_stand_side_by_side(self):
        left = report_of(["post a 0 at 1.0", "rest a"], "full")
        right = report_of(["post a 0 at 1.0", "withdraw a 0", "rest a"], "full")
        self.assertEqual(self.compare(left, right, "--width", "12")[1], [
            "1 post a 0     1 post a 0",
            "at 1.0         at 1.0",
            "2 rest a     | 2 withdraw a",
            "             | 0",
            "             > 3 rest a",
            "full 2       | full 3",
            "first difference: entry 2, entry: rest of a on the left, withdraw of a on the right",
            "threads that differ: a",
        ])
        self.assertEqual(self.compare(right, left)[1][2].split(), ["3", "rest", "a", "<"])

    def test_long_reports_are_compared(self):
        status, lines = self.compare(pairs(64, 30), pairs(64, 31), "--brief")
        self.assertEqual(status, 1)
        self.assertIn("entry 4801, entry: end of t0 on the left, post of t0 on the right", lines[0])


class Refused(unittest.TestCase):
    def test_faulty_reports(self):
        for words, said in (
            ([EXCHANGE, "-"], r"-: line 3: [^\n]+"),
            (["-", EXCHANGE], r"-: line 3: [^\n]+"),
            ([EXCHANGE, os.path.join(REPORTS, "none")], r"[^\n]*none: No such file or directory"),
        ):
            status, lines, error = run(words, b"tevents report 2\n1 post a 0 at 1.0\nclosed 1\n")
            self.assertEqual((status, lines), (2, []))
            self.assertRegex(error, rf"\Ate-diff: {said}\n\Z")

    def test_faulty_words(self):
        both = [EXCHANGE, EXCHANGE]
        for words in ([], [EXCHANGE], [EXCHANGE, *both], ["--width", "0", *both], ["--wide", *both]):
            status, lines, error = run(words)
            self.assertEqual((status, lines), (2, []), words)
            self.assertTrue(error)


if __name__ == "__main__":
    unittest.main()
