"""Tests of reading reports."""
from __future__ import annotations

import unittest
from typing import List

from report import Commit, End, Entry, Fault, Post, Rest, Stuck, Take, Withdraw, read
from samples import bytes_of, pairs, report_of, report_paths, ring

EXCHANGE = [
    "post a 0 at 1.0",
    "post b 0 at 1.0",
    "commit a: a.0[]=() b.0[]=(7); a>b",
    "take a 0 =()",
    "take b 0 =(7)",
    "end a done",
    "end b done (7)",
]


def spelled(entry: Entry) -> str:
    """An entry's line, from its parts."""
    if isinstance(entry, Post):
        words = ["post", entry.thread, str(entry.ticket)] + (["at", entry.site] if entry.site else [])
    elif isinstance(entry, Commit):
        members = [f"{m.thread}.{m.ticket}[{m.choices}]{m.outcome}" for m in entry.members]
        meetings = [f"{sender}>{receiver}" for sender, receiver in entry.meetings]
        words = ["commit", f"{entry.thread}:", " ".join(members) + ";", *meetings]
    elif isinstance(entry, Withdraw):
        words = ["withdraw", entry.thread, str(entry.ticket)]
    elif isinstance(entry, Take):
        words = ["take", entry.thread, str(entry.ticket), entry.outcome]
    elif isinstance(entry, End):
        words = ["end", entry.thread, entry.how, *entry.values]
    else:
        words = [{Rest: "rest", Stuck: "stuck"}[type(entry)], entry.thread]
    return " ".join([str(entry.number), *words])


def with_member(text: str) -> bytes:
    """The exchange with this in place of a's part in the commit."""
    return report_of([entry.replace("a.0[]=()", text) for entry in EXCHANGE])


def short_reports() -> List[bytes]:
    """The reports that are short enough to be tried byte by byte."""
    return [data for data in map(bytes_of, report_paths()) if len(data) < 500]


class Reading(unittest.TestCase):
    def fault(self, data: bytes) -> Fault:
        """The fault of these bytes, which have to have one."""
        with self.assertRaises(Fault, msg=data[-300:]) as caught:
            read(data)
        return caught.exception

    def test_the_parts_of_each_entry_spell_its_line(self):
        for data in [*map(bytes_of, report_paths()), pairs(64, 2), ring(64, 2)]:
            report = read(data)
            lines = [f"tevents report {report.version}", *map(spelled, report.entries), report.last, ""]
            self.assertEqual("\n".join(lines).encode(), data)
            self.assertEqual([entry.text for entry in report.entries], lines[1:-2])

    def test_the_samples_have_each_entry_and_both_versions(self):
        reports = [read(bytes_of(path)) for path in report_paths()]
        kinds = {type(entry) for report in reports for entry in report.entries}
        self.assertEqual(kinds, {Post, Commit, Withdraw, Take, Rest, Stuck, End})
        self.assertEqual({report.version for report in reports}, {1, 2})

    def test_threads_come_in_the_order_of_members_and_else_of_their_first_entries(self):
        self.assertEqual(read(pairs(64, 1)).threads(), [f"t{place}" for place in range(64)])
        resting = report_of(["post b 0 at 1.0", "rest a", "post c 0 at 1.0"], "full")
        self.assertEqual(read(resting).threads(), ["b", "a", "c"])
        entries = [f"post {thread} 0 at 1.0" for thread in "dcxba"]
        entries += ["commit d: c.0[]=() d.0[]=();", "commit b: a.0[]=() b.0[]=() x.0[]=();"]
        self.assertEqual(read(report_of(entries, "full")).threads(), ["c", "d", "a", "b", "x"])
        entries = [f"post {thread} 0 at 1.0" for thread in "ba"] + ["commit a: a.0[]=() b.0[]=();"]
        entries += ["take a 0 =()", "take b 0 =()", "post a 1 at 1.0", "post b 1 at 1.0", "commit a: b.1[]=() a.1[]=();"]
        self.assertEqual(read(report_of(entries, "full")).threads(), ["b", "a"])

    def test_any_last_line_is_read(self):
        for last in ("closed 7", "full 7", "spent 7 front 3 paths 18446744073709551615 groups 0"):
            self.assertEqual(read(report_of(EXCHANGE, last)).last, last)
        self.assertEqual(read(report_of([], "spent 0 front 0 paths 1 groups 0")).entries, [])

    def test_bounds_are_in_range(self):
        most = "(9223372036854775807,-9223372036854775808,@a.262143.15,@" + 32 * "x" + ")"
        entries = ["post a 0 at 4294967295.4294967295", f"commit a: a.0[LR]!{most};"]
        entries += [f"take a 0 !{most}", f"end a raised {most}"]
        self.assertEqual(read(report_of(entries)).entries[3].values, (most,))

    def test_a_report_without_one_of_its_lines_is_none(self):
        for path in report_paths():
            lines = bytes_of(path).splitlines(keepends=True)
            for place in range(len(lines)):
                fault = self.fault(b"".join(lines[:place] + lines[place + 1 :]))
                self.assertEqual(fault.line, place + 1)

    def test_a_report_that_is_cut_is_none(self):
        for data in short_reports():
            for length in range(len(data)):
                fault = self.fault(data[:length])
                self.assertEqual(fault.line, 1 + data[:length].count(b"\n"), data[:length])

    def test_a_report_with_a_foreign_byte_is_none(self):
        for data in short_reports():
            for place in range(len(data)):
                for byte in (b"?", b"\r", b"\x00", b"\xff"):
                    fault = self.fault(data[:place] + byte + data[place:])
                    self.assertEqual(fault.line, 1 + data[:place].count(b"\n"))

    def test_faults_of_the_head_and_of_the_end(self):
        whole = report_of(EXCHANGE)
        lines = whole.decode().splitlines()
        self.assertEqual(self.fault(b"").line, 1)
        self.assertEqual(self.fault(b"tevents report 3\nclosed 0\n").line, 1)
        self.assertEqual(self.fault(whole.replace(b"\n", b"\r\n")).line, 1)
        self.assertEqual(self.fault(whole + b"\n").line, 10)
        self.assertEqual(self.fault(whole + b"8").line, 10)
        lasts = ["closed 8", "closed 07", "closed", "closedx 7", "full 7 ", "spent 7"]
        for last in [*lasts, f"spent 7 front 3 paths {2**64} groups 0"]:
            self.assertEqual(self.fault("\n".join([*lines[:-1], last, ""]).encode()).line, 9, last)
        self.assertEqual(self.fault(report_of(EXCHANGE[:-1])).line, 8)

    def test_sites_belong_to_version_2(self):
        self.assertEqual(self.fault(report_of(EXCHANGE, version=1)).line, 2)
        self.assertEqual(self.fault(report_of(["post a 0"])).line, 2)

    def test_lines_of_no_entry(self):
        for text in (
            "post a 00 at 1.0", "post a -1 at 1.0", "post a 0 at 1.00", "post a 0 at 1", "post a 0 at 4294967296.0",
            "post a 4294967296 at 1.0", "post  a 0 at 1.0", "post a 0 at 1.0 ", "post 1a 0 at 1.0", "post _a 0 at 1.0",
            "post " + 33 * "a" + " 0 at 1.0", "post a " + 5000 * "9" + " at 1.0", "posts a 0 at 1.0", "", "rest", "rest a 0",
        ):
            self.assertEqual(self.fault(report_of([text])).line, 2, text)
        self.assertEqual(self.fault(report_of(EXCHANGE).replace(b"\n2 ", b"\n3 ")).line, 3)
        self.assertEqual(self.fault(report_of(EXCHANGE).replace(b"\n2 ", b"\n02 ")).line, 3)

    def test_values_of_no_commit(self):
        self.assertEqual(len(read(with_member("a.0[]=()")).entries), 7)
        for member in (
            "a.0[]=(9223372036854775808)", "a.0[]=(-9223372036854775809)", "a.0[]=(-0)", "a.0[]=(+1)", "a.0[]=(01)",
            "a.0[]=(1,2,3,4,5)", "a.0[]=(1,)", "a.0[]=(1, 2)", "a.0[]=(@)", "a.0[]=(@a.262144.0)", "a.0[]=(@a.0.16)",
            "a.0[]=(@a.0)", "a.0[]=(" + 5000 * "9" + ")", "a.0[X]=()", "a.0[]()", "a.0=()", "a[]=()", "a.0[]=() ", "",
        ):
            self.assertEqual(self.fault(with_member(member)).line, 4, member)

    def test_meetings_of_no_commit(self):
        for meetings in ("", "a>b", " a>", " a>b ", "  a>b", " a>c", " a<b", ";; a>b"):
            entries = [entry.replace("; a>b", meetings) for entry in EXCHANGE]
            self.assertEqual(self.fault(report_of(entries)).line, 4, meetings)

    def test_entries_that_do_not_follow(self):
        posted, given = EXCHANGE[:2], EXCHANGE[:3]
        for entries in (
            ["post a 1 at 1.0"],
            posted + ["post a 1 at 1.0"],
            given + ["post a 1 at 2.0"],
            EXCHANGE[:6] + ["post a 1 at 2.0"],
            ["withdraw a 0"],
            posted + ["withdraw a 1"],
            given + ["withdraw a 0"],
            posted + ["take a 0 =()"],
            given + ["take a 0 =(7)"],
            given + ["take a 0 !()"],
            given + ["take a 1 =()"],
            EXCHANGE[:4] + ["take a 0 =()"],
            ["post a 0 at 1.0", "commit a: a.0[]=() b.0[]=(7); a>b"],
            posted + ["commit a: a.1[]=() b.0[]=(7); a>b"],
            posted + ["commit a: a.0[]=() a.0[]=();"],
            posted + ["commit a: a.0[]=(); a>a"],
            given + ["commit a: a.0[]=() b.0[]=(7); a>b"],
            ["rest a", "rest b"],
            ["stuck a"],
            given + ["stuck a"],
            EXCHANGE[:1] + ["rest b", "stuck a"],
            posted + ["end a done"],
            given + ["end a raised (7)"],
            posted + ["end a stuck"],
            posted + ["stuck a", "take a 0 =()"],
            posted + ["stuck a", "end a done"],
            posted + ["stuck a", "end c stuck"],
            posted + ["stuck a", "end a stuck", "end a stuck"],
            posted + ["stuck a", "stuck b"],
            posted + ["stuck a", "rest b"],
            EXCHANGE[:6] + ["end a done"],
            [f"post t{place} 0 at 1.0" for place in range(65)],
        ):
            self.assertEqual(self.fault(report_of(entries, "full")).line, len(entries) + 1, entries)
            self.assertEqual(len(read(report_of(entries[:-1], "full")).entries), len(entries) - 1)


if __name__ == "__main__":
    unittest.main()
