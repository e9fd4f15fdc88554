"""Tests of the charts: each is read as XML, and what it shows is found in its shapes and texts."""
from __future__ import annotations

import os
import re
import subprocess
import sys
import unittest
import xml.etree.ElementTree as ElementTree
from functools import lru_cache
from typing import Dict, List, NamedTuple, Tuple

import drawing
import layout
from report import Commit, End, Post, Report, Rest, Stuck, Take, Withdraw, read
from samples import REPORTS, SCRIPTS, TOOLS, bytes_of, pairs, report_of, report_paths, ring

SVG = "{http://www.w3.org/2000/svg}"


def run(words: List[str], data: bytes) -> subprocess.CompletedProcess:
    """Runs tools/chart."""
    command = [sys.executable, "-B", os.path.join(TOOLS, "chart"), *words]
    return subprocess.run(command, input=data, capture_output=True, check=False)


def chart(data: bytes, *words: str) -> ElementTree.Element:
    """The chart of a report."""
    done = run(list(words), data)
    if done.returncode != 0 or done.stderr:
        raise AssertionError(done)
    return ElementTree.fromstring(done.stdout)


class Text(NamedTuple):
    """A text with the box that it needs."""

    text: str
    left: int
    top: int
    right: int
    bottom: int
    kind: str


def texts_in(element: ElementTree.Element) -> List[Text]:
    """All texts below an element."""
    found = []
    for item in element.iter(SVG + "text"):
        text, x, y = "".join(item.itertext()), int(item.get("x")), int(item.get("y"))
        found.append(Text(text, x, y - 11, x + len(text) * layout.CHARACTER, y + 4, item.get("class") or ""))
    return found


def figures_of(svg: ElementTree.Element) -> Dict[int, ElementTree.Element]:
    """What is drawn of each entry."""
    groups = [group for group in svg.iter(SVG + "g") if group.get("id")]
    return {int(group.get("id").partition("entry-")[2]): group for group in groups}


def names_of(svg: ElementTree.Element) -> List[ElementTree.Element]:
    """The boxes with the threads' names."""
    return [group for group in svg.iter(SVG + "g") if (group.get("class") or "").startswith("name")]


def lines_of(svg: ElementTree.Element) -> Dict[str, int]:
    """Where each thread's line is: below the beginning of its name."""
    return {"".join(group.itertext()): int(group.find(SVG + "text").get("x")) for group in names_of(svg)}


def with_class(element: ElementTree.Element, name: str) -> List[ElementTree.Element]:
    """The shapes of a class below an element."""
    return [item for item in element.iter() if item.get("class") == name]


def meetings_of(figure: ElementTree.Element, lines: Dict[str, int]) -> List[Tuple[str, str]]:
    """Who sends to whom by the arrows, from left to right and then down."""
    threads = {x: thread for thread, x in lines.items()}
    found = []
    for arrow in with_class(figure, "arrow"):
        numbers = re.match(r"M(\d+) (\d+)a3 3 .*M(\d+) (\d+)l(-?8)-4v8z$", arrow.get("d"))
        dot, height, tip, tip_height, way = map(int, numbers.groups())
        assert height == tip_height
        sender, receiver = dot + 3, tip + (4 if way < 0 else -4)
        found.append((height, min(sender, receiver), threads[sender], threads[receiver]))
    return [meeting[2:] for meeting in sorted(found)]


def spans_of(svg: ElementTree.Element, name: str) -> List[Tuple[int, int, int]]:
    """The pieces of the threads' lines of a class: where each stands, begins and ends."""
    spans = []
    for path in svg.findall(SVG + "path"):
        if path.get("class") == name:
            spans += [tuple(map(int, piece)) for piece in re.findall(r"M(\d+) (\d+)V(\d+)", path.get("d"))]
    return sorted(spans)


def said_in(figure: ElementTree.Element) -> str:
    """All that is said of an entry, without its title."""
    return " ".join(text.text for text in texts_in(figure))


@lru_cache(maxsize=None)
def charts() -> List[Tuple[Report, ElementTree.Element]]:
    """Each report with its chart."""
    reports = [*map(bytes_of, report_paths()), pairs(64, 1), ring(16, 1), ring(17, 1), ring(64, 1)]
    return [(read(data), chart(data)) for data in reports]


class Drawn(unittest.TestCase):
    def test_each_entry_is_drawn_once_under_its_line(self):
        for report, svg in charts():
            figures = figures_of(svg)
            self.assertEqual(list(figures), [entry.number for entry in report.entries])
            for entry in report.entries:
                self.assertEqual(figures[entry.number].find(SVG + "title").text, entry.text)
                self.assertTrue(said_in(figures[entry.number]).startswith(str(entry.number)), entry.text)

    def test_each_thread_has_one_line(self):
        for report, svg in charts():
            self.assertEqual(list(lines_of(svg)), report.threads())
            self.assertEqual(len(set(lines_of(svg).values())), len(report.threads()))

    def test_entries_of_one_thread_stand_at_its_line_and_say_what_they_tell(self):
        shapes = {Post: "post", Withdraw: "withdraw", Take: "take"}
        for report, svg in charts():
            lines, figures = lines_of(svg), figures_of(svg)
            for entry in report.entries:
                if isinstance(entry, (Commit, Rest, Stuck)):
                    continue
                figure, x = figures[entry.number], lines[entry.thread]
                shape = entry.how if isinstance(entry, End) else shapes[type(entry)]
                (mark,) = with_class(figure, shape)
                near = int(mark.get("cx") or re.match(r"M(\d+)", mark.get("d"))[1])
                self.assertLessEqual(abs(near - x), 7)
                self.assertEqual({text.left for text in texts_in(figure)}, {x + layout.LABEL_AT})
                number, word, _, *rest = entry.text.split(" ")
                if isinstance(entry, Take):
                    rest = rest[1:]
                words = [number, *rest] if isinstance(entry, End) else [number, word, *rest]
                self.assertEqual(said_in(figure).replace(" ", ""), "".join(words), entry.text)

    def test_a_commit_is_a_band_over_its_members_with_its_meetings_and_outcomes(self):
        for report, svg in charts():
            lines, figures = lines_of(svg), figures_of(svg)
            for entry in report.entries:
                if not isinstance(entry, Commit):
                    continue
                figure = figures[entry.number]
                (band,) = with_class(figure, "band")
                left, top, width, height = (int(band.get(key)) for key in ("x", "y", "width", "height"))
                members = [lines[member.thread] for member in entry.members]
                self.assertTrue(left < min(members) and max(members) < left + width)
                texts = texts_in(figure)
                for text in texts:
                    self.assertTrue(left < text.left and text.right <= left + width, text)
                    self.assertTrue(top < text.top and text.bottom <= top + height, text)
                self.assertEqual(meetings_of(figure, lines), list(entry.meetings))
                marks = with_class(figure, "gives") + with_class(figure, "raises")
                heights = [mark.get("cy") or re.match(r"M\d+ (\d+)l", mark.get("d"))[1] for mark in marks]
                height_of_marks = min(map(int, heights))
                for member in entry.members:
                    x = lines[member.thread] + layout.LABEL_AT
                    said = "".join(text.text for text in texts if text.left == x and text.bottom > height_of_marks)
                    expected = (f"[{member.choices}] " if member.choices else "") + member.outcome
                    self.assertEqual(said.replace(" ", ""), expected.replace(" ", ""), entry.text)
                self.assertEqual(len(marks), len(members))
                raising = [member for member in entry.members if member.outcome.startswith("!")]
                self.assertEqual(len(with_class(figure, "raises")), len(raising))
                self.assertIn(f"by{entry.thread}", said_in(figure).replace(" ", ""))

    def test_a_rest_and_a_stuck_board_go_across(self):
        for report, svg in charts():
            figures, lines = figures_of(svg), lines_of(svg)
            for entry in report.entries:
                if isinstance(entry, (Rest, Stuck)):
                    stuck = isinstance(entry, Stuck)
                    (line,) = with_class(figures[entry.number], "across" if stuck else "rest")
                    ends = [int(number) for number in re.findall(r"[MH](\d+)", line.get("d"))]
                    self.assertTrue(min(ends) < min(lines.values()) and max(lines.values()) < max(ends))
                    said = f"{entry.number} {'stuck,' if stuck else 'rest'} by {entry.thread}"
                    self.assertEqual(said_in(figures[entry.number]), said)

    def test_lines_tell_what_a_thread_does(self):
        svg = chart(bytes_of(os.path.join(REPORTS, "withdrawn.report")))
        lines, figures = lines_of(svg), figures_of(svg)

        def height(number: int) -> int:
            return texts_in(figures[number])[0].top + 7

        waiting, given = spans_of(svg, "waiting"), spans_of(svg, "given")
        outcomes = {int(mark.get("cx")): int(mark.get("cy")) for mark in with_class(figures[8], "gives")}
        a, b = lines["a"], lines["b"]
        (raised,) = with_class(figures[12], "raises")
        raised_at = int(re.match(rf"M{a} (\d+)", raised.get("d"))[1]) + 8
        expected = [(b, height(1), height(3)), (a, height(2), height(5)), (a, height(6), outcomes[a])]
        expected += [(b, height(7), outcomes[b]), (a, height(10), raised_at)]
        self.assertEqual(waiting, sorted(expected))
        expected = [(a, outcomes[a], height(9)), (b, outcomes[b], height(11)), (a, raised_at, height(13))]
        self.assertEqual(given, sorted(expected))
        idle = spans_of(svg, "idle")
        self.assertEqual(max(end for x, _, end in idle if x == a), height(15))
        self.assertEqual(max(end for x, _, end in idle if x == b), height(14))

    def test_no_two_texts_meet_and_none_leaves_its_column(self):
        for report, svg in charts():
            width, height = int(svg.get("width")), int(svg.get("height"))
            lines = sorted(lines_of(svg).values())
            rows: Dict[int, List[Text]] = {}
            for text in texts_in(svg):
                self.assertTrue(0 < text.left and text.right <= width and 0 < text.top and text.bottom <= height, text)
                row = text.top // 16
                for other in rows.get(row - 1, []) + rows.get(row, []) + rows.get(row + 1, []):
                    beside = text.right <= other.left or other.right <= text.left
                    self.assertTrue(beside or text.bottom < other.top or other.bottom < text.top, (text, other))
                rows.setdefault(row, []).append(text)
                if text.kind != "note":
                    self.assertFalse([x for x in lines if text.left < x < text.right + 4 and x != text.left], text)

    def test_rows_are_read_like_text(self):
        for report, svg in charts():
            figures = figures_of(svg)
            labels = [texts_in(figures[entry.number])[0] for entry in report.entries]
            places = [(label.top, label.left) for label in labels]
            self.assertEqual(places, sorted(places))

    def test_the_last_line_stands_below(self):
        for report, svg in charts():
            texts = texts_in(svg)
            self.assertEqual([text.text for text in texts if text.top == max(t.top for t in texts)], [report.last])


class Sizes(unittest.TestCase):
    def test_64_threads_keep_narrow_columns_and_see_their_names_again(self):
        svg = chart(ring(64, 2))
        lines = sorted(lines_of(svg).values())
        self.assertEqual(len(lines), 64)
        self.assertLessEqual(max(right - left for left, right in zip(lines, lines[1:])), 150)
        names = names_of(svg)
        tops = sorted({int(group.find(SVG + "rect").get("y")) for group in names})
        self.assertEqual(len(names), 64 * len(tops))
        self.assertGreaterEqual(len(tops), 2)

    def test_far_arrows_tell_their_ends(self):
        svg = chart(pairs(64, 1))
        lines = lines_of(svg)
        texts = [(text.text, text.left, text.right) for text in texts_in(figures_of(svg)[65])]
        self.assertIn(("to t63", lines["t0"] + 24, lines["t0"] + 24 + 6 * layout.CHARACTER), texts)
        self.assertIn(("from t63", lines["t0"] + 24, lines["t0"] + 24 + 8 * layout.CHARACTER), texts)
        self.assertIn(("to t0", lines["t63"] - 24 - 5 * layout.CHARACTER, lines["t63"] - 24), texts)
        self.assertIn(("from t0", lines["t63"] - 24 - 7 * layout.CHARACTER, lines["t63"] - 24), texts)

    def test_a_range_is_drawn_from_where_the_threads_stand(self):
        data = bytes_of(os.path.join(SCRIPTS, "guarded_receive.report"))
        svg = chart(data, "--from", "5", "--to", "6")
        self.assertEqual(list(figures_of(svg)), [5, 6])
        said = [text.text for text in texts_in(svg)]
        self.assertIn("entries 1 to 4 aren't drawn", said)
        self.assertIn("entries 7 to 10 aren't drawn", said)
        self.assertNotIn("closed 10", said)
        lines = lines_of(svg)
        self.assertEqual([x for x, _, _ in spans_of(svg, "waiting")], [lines["s"]])
        self.assertEqual([x for x, _, _ in spans_of(svg, "given")], [lines["r"], lines["t"]])
        ended = chart(data, "--from", "9")
        self.assertEqual(["".join(group.itertext()) for group in with_class(ended, "name ended")], ["r", "t"])
        self.assertEqual(list(figures_of(chart(data, "--to", "10"))), list(range(1, 11)))
        self.assertEqual(list(figures_of(chart(data, "--to", "999999"))), list(range(1, 11)))
        self.assertEqual(list(figures_of(chart(data, "--from", "10"))), [10])

    def test_a_long_report_is_cut_and_goes_on_where_it_says(self):
        data = pairs(64, 12)
        count, first, seen = len(read(data).entries), 1, []
        while first is not None:
            svg = chart(data, "--from", str(first))
            seen += figures_of(svg)
            self.assertLessEqual(int(svg.get("height")), layout.HEIGHT_AT_MOST + 100)
            said = "\n".join(text.text for text in texts_in(svg))
            again = re.search(r"--from (\d+) goes on from here\.", said)
            self.assertEqual(bool(again), f"closed {count}" not in said)
            if again:
                self.assertIn(f"Cut, since a picture has its bounds: entries {again[1]} to {count} aren't drawn.", said)
            first = int(again[1]) if again else None
        self.assertEqual(seen, list(range(1, count + 1)))
        self.assertGreater(count, len(figures_of(chart(data))))

    def test_many_meetings_letters_and_values_are_cut_short(self):
        letters = "LR" * 50
        entries = ["post a 0 at 1.0", "post b 0 at 1.0"]
        entries.append(f"commit a: a.0[{letters}]=() b.0[]=();" + (layout.STEPS_AT_MOST + 50) * " a>b")
        entries += ["take a 0 =()", "take b 0 =()", "end a done" + 20 * " (5)", "end b done"]
        figures = figures_of(chart(report_of(entries)))
        said = said_in(figures[3])
        self.assertEqual(len(with_class(figures[3], "arrow")), layout.STEPS_AT_MOST)
        self.assertIn("and 50 more meetings", said)
        self.assertIn(f"[{letters[:layout.LETTERS_AT_MOST]}..]", said.replace(" ", ""))
        self.assertEqual(figures[3].find(SVG + "title").text, "3 " + entries[2])
        self.assertTrue(said_in(figures[6]).endswith(f"and {20 - layout.EMITTED_AT_MOST} more"))

    def test_labels_are_parted_where_they_may_be(self):
        for words, most, lines in (
            (["4", "take", "=(7)"], 12, ["4 take =(7)"]),
            (["44", "take", "=(7,8)"], 12, ["44 take", "=(7,8)"]),
            (["3", "=(-1,9223372036854775807)"], 24, ["3", "=(-1,", "9223372036854775807)"]),
            (["=(1,2,30000000000000)"], 12, ["=(1,2,", "300000000000", "00)"]),
            (["worker_of_the_north"], 12, ["worker_of_", "the_north"]),
            (["x_aaaaaaaaaaaaa"], 12, ["x_aaaaaaaaaa", "aaa"]),
        ):
            self.assertEqual(layout.wrapped(words, most), lines)

    def test_the_work_for_an_entry_does_not_grow(self):
        def calls(rounds: int) -> Tuple[int, int]:
            data, count = pairs(64, rounds), 0

            def count_calls(frame, event, argument):
                nonlocal count
                count += event == "call"

            sys.setprofile(count_calls)
            try:
                report = read(data)
                drawing.svg_of(layout.lay_out(report, 1, len(report.entries)))
            finally:
                sys.setprofile(None)
            return count, len(report.entries)

        short, long = calls(31), calls(62)
        self.assertGreater(long[1], 9_900)
        self.assertLess(long[0], 2 * short[0])
        self.assertLess(long[0], 50 * long[1])


class Refused(unittest.TestCase):
    def test_a_damaged_report_is_told_by_its_line(self):
        whole = bytes_of(os.path.join(SCRIPTS, "exchange.report"))
        for data, line in (
            (b"", 1),
            (whole[20:], 1),
            (whole.replace(b"take b 0", b"take b 1"), 6),
            (whole.replace(b"a>b", b"a>c"), 4),
            (whole.replace(b"=(7)", b"=(7"), 4),
            (whole.replace(b"\n5 ", b"\n6 "), 6),
            (whole[:-3], 9),
            (whole + b"\n", 10),
        ):
            done = run([], data)
            self.assertEqual((done.returncode, done.stdout), (1, b""), data)
            self.assertRegex(done.stderr.decode(), rf"\Achart: line {line}: [^\n]+\n\Z")

    def test_faulty_words(self):
        data = bytes_of(os.path.join(SCRIPTS, "exchange.report"))
        for line in ("--from 0", "--from 8", "--from 5 --to 4", "--to x", "--to", "file", "--from -1", "--from 07.5"):
            words = line.split()
            done = run(words, data)
            self.assertEqual((done.returncode, done.stdout), (2, b""), words)
            self.assertTrue(done.stderr)


class Looks(unittest.TestCase):
    def test_any_text_is_escaped(self):
        odd = "<&>\"'"
        report = Report(2, [Rest(f"1 rest {odd}", 1, odd)], f"full 1 {odd}")
        svg = ElementTree.fromstring(drawing.svg_of(layout.lay_out(report, 1, 1)))
        self.assertEqual(said_in(figures_of(svg)[1]), f"1 rest by {odd}")
        self.assertEqual(figures_of(svg)[1].find(SVG + "title").text, f"1 rest {odd}")
        self.assertIn(odd, lines_of(svg))
        self.assertIn(f"full 1 {odd}", [text.text for text in texts_in(svg)])

    def test_a_report_without_entries_has_a_chart(self):
        svg = chart(report_of([], "spent 0 front 0 paths 1 groups 0"))
        said = [text.text for text in texts_in(svg)]
        self.assertEqual(said, ["tevents report 2: 0 threads, 0 entries", "spent 0 front 0 paths 1 groups 0"])

    def test_both_grounds_have_contrast(self):
        def light(colour: str) -> float:
            parts = [int(colour[place : place + 2], 16) / 255 for place in (1, 3, 5)]
            red, green, blue = (part / 12.92 if part <= 0.04045 else ((part + 0.055) / 1.055) ** 2.4 for part in parts)
            return 0.2126 * red + 0.7152 * green + 0.0722 * blue

        def contrast(one: str, other: str) -> float:
            low, high = sorted((light(one), light(other)))
            return (high + 0.05) / (low + 0.05)

        self.assertEqual(set(drawing.LIGHT), set(drawing.DARK))
        for colours in (drawing.LIGHT, drawing.DARK):
            for ground in ("ground", "band"):
                for text in ("text", "number"):
                    self.assertGreaterEqual(contrast(colours[text], colours[ground]), 4.5, (text, ground))
                for line in ("wait", "edge", "alarm"):
                    self.assertGreaterEqual(contrast(colours[line], colours[ground]), 3, (line, ground))
            self.assertGreaterEqual(contrast(colours["quiet"], colours["ground"]), 3)
        self.assertIn("@media(prefers-color-scheme:dark)", drawing.STYLE)

    def test_each_class_has_a_look_on_both_grounds(self):
        seen = set()
        ended = chart(bytes_of(os.path.join(SCRIPTS, "guarded_receive.report")), "--from", "9")
        for svg in [ended, *(svg for _, svg in charts())]:
            for item in svg.iter():
                seen.update((item.get("class") or "").split())
        light, dark = drawing.rules(drawing.LIGHT), drawing.rules(drawing.DARK)
        always = drawing.STYLE.partition("@media")[0]
        self.assertTrue(always.endswith(light) and drawing.STYLE.endswith(dark + "}"))
        self.assertEqual(set(re.findall(r"\.([a-z]+)", light)), seen)
        self.assertEqual(set(re.findall(r"\.([a-z]+)", dark)), seen)

    def test_a_chart_is_always_the_same(self):
        data = bytes_of(os.path.join(SCRIPTS, "traders.report"))
        written = set()
        for seed in ("1", "2", "3"):
            command = [sys.executable, "-B", os.path.join(TOOLS, "chart")]
            environment = {**os.environ, "PYTHONHASHSEED": seed}
            written.add(subprocess.run(command, input=data, capture_output=True, check=True, env=environment).stdout)
        self.assertEqual(len(written), 1)


if __name__ == "__main__":
    unittest.main()
