"""Draws the layout of a chart as SVG.

What a mark means is told by its words and its shape; colours only help. They are blue and orange, which readers who see
few colours tell apart too, and follow the reader's light or dark ground.
"""
from __future__ import annotations

from typing import Dict, List
from xml.sax.saxutils import escape

from layout import (
    BAND_AT,
    CHARACTER,
    COLUMN_GAP,
    LABEL_AT,
    LINE,
    LINE_AT,
    MARGIN,
    MARK_AT,
    NAME_PADDING,
    ROW_GAP,
    STEP,
    Across,
    Band,
    Layout,
    Marks,
    Names,
    band_bottom,
    counted,
    outcomes_at,
    steps_at,
)
from report import End, Entry, Post, State, Stuck, Take, Withdraw

# What each colour is for, on a light and on a dark ground.
LIGHT = {
    "ground": "#ffffff",
    "text": "#16191d",
    "number": "#59616b",
    "quiet": "#8a929c",
    "wait": "#0072b2",
    "band": "#fdf0d5",
    "edge": "#a86200",
    "alarm": "#b23c00",
}
DARK = {
    "ground": "#14171b",
    "text": "#eceef0",
    "number": "#a6aeb8",
    "quiet": "#7d8691",
    "wait": "#56b4e9",
    "band": "#3a2c0d",
    "edge": "#e69f00",
    "alarm": "#ff9259",
}

FONT = "ui-monospace,SFMono-Regular,Menlo,Consolas,'DejaVu Sans Mono',monospace"


def rules(colours: Dict[str, str]) -> str:
    """What each class looks like."""
    return (
        "svg{{background:{ground}}}"
        ".ground,.name rect{{fill:{ground}}}"
        "text{{fill:{text}}}"
        ".number,.note{{fill:{number}}}"
        ".name rect{{stroke:{quiet}}}.name.ended text{{fill:{number}}}"
        ".idle{{stroke:{quiet}}}.waiting{{stroke:{wait}}}.given{{stroke:{edge}}}"
        ".band{{fill:{band};stroke:{edge}}}"
        ".arrow{{fill:{text};stroke:{text}}}"
        ".post{{fill:{wait};stroke:{ground}}}.take{{fill:{ground};stroke:{edge}}}"
        ".withdraw,.rest{{stroke:{wait}}}.gives{{fill:{edge};stroke:{band}}}.raises{{fill:{alarm};stroke:{band}}}"
        ".done{{fill:{text}}}.raised,.stuck{{fill:{ground};stroke:{alarm}}}.across{{stroke:{alarm}}}"
    ).format(**colours)


STYLE = (
    f"text{{font:13px {FONT}}}"
    ".name text{font-weight:bold}.name.ended rect{stroke-dasharray:2 3}"
    ".idle,.waiting,.given,.across,.rest,.withdraw{fill:none}"
    ".band{fill-opacity:.85}.idle{stroke-width:1}.waiting{stroke-width:7}.given{stroke-width:3;stroke-dasharray:3 3}"
    ".withdraw,.raised,.stuck,.take{stroke-width:2.5}.across,.arrow,.rest{stroke-width:1.5}.rest{stroke-dasharray:8 4}"
    + rules(LIGHT)
    + "@media(prefers-color-scheme:dark){"
    + rules(DARK)
    + "}"
)

# An arrow over so many columns tells at each end which thread is at the other.
FAR = 6

LINE_CLASSES = {State.IDLE: "idle", State.WAITING: "waiting", State.GIVEN: "given"}


def mark(entry: Entry, x: int, y: int) -> str:
    """The shape of an entry of one thread."""
    if isinstance(entry, Post):
        return f'<path class="post" d="M{x} {y - 7}l7 7-7 7-7-7z"/>'
    if isinstance(entry, Withdraw):
        return f'<path class="withdraw" d="M{x - 6} {y - 6}l12 12m0-12l-12 12"/>'
    if isinstance(entry, Take):
        return f'<circle class="take" cx="{x}" cy="{y}" r="5"/>'
    assert isinstance(entry, End)
    if entry.how == "done":
        return f'<path class="done" d="M{x - 7} {y - 3}h14v6h-14z"/>'
    cross = "m3 3l8 8m0-8l-8 8" if entry.how == "raised" else "m3 7h8"
    return f'<path class="{entry.how}" d="M{x - 7} {y - 7}h14v14h-14z{cross}"/>'


class Lifelines:
    """The threads' lines, piece by piece: each looks like what its thread does there."""

    def __init__(self) -> None:
        self._pieces: Dict[State, List[str]] = {state: [] for state in LINE_CLASSES}
        self._begun: Dict[str, tuple] = {}

    def turn(self, thread: str, x: int, y: int, state: State) -> None:
        """From here on the thread does this."""
        if thread in self._begun:
            before, since = self._begun[thread]
            if before is not State.ENDED and since < y:
                self._pieces[before].append(f"M{x} {since}V{y}")
        self._begun[thread] = (state, y)

    def drawn(self) -> List[str]:
        """The lines, the broad ones first."""
        order = (State.WAITING, State.GIVEN, State.IDLE)
        return [f'<path class="{LINE_CLASSES[s]}" d="{"".join(self._pieces[s])}"/>' for s in order if self._pieces[s]]


class Drawing:
    """A chart on its way to SVG."""

    def __init__(self, layout: Layout):
        self.layout = layout
        self.places = {thread: place for place, thread in enumerate(layout.threads)}
        self.lifelines = Lifelines()
        self.figures: List[str] = []

    def text(self, x: int, y: int, lines: List[str], kind: str = "") -> str:
        """Lines of text, the middle of the first at this height."""
        shape = f' class="{kind}"' if kind else ""
        return "".join(
            f'<text{shape} x="{x}" y="{y + 4 + i * LINE}">{escape(line)}</text>' for i, line in enumerate(lines)
        )

    def label(self, thread: str, y: int, lines: List[str]) -> str:
        """A label whose first word is the entry's number."""
        x = self.layout.line_of(thread) + LABEL_AT
        number, _, rest = lines[0].partition(" ")
        words = f'<tspan class="number">{number}</tspan>' + (escape(" " + rest) if rest else "")
        return f'<text x="{x}" y="{y + 4}">{words}</text>' + self.text(x, y + LINE, lines[1:])

    def figure(self, entry: Entry, parts: List[str]) -> None:
        """What is drawn of an entry, under its line of the report."""
        title = f"<title>{escape(entry.text)}</title>"
        self.figures.append(f'<g id="entry-{entry.number}">{title}{"".join(parts)}</g>')

    def draw_names(self, row: Names, top: int) -> None:
        layout = self.layout
        lines_of_names = max(map(len, layout.names.values()))
        height = lines_of_names * LINE + NAME_PADDING
        for thread in layout.threads:
            lines = layout.names[thread]
            state = row.states.get(thread, State.IDLE)
            x, left = layout.line_of(thread), layout.left[thread] + LINE_AT - 10
            width = max(map(len, lines)) * CHARACTER + 20
            shape = ' ended' if state is State.ENDED else ""
            box = f'<rect x="{left}" y="{top}" width="{width}" height="{height}" rx="4"/>'
            text = self.text(x, top + MARK_AT - 2, lines)
            self.figures.append(f'<g class="name{shape}">{box}{text}</g>')
            self.lifelines.turn(thread, x, top + height, state)

    def draw_marks(self, row: Marks, top: int) -> None:
        after = {Post: State.WAITING, Withdraw: State.IDLE, Take: State.IDLE, End: State.ENDED}
        y = top + MARK_AT
        for entry, label in zip(row.entries, row.labels):
            x = self.layout.line_of(entry.thread)
            self.lifelines.turn(entry.thread, x, y, after[type(entry)])
            self.figure(entry, [mark(entry, x, y), self.label(entry.thread, y, label)])

    def draw_band(self, row: Band, top: int) -> None:
        layout, commit = self.layout, row.commit
        threads = sorted((member.thread for member in commit.members), key=layout.left.__getitem__)
        left, right = layout.left[threads[0]], self.right_of(threads[-1])
        upper, lower = top + BAND_AT, top + band_bottom(row)
        y = top + outcomes_at(row)
        parts = [f'<rect class="band" x="{left}" y="{upper}" width="{right - left}" height="{lower - upper}" rx="6"/>']
        lines = [layout.line_of(thread) for thread in threads]
        parts.append('<path class="waiting" d="{}"/>'.format("".join(f"M{x} {upper}V{y}" for x in lines)))
        parts.append('<path class="given" d="{}"/>'.format("".join(f"M{x} {y}V{lower}" for x in lines)))
        parts.append(self.label(row.first, upper + MARK_AT, row.label))
        parts.extend(self.meetings(row, top + steps_at(row)))
        for member, label in zip(commit.members, row.outcomes):
            x = layout.line_of(member.thread)
            self.lifelines.turn(member.thread, x, y, State.GIVEN)
            if member.outcome.startswith("="):
                parts.append(f'<circle class="gives" cx="{x}" cy="{y}" r="6"/>')
            else:
                parts.append(f'<path class="raises" d="M{x} {y - 8}l8 14h-16z"/>')
            parts.append(self.text(x + LABEL_AT, y, label))
        self.figure(commit, parts)

    def meetings(self, row: Band, y: int) -> List[str]:
        """The arrows of a commit, from this height down, and how many there are beyond them."""
        parts = []
        for place, step in enumerate(row.steps):
            parts.extend(self.arrow(sender, receiver, y + place * STEP) for sender, receiver in step)
        if row.further:
            x, words = self.layout.line_of(row.first) + LABEL_AT, f"and {counted(row.further, 'more meeting')}"
            parts.append(self.text(x, y + len(row.steps) * STEP, [words], "note"))
        return parts

    def right_of(self, thread: str) -> int:
        """The right of a thread's column."""
        layout = self.layout
        place = self.places[thread] + 1
        if place < len(layout.threads):
            return layout.left[layout.threads[place]] - COLUMN_GAP + 4
        return layout.width - MARGIN

    def arrow(self, sender: str, receiver: str, y: int) -> str:
        """A dot, a line and a head, from sender to receiver; where they stand far apart, each end tells the other."""
        start, end = self.layout.line_of(sender), self.layout.line_of(receiver)
        way = 1 if start < end else -1
        tip = end - 4 * way
        line, texts = f"M{start} {y}H{tip}", ""
        if abs(self.places[sender] - self.places[receiver]) >= FAR:
            to, origin = f"to {receiver}", f"from {sender}"
            if self.has_room_beside(sender, way, to) and self.has_room_beside(receiver, -way, origin):
                near, far = start + way * (28 + len(to) * CHARACTER), end - way * (28 + len(origin) * CHARACTER)
                line = f"M{start} {y}h{20 * way}M{near} {y}H{far}M{tip} {y}h{-16 * way}"
                texts = self.text(min(start + 24 * way, near + 4), y, [to])
                texts += self.text(min(end - 24 * way, far + 4), y, [origin])
        dot = f"M{start - 3} {y}a3 3 0 1 0 6 0a3 3 0 1 0-6 0z"
        head = f"M{tip} {y}l{-8 * way}-4v8z"
        return f'<path class="arrow" d="{dot}{line}{head}"/>{texts}'

    def has_room_beside(self, thread: str, way: int, text: str) -> bool:
        """Whether a text with some line before and behind it fits between a thread's line and that of its neighbour."""
        neighbour = self.layout.threads[self.places[thread] + way]
        gap = abs(self.layout.line_of(neighbour) - self.layout.line_of(thread))
        return 28 + len(text) * CHARACTER + LABEL_AT <= gap

    def draw_across(self, row: Across, top: int) -> None:
        layout, entry = self.layout, row.entry
        y, x = top + ROW_GAP, layout.line_of(entry.thread)
        left, right = MARGIN, layout.width - MARGIN
        if isinstance(entry, Stuck):
            line = f'<path class="across" d="M{left} {y - 2}H{right}M{left} {y + 2}H{right}"/>'
        else:
            line = f'<path class="rest" d="M{left} {y}H{right}"/>'
        self.figure(entry, [line, self.label(entry.thread, y + LINE, row.label)])

    def drawn(self) -> str:
        """The whole picture."""
        layout = self.layout
        head = self.text(MARGIN, MARGIN + LINE // 2, layout.head, "note")
        for row, top in zip(layout.rows, layout.tops):
            if isinstance(row, Names):
                self.draw_names(row, top)
            elif isinstance(row, Marks):
                self.draw_marks(row, top)
            elif isinstance(row, Band):
                self.draw_band(row, top)
            else:
                self.draw_across(row, top)
        bottom = layout.height - MARGIN - len(layout.foot) * LINE - ROW_GAP
        for thread in layout.threads:
            self.lifelines.turn(thread, layout.line_of(thread), bottom, State.ENDED)
        foot = self.text(MARGIN, bottom + ROW_GAP + LINE // 2, layout.foot, "note")
        size = f'width="{layout.width}" height="{layout.height}" viewBox="0 0 {layout.width} {layout.height}"'
        return "\n".join(
            [
                f'<svg xmlns="http://www.w3.org/2000/svg" role="img" {size}>',
                f"<title>{escape(layout.head[0])}</title>",
                f"<style>{STYLE}</style>",
                '<rect class="ground" width="100%" height="100%"/>',
                *self.lifelines.drawn(),
                head,
                *self.figures,
                foot,
                "</svg>\n",
            ]
        )


def svg_of(layout: Layout) -> str:
    """The chart as SVG."""
    return Drawing(layout).drawn()
