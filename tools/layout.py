"""Lays out a sequence chart of a report: which rows it has, how wide each thread's column is, and how high all is.

Rows are read from left to right and then down, which is the order of the entries. Entries of one kind share a row as long as
their threads stand further and further to the right. Lengths are in pixels, and whole.
"""
from __future__ import annotations

from typing import Dict, Iterable, List, NamedTuple, Optional, Tuple, Union

from report import Board, Commit, End, Entry, Post, Report, Rest, State, Stuck, Take, Withdraw

CHARACTER = 8
LINE = 16
MARGIN = 16
# From the left of a column to the thread's line, and from there to its labels.
LINE_AT = 16
LABEL_AT = 12
COLUMN_GAP = 12
NAME_PADDING = 8
# From the top of a row to its marks, and what it has below its last line of text.
MARK_AT = 14
ROW_GAP = 10
# From the top of a band's row to the band, and from one of its arrows to the next.
BAND_AT = 4
STEP = 16

HEIGHT_AT_MOST = 30_000
NAMES_AGAIN_AFTER = 900
STEPS_AT_MOST = 500
LETTERS_AT_MOST = 24
EMITTED_AT_MOST = 8


class Names(NamedTuple):
    """The threads' names in their columns, with what each of them does below."""

    states: Dict[str, State]


class Marks(NamedTuple):
    """Posts, withdrawals, takes or ends of different threads, with a label for each."""

    entries: List[Union[Post, Withdraw, Take, End]]
    labels: List[List[str]]


class Band(NamedTuple):
    """A commit: its member that stands at the left, with the label, its meetings in steps, how many more there are, and
    the label of each member."""

    commit: Commit
    first: str
    label: List[str]
    steps: List[List[Tuple[str, str]]]
    further: int
    outcomes: List[List[str]]


class Across(NamedTuple):
    """A rest, or a board that is stuck: it concerns all threads."""

    entry: Union[Rest, Stuck]
    label: List[str]


Row = Union[Names, Marks, Band, Across]


class Layout(NamedTuple):
    """A whole chart; `left` is where each thread's column begins, `tops` where each row does."""

    threads: List[str]
    names: Dict[str, List[str]]
    left: Dict[str, int]
    head: List[str]
    rows: List[Row]
    tops: List[int]
    foot: List[str]
    width: int
    height: int

    def line_of(self, thread: str) -> int:
        """Where the thread's line stands."""
        return self.left[thread] + LINE_AT


def characters_at_most(threads: int) -> int:
    """How many characters a line of a label has: fewer where there are more columns."""
    return 24 if threads <= 8 else 16 if threads <= 16 else 12


def wrapped(words: Iterable[str], most: int) -> List[str]:
    """The words in lines of at most so many characters; a longer word is cut, where it can be behind a `,` or a `_`."""
    lines: List[str] = []
    for word in words:
        if lines and len(lines[-1]) + 1 + len(word) <= most:
            lines[-1] += " " + word
            continue
        while len(word) > most:
            place = word.rfind(",", 0, most) + 1 or word.rfind("_", most // 2, most) + 1 or most
            lines.append(word[:place])
            word = word[place:]
        lines.append(word)
    return lines


def label_words(entry: Entry) -> List[str]:
    """What stands beside the mark of an entry, in words that are better not parted."""
    number = str(entry.number)
    if isinstance(entry, Post):
        return [number, f"post {entry.ticket}"] + ([f"at {entry.site}"] if entry.site else [])
    if isinstance(entry, Commit):
        return [number, "commit", f"by {entry.thread}"]
    if isinstance(entry, Withdraw):
        return [number, f"withdraw {entry.ticket}"]
    if isinstance(entry, Take):
        return [number, "take", entry.outcome]
    if isinstance(entry, Rest):
        return [number, "rest", f"by {entry.thread}"]
    if isinstance(entry, Stuck):
        return [number, "stuck,", f"by {entry.thread}"]
    further = len(entry.values) - EMITTED_AT_MOST
    return [number, entry.how, *entry.values[:EMITTED_AT_MOST]] + ([f"and {further} more"] if further > 0 else [])


def outcome_words(choices: str, outcome: str) -> List[str]:
    """What stands at a member of a commit."""
    if len(choices) > LETTERS_AT_MOST:
        choices = choices[:LETTERS_AT_MOST] + ".."
    return ([f"[{choices}]"] if choices else []) + [outcome]


def steps_of(commit: Commit, places: Dict[str, int]) -> List[List[Tuple[str, str]]]:
    """The meetings in order, each step with as many as stand one behind another from left to right."""
    steps: List[List[Tuple[str, str]]] = []
    reached = -1
    for meeting in commit.meetings:
        first, last = sorted(places[thread] for thread in meeting)
        if not steps or first <= reached:
            steps.append([])
        steps[-1].append(meeting)
        reached = last
    return steps


def rows_of(entries: Iterable[Entry], places: Dict[str, int], most: int) -> Iterable[Row]:
    """The rows of these entries, in order."""
    marks: Optional[Marks] = None
    for entry in entries:
        label = wrapped(label_words(entry), most)
        if isinstance(entry, (Commit, Rest, Stuck)):
            if marks:
                yield marks
                marks = None
            if isinstance(entry, Commit):
                steps = steps_of(entry, places)
                outcomes = [wrapped(outcome_words(member.choices, member.outcome), most) for member in entry.members]
                further = sum(map(len, steps[STEPS_AT_MOST:]))
                leftmost = min((member.thread for member in entry.members), key=places.__getitem__)
                yield Band(entry, leftmost, label, steps[:STEPS_AT_MOST], further, outcomes)
            else:
                yield Across(entry, label)
            continue
        if marks and type(entry) is type(marks.entries[-1]) and places[marks.entries[-1].thread] < places[entry.thread]:
            marks.entries.append(entry)
            marks.labels.append(label)
        else:
            if marks:
                yield marks
            marks = Marks([entry], [label])
    if marks:
        yield marks


def height_of(row: Row, name_lines: int) -> int:
    """How high a row is."""
    if isinstance(row, Names):
        return name_lines * LINE + NAME_PADDING + ROW_GAP
    if isinstance(row, Marks):
        return max(map(len, row.labels)) * LINE + ROW_GAP
    if isinstance(row, Across):
        return len(row.label) * LINE + 2 * ROW_GAP
    return band_bottom(row) + ROW_GAP


def band_bottom(band: Band) -> int:
    """From the top of a band's row to the band's lower edge."""
    return outcomes_at(band) + max(map(len, band.outcomes)) * LINE


def outcomes_at(band: Band) -> int:
    """From the top of a band's row to the marks of its members' outcomes."""
    return steps_at(band) + len(band.steps) * STEP + (LINE if band.further else 0)


def steps_at(band: Band) -> int:
    """From the top of a band's row to its first arrow."""
    return BAND_AT + MARK_AT + len(band.label) * LINE


def labels_of(row: Row) -> Iterable[Tuple[str, List[str]]]:
    """The labels of a row, each with the thread in whose column it stands."""
    if isinstance(row, Marks):
        yield from zip((entry.thread for entry in row.entries), row.labels)
    elif isinstance(row, Band):
        yield row.first, row.label
        yield from zip((member.thread for member in row.commit.members), row.outcomes)
    elif isinstance(row, Across):
        yield row.entry.thread, row.label


def entries_of(row: Row) -> List[Entry]:
    """The entries that a row draws."""
    if isinstance(row, Names):
        return []
    return list(row.entries) if isinstance(row, Marks) else [row.commit if isinstance(row, Band) else row.entry]


def counted(number: int, thing: str) -> str:
    """So many of a thing, in words."""
    things = thing[:-1] + "ies" if thing.endswith("y") else thing + "s"
    return f"{number} {thing if number == 1 else things}"


def span_of(first: int, last: int) -> str:
    """A range of entries in words."""
    return f"entry {first} isn't drawn" if first == last else f"entries {first} to {last} aren't drawn"


def notes_below(report: Report, drawn: int, last: int) -> List[str]:
    """What stands below the rows: the last line of the report, or which entries aren't drawn."""
    count = len(report.entries)
    if drawn < last:
        cut = f"Cut, since a picture has its bounds: {span_of(drawn + 1, count)}."
        return [cut, f"--from {drawn + 1} goes on from here."]
    return [span_of(drawn + 1, count)] if drawn < count else [report.last]


class Stack:
    """Rows one below the other, with the threads' names above the first and again after a while."""

    def __init__(self, top: int, board: Board, name_lines: int):
        self.rows: List[Row] = []
        self.tops: List[int] = []
        self.bottom = top
        self._board = board
        self._name_lines = name_lines
        self._names_again = top

    def has_room_for(self, row: Row) -> bool:
        """Whether the picture isn't too high with this row; the first one always has room."""
        height = height_of(row, self._name_lines) + height_of(Names({}), self._name_lines)
        return not self.rows or self.bottom + height <= HEIGHT_AT_MOST

    def add(self, row: Row) -> None:
        """Puts the row below the others."""
        if self.bottom >= self._names_again:
            self._put(Names(dict(self._board.states)))
            self._names_again = self.bottom + NAMES_AGAIN_AFTER
        self._put(row)
        for entry in entries_of(row):
            self._board.add(entry)

    def _put(self, row: Row) -> None:
        self.rows.append(row)
        self.tops.append(self.bottom)
        self.bottom += height_of(row, self._name_lines)


def lay_out(report: Report, first: int, last: int) -> Layout:
    """The chart of the entries from `first` to `last`, which are in the report, or of none if it has none."""
    threads = report.threads()
    places = {thread: place for place, thread in enumerate(threads)}
    most = characters_at_most(len(threads))
    names = {thread: wrapped([thread], most) for thread in threads}
    widths = {thread: max(map(len, lines)) + 1 for thread, lines in names.items()}
    count = len(report.entries)
    head = [f"tevents report {report.version}: {counted(len(threads), 'thread')}, {counted(count, 'entry')}"]
    if first > 1:
        head.append(span_of(1, first - 1))

    board = Board()
    for entry in report.entries[: first - 1]:
        board.add(entry)
    stack = Stack(MARGIN + len(head) * LINE + ROW_GAP, board, max(map(len, names.values()), default=1))
    drawn = first - 1
    for row in rows_of(report.entries[first - 1 : last], places, most):
        if not stack.has_room_for(row):
            break
        stack.add(row)
        drawn = entries_of(row)[-1].number
        for thread, lines in labels_of(row):
            widths[thread] = max(widths[thread], max(map(len, lines)))

    foot = notes_below(report, drawn, last)
    left: Dict[str, int] = {}
    right = MARGIN
    for thread in threads:
        left[thread] = right
        right += LINE_AT + LABEL_AT + widths[thread] * CHARACTER + COLUMN_GAP
    width = max(right, MARGIN + CHARACTER * max(map(len, head + foot))) + MARGIN
    height = stack.bottom + ROW_GAP + len(foot) * LINE + MARGIN
    return Layout(threads, names, left, head, stack.rows, stack.tops, foot, width, height)
