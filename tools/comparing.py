"""Compares two reports of one script, entry by entry."""
from __future__ import annotations

from itertools import zip_longest
from typing import Dict, Iterable, List, Optional, Tuple

from report import Commit, End, Entry, Member, Post, Report, Take


def kind_of(entry: Entry) -> str:
    """The entry's word."""
    return type(entry).__name__.lower()


def sides(what: str, left: object, right: object) -> str:
    """What differs, and how."""
    return f"{what}: {left} on the left, {right} on the right"


def named(member: Member) -> str:
    """A member, under its ticket."""
    return f"{member.thread}.{member.ticket}"


def difference_of_commits(left: Commit, right: Commit) -> Optional[str]:
    """How two commits by one thread differ."""
    groups = [" ".join(map(named, commit.members)) for commit in (left, right)]
    if groups[0] != groups[1]:
        return sides("members", *groups)
    for ours, theirs in zip(left.members, right.members):
        if ours.choices != theirs.choices:
            return sides(f"choices of {named(ours)}", f"[{ours.choices}]", f"[{theirs.choices}]")
        if ours.outcome != theirs.outcome:
            return sides(f"outcome of {named(ours)}", ours.outcome, theirs.outcome)
    for place, (ours, theirs) in enumerate(zip_longest(left.meetings, right.meetings), 1):
        if ours != theirs:
            return sides(f"meeting {place}", *(">".join(meeting) if meeting else "none" for meeting in (ours, theirs)))
    return None


def difference(left: Entry, right: Entry) -> Optional[str]:
    """How two entries differ, if they do. A site that only one of them tells makes no difference."""
    thread = left.thread
    if kind_of(left) != kind_of(right) or thread != right.thread:
        what = "thread" if kind_of(left) == kind_of(right) else "entry"
        return sides(what, *(f"{kind_of(entry)} of {entry.thread}" for entry in (left, right)))
    if isinstance(left, Commit):
        return difference_of_commits(left, right)
    if getattr(left, "ticket", None) != getattr(right, "ticket", None):
        return sides(f"ticket of {thread}", left.ticket, right.ticket)
    if isinstance(left, Post) and left.site and right.site and left.site != right.site:
        return sides(f"site of {thread}.{left.ticket}", left.site, right.site)
    if isinstance(left, Take) and left.outcome != right.outcome:
        return sides(f"outcome of {thread}.{left.ticket}", left.outcome, right.outcome)
    if isinstance(left, End) and left.how != right.how:
        return sides(f"end of {thread}", left.how, right.how)
    if isinstance(left, End) and left.values != right.values:
        what = "raised" if left.how == "raised" else "emitted"
        return sides(f"{what} by {thread}", *(" ".join(end.values) or "nothing" for end in (left, right)))
    return None


def pairs_of(left: Report, right: Report) -> Iterable[Tuple[Optional[Entry], Optional[Entry]]]:
    """The entries of the two reports, side by side."""
    return zip_longest(left.entries, right.entries)


def first_difference(left: Report, right: Report) -> Optional[str]:
    """The first difference in words, if there is one."""
    for number, (ours, theirs) in enumerate(pairs_of(left, right), 1):
        if ours is None or theirs is None:
            lines = (ours.text if ours else left.last, theirs.text if theirs else right.last)
            return sides(f"line of entry {number}", *lines)
        found = difference(ours, theirs)
        if found:
            return f"entry {number}, {found}"
    return sides("last line", left.last, right.last) if left.last != right.last else None


def stories(report: Report) -> Dict[str, List[str]]:
    """What each thread did and got, without the numbers of the entries and without the sites."""
    told: Dict[str, List[str]] = {thread: [] for thread in report.threads()}
    for entry in report.entries:
        if isinstance(entry, Commit):
            for member in entry.members:
                meetings = [">".join(meeting) for meeting in entry.meetings if member.thread in meeting]
                words = ["commit", named(member), member.choices, member.outcome, *meetings]
                told[member.thread].append(" ".join(words))
        elif isinstance(entry, Post):
            told[entry.thread].append(f"post {entry.ticket}")
        elif kind_of(entry) in ("withdraw", "take", "end"):
            told[entry.thread].append(entry.text.partition(" ")[2])
    return told


def threads_apart(left: Report, right: Report) -> List[str]:
    """The threads that did or got something else in one report than in the other."""
    ours, theirs = stories(left), stories(right)
    return [thread for thread in dict.fromkeys([*ours, *theirs]) if ours.get(thread) != theirs.get(thread)]


def pieces(text: str, width: int) -> List[str]:
    """The text in pieces of at most this width, parted at blanks where there are some."""
    parts = []
    while len(text) > width:
        place = text.rfind(" ", 1, width + 1)
        parts.append(text[: place if place > 0 else width])
        text = text[place + 1 if place > 0 else width :]
    return [*parts, text]


def beside(left: str, mark: str, right: str, width: int) -> Iterable[str]:
    """Two texts side by side, as many lines as the longer needs."""
    for ours, theirs in zip_longest(pieces(left, width), pieces(right, width), fillvalue=""):
        yield f"{ours:<{width}} {mark} {theirs}".rstrip()


def side_by_side(left: Report, right: Report, width: int) -> Iterable[str]:
    """All lines of the two reports: `|` parts those that differ, `<` and `>` tell that only one side has an entry."""
    for ours, theirs in pairs_of(left, right):
        mark = "<" if theirs is None else ">" if ours is None else "|" if difference(ours, theirs) else " "
        yield from beside(ours.text if ours else "", mark, theirs.text if theirs else "", width)
    yield from beside(left.last, " " if left.last == right.last else "|", right.last, width)
