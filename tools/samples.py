"""Reports for the tests: those beside scripts/, those of reports/, and some that are made here."""
from __future__ import annotations

import os
from typing import Iterable, List

TOP = os.path.dirname(os.path.dirname(os.path.abspath(__file__)))
TOOLS = os.path.join(TOP, "tools")
SCRIPTS = os.path.join(TOP, "scripts")
REPORTS = os.path.join(TOOLS, "reports")


def report_paths() -> List[str]:
    """The reports of scripts/ and of reports/."""
    paths = [os.path.join(folder, name) for folder in (SCRIPTS, REPORTS) for name in sorted(os.listdir(folder))]
    return [path for path in paths if path.endswith(".report")]


def bytes_of(path: str) -> bytes:
    """What a file holds."""
    with open(path, "rb") as file:
        return file.read()


def report_of(entries: Iterable[str], last: str = "closed", version: int = 2) -> bytes:
    """A report of these entries, which are numbered here; so is the last line, if it is one word."""
    numbered = [f"{number} {entry}" for number, entry in enumerate(entries, 1)]
    if " " not in last:
        last = f"{last} {len(numbered)}"
    return "\n".join([f"tevents report {version}", *numbered, last, ""]).encode()


def pairs(threads: int, rounds: int) -> bytes:
    """Each thread meets, in each round, the one that is as far from the other end."""
    entries = []
    names = [f"t{place}" for place in range(threads)]
    halves = list(zip(names[: threads // 2], reversed(names)))
    for ticket in range(rounds):
        entries += [f"post {name} {ticket} at {ticket + 1}.0" for name in names]
        for low, high in halves:
            members = f"{low}.{ticket}[]=() {high}.{ticket}[L]=({ticket},@{low}.{ticket}.0)"
            entries.append(f"commit {low}: {members}; {low}>{high} {high}>{low}")
        entries += [f"take {low} {ticket} =()" for low, _ in halves]
        entries += [f"take {high} {ticket} =({ticket},@{low}.{ticket}.0)" for low, high in halves]
    return report_of(entries + [f"end {name} done ({place})" for place, name in enumerate(names)])


def ring(threads: int, rounds: int) -> bytes:
    """In each round all threads meet, each the next one."""
    entries = []
    names = [f"a_rather_long_name_of_thread_{place}" for place in range(threads)]
    for ticket in range(rounds):
        entries += [f"post {name} {ticket} at 2.{ticket}" for name in names]
        members = " ".join(f"{name}.{ticket}[]=({place})" for place, name in enumerate(names))
        meetings = " ".join(f"{sender}>{receiver}" for sender, receiver in zip(names, names[1:] + names[:1]))
        entries.append(f"commit {names[0]}: {members}; {meetings}")
        entries += [f"take {name} {ticket} =({place})" for place, name in enumerate(names)]
    return report_of(entries + [f"end {name} done" for name in names])
