"""Reads the reports that tevents writes, of version 1 and of version 2.

`read` gives what a text tells, or raises the first fault with its line. Each line is read by its form, and has to follow
from those before it: only an idle thread posts, only waiting threads commit, and so on. What the script alone could tell
isn't asked: whether it has these threads, and whether their events meet like that.
"""
from __future__ import annotations

import re
from enum import Enum
from functools import lru_cache
from typing import Dict, List, NamedTuple, Optional, Set, Tuple, Union

ENTRIES_AT_MOST = 200_000
THREADS_AT_MOST = 64
TICKETS = 2**32
SITES = 2**32
COUNTS = 2**64
FRESH_TICKETS = 2**18
FRESH_COUNTS = 16

HEADS = {"tevents report 1": 1, "tevents report 2": 2}

NUMBER = "(?:0|[1-9][0-9]*)"
NAME = "[A-Za-z][A-Za-z0-9_]{0,31}"
INTEGER = "(?:0|-?[1-9][0-9]*)"
ATOM = rf"(?:{INTEGER}|@{NAME}(?:\.{NUMBER}\.{NUMBER})?)"
VALUE = rf"\((?:{ATOM}(?:,{ATOM}){{0,3}})?\)"
OUTCOME = f"[=!]{VALUE}"


class Fault(Exception):
    """A text that is no report: the line, from 1, and the cause."""

    def __init__(self, line: int, cause: str):
        super().__init__(f"line {line}: {cause}")
        self.line = line
        self.cause = cause


class Post(NamedTuple):
    """A thread waits with an event; `site` is S.R, or None in version 1."""

    text: str
    number: int
    thread: str
    ticket: int
    site: Optional[str]


class Member(NamedTuple):
    """A thread in a commit: its letters, and its outcome with the sign `=` or `!` in front."""

    thread: str
    ticket: int
    choices: str
    outcome: str


class Commit(NamedTuple):
    """A group commits, found by `thread`; a meeting is its sender and its receiver."""

    text: str
    number: int
    thread: str
    members: Tuple[Member, ...]
    meetings: Tuple[Tuple[str, str], ...]


class Withdraw(NamedTuple):
    """A thread takes its event back."""

    text: str
    number: int
    thread: str
    ticket: int


class Take(NamedTuple):
    """A thread takes its outcome, which has the sign `=` or `!` in front."""

    text: str
    number: int
    thread: str
    ticket: int
    outcome: str


class Rest(NamedTuple):
    """The threads are told to come back."""

    text: str
    number: int
    thread: str


class Stuck(NamedTuple):
    """No group of the waiting events can commit."""

    text: str
    number: int
    thread: str


class End(NamedTuple):
    """A thread ends: `how` is done, raised or stuck, with what it emitted or raised."""

    text: str
    number: int
    thread: str
    how: str
    values: Tuple[str, ...]


Entry = Union[Post, Commit, Withdraw, Take, Rest, Stuck, End]


class Report(NamedTuple):
    """A whole report; `last` is its last line."""

    version: int
    entries: List[Entry]
    last: str

    def threads(self) -> List[str]:
        """The threads, in the script's order as far as the members of commits tell it, and else by their first entries."""
        found: Dict[str, Set[str]] = {}
        for entry in self.entries:
            if isinstance(entry, Commit):
                for before, after in zip(entry.members, entry.members[1:]):
                    found[after.thread].add(before.thread)
            else:
                found.setdefault(entry.thread, set())
        ordered: List[str] = []
        while found:
            first = next((thread for thread, before in found.items() if before.isdisjoint(found)), next(iter(found)))
            ordered.append(first)
            del found[first]
        return ordered


# ---- the form of a line

_ENTRY = re.compile(f"({NUMBER}) ([a-z]+) (.*)")
_THREAD = re.compile(NAME)
_TICKETED = re.compile(f"({NAME}) ({NUMBER})")
_SITED = re.compile(rf"({NAME}) ({NUMBER}) at (({NUMBER})\.({NUMBER}))")
_TAKE = re.compile(f"({NAME}) ({NUMBER}) ({OUTCOME})")
_MEMBER = re.compile(rf"({NAME})\.({NUMBER})\[([LR]*)\]({OUTCOME})")
_MEETING = re.compile(f"({NAME})>({NAME})")
_END = re.compile(f"({NAME}) (?:(done)((?: {VALUE})*)|(raised)( {VALUE})|(stuck))")
_INTEGER = re.compile("-?[0-9]+")
_FRESH = re.compile(rf"@{NAME}\.({NUMBER})\.({NUMBER})")
_LAST = re.compile(f"(closed|full) ({NUMBER})|(spent) ({NUMBER}) front ({NUMBER}) paths ({NUMBER}) groups ({NUMBER})")


class _NoEntry(Exception):
    """A line that hasn't the form of an entry."""


def _match(pattern: re.Pattern[str], text: str) -> re.Match[str]:
    found = pattern.fullmatch(text)
    if found is None:
        raise _NoEntry
    return found


def _is_below(digits: str, limit: int) -> bool:
    return len(digits) <= 20 and int(digits) < limit


def _number(digits: str, limit: int) -> int:
    if not _is_below(digits, limit):
        raise _NoEntry
    return int(digits)


@lru_cache(maxsize=4096)
def _is_value(text: str) -> bool:
    """Whether the numbers of a value are in their ranges; its form is known."""
    for atom in text.strip("=!()").split(","):
        fresh = _FRESH.fullmatch(atom)
        if fresh and not (_is_below(fresh[1], FRESH_TICKETS) and _is_below(fresh[2], FRESH_COUNTS)):
            return False
        if _INTEGER.fullmatch(atom) and not (len(atom) <= 20 and -(2**63) <= int(atom) < 2**63):
            return False
    return True


def _value(text: str) -> str:
    if not _is_value(text):
        raise _NoEntry
    return text


def _read_post_of_version_1(line: str, number: int, rest: str) -> Post:
    thread, ticket = _match(_TICKETED, rest).groups()
    return Post(line, number, thread, _number(ticket, TICKETS), None)


def _read_post_of_version_2(line: str, number: int, rest: str) -> Post:
    thread, ticket, site, statement, repeated = _match(_SITED, rest).groups()
    _number(statement, SITES)
    _number(repeated, SITES)
    return Post(line, number, thread, _number(ticket, TICKETS), site)


def _read_member(text: str) -> Member:
    thread, ticket, choices, outcome = _match(_MEMBER, text).groups()
    return Member(thread, _number(ticket, TICKETS), choices, _value(outcome))


def _read_commit(line: str, number: int, rest: str) -> Commit:
    thread, _, group = rest.partition(": ")
    _match(_THREAD, thread)
    members_text, semicolon, meetings_text = group.partition(";")
    members = tuple(_read_member(text) for text in members_text.split(" "))
    if not semicolon or (meetings_text and not meetings_text.startswith(" ")):
        raise _NoEntry
    meetings = tuple(_match(_MEETING, text).groups() for text in meetings_text.split(" ")[1:])
    names = {member.thread for member in members}
    if not all(sender in names and receiver in names for sender, receiver in meetings):
        raise _NoEntry
    return Commit(line, number, thread, members, meetings)


def _read_withdraw(line: str, number: int, rest: str) -> Withdraw:
    thread, ticket = _match(_TICKETED, rest).groups()
    return Withdraw(line, number, thread, _number(ticket, TICKETS))


def _read_take(line: str, number: int, rest: str) -> Take:
    thread, ticket, outcome = _match(_TAKE, rest).groups()
    return Take(line, number, thread, _number(ticket, TICKETS), _value(outcome))


def _read_rest(line: str, number: int, rest: str) -> Rest:
    return Rest(line, number, _match(_THREAD, rest)[0])


def _read_stuck(line: str, number: int, rest: str) -> Stuck:
    return Stuck(line, number, _match(_THREAD, rest)[0])


def _read_end(line: str, number: int, rest: str) -> End:
    thread, done, emitted, raised, value, stuck = _match(_END, rest).groups()
    values = tuple(_value(text) for text in (emitted or value or "").split(" ")[1:])
    return End(line, number, thread, done or raised or stuck, values)


_POST_READERS = {1: _read_post_of_version_1, 2: _read_post_of_version_2}
_READERS = {
    "commit": _read_commit,
    "withdraw": _read_withdraw,
    "take": _read_take,
    "rest": _read_rest,
    "stuck": _read_stuck,
    "end": _read_end,
}


def _read_entry(line: str, number: int, version: int) -> Entry:
    written, word, rest = _match(_ENTRY, line).groups()
    reader = _POST_READERS[version] if word == "post" else _READERS.get(word)
    if written != str(number) or number > ENTRIES_AT_MOST or reader is None:
        raise _NoEntry
    return reader(line, number, rest)


# ---- what follows from the lines before


class State(Enum):
    """What a thread does between two entries."""

    IDLE = "idle"
    WAITING = "waiting"
    GIVEN = "given"
    ENDED = "ended"


class Board:
    """Where each thread stands after some entries."""

    def __init__(self) -> None:
        self.states: Dict[str, State] = {}
        self._posts: Dict[str, int] = {}
        self._outcomes: Dict[str, str] = {}
        self._is_stuck = False
        self._is_resting = False

    def state(self, thread: str) -> State:
        """What the thread does; it is idle before its first entry."""
        return self.states.get(thread, State.IDLE)

    def refusal(self, entry: Entry) -> Optional[str]:
        """Why the entry can't follow, if it can't."""
        if self._is_stuck and not (isinstance(entry, End) and entry.how == "stuck"):
            return "no entry but a stuck end follows a stuck board"
        if isinstance(entry, Commit):
            return self._refusal_of_commit(entry)
        if entry.thread not in self.states and len(self.states) == THREADS_AT_MOST:
            return f"more than {THREADS_AT_MOST} threads"
        thread, state = entry.thread, self.state(entry.thread)
        if isinstance(entry, Post):
            if state is not State.IDLE:
                return f"{thread} posts, and isn't idle"
            return self._refusal_of_ticket(thread, entry.ticket, self._posts.get(thread, 0))
        if isinstance(entry, Withdraw):
            if state is not State.WAITING:
                return f"{thread} withdraws, and doesn't wait"
            return self._refusal_of_ticket(thread, entry.ticket, self._posts[thread] - 1)
        if isinstance(entry, Take):
            if state is not State.GIVEN:
                return f"{thread} takes, and has no outcome"
            if entry.outcome != self._outcomes[thread]:
                return f"{thread} takes {entry.outcome}, and was given {self._outcomes[thread]}"
            return self._refusal_of_ticket(thread, entry.ticket, self._posts[thread] - 1)
        if isinstance(entry, Rest):
            return "a second rest" if self._is_resting else None
        if isinstance(entry, Stuck):
            return self._refusal_of_stuck(entry)
        return self._refusal_of_end(entry)

    def _refusal_of_ticket(self, thread: str, ticket: int, due: int) -> Optional[str]:
        return None if ticket == due else f"{thread} is at ticket {due}, not {ticket}"

    def _refusal_of_commit(self, commit: Commit) -> Optional[str]:
        threads = [member.thread for member in commit.members]
        if len(set(threads)) != len(threads):
            return "a commit names a member twice"
        for member in commit.members:
            if self.state(member.thread) is not State.WAITING:
                return f"{member.thread} commits, and doesn't wait"
            if member.ticket != self._posts[member.thread] - 1:
                return self._refusal_of_ticket(member.thread, member.ticket, self._posts[member.thread] - 1)
        if any(sender == receiver for sender, receiver in commit.meetings):
            return "a thread meets itself"
        return None

    def _refusal_of_stuck(self, stuck: Stuck) -> Optional[str]:
        if self.state(stuck.thread) is not State.WAITING:
            return f"{stuck.thread} declares stuck, and doesn't wait"
        for thread, state in self.states.items():
            if state not in (State.WAITING, State.ENDED):
                return f"stuck, and {thread} doesn't wait"
        return None

    def _refusal_of_end(self, end: End) -> Optional[str]:
        if end.how != "stuck":
            return None if self.state(end.thread) is State.IDLE else f"{end.thread} ends, and isn't idle"
        if not self._is_stuck:
            return f"{end.thread} ends stuck, and the board isn't"
        return None if self.state(end.thread) is State.WAITING else f"{end.thread} ends stuck, and doesn't wait"

    def add(self, entry: Entry) -> None:
        """Adds an entry that can follow."""
        if isinstance(entry, Post):
            self._posts[entry.thread] = entry.ticket + 1
            self.states[entry.thread] = State.WAITING
        elif isinstance(entry, Commit):
            for member in entry.members:
                self.states[member.thread] = State.GIVEN
                self._outcomes[member.thread] = member.outcome
        elif isinstance(entry, (Withdraw, Take)):
            self.states[entry.thread] = State.IDLE
        elif isinstance(entry, Rest):
            self._is_resting = True
            self.states.setdefault(entry.thread, State.IDLE)
        elif isinstance(entry, Stuck):
            self._is_stuck = True
        else:
            self.states[entry.thread] = State.ENDED

    def open_thread(self) -> Optional[str]:
        """A thread that hasn't ended, if there is one."""
        return next((thread for thread, state in self.states.items() if state is not State.ENDED), None)


# ---- a whole report


def _check_last(line: str, place: int, entries: int, board: Board) -> None:
    found = _LAST.fullmatch(line)
    if found is None or not all(_is_below(digits, COUNTS) for digits in _INTEGER.findall(line)):
        raise Fault(place, "no last line")
    count = found[2] or found[4]
    if count != str(entries):
        raise Fault(place, f"the last line tells {count} entries, and there are {entries}")
    if found[1] == "closed" and board.open_thread() is not None:
        raise Fault(place, f"closed, and {board.open_thread()} hasn't ended")


def read(data: bytes) -> Report:
    """The report that these bytes are; raises the first `Fault` where they are none."""
    lines = data.decode("latin-1").split("\n")
    cut = lines.pop()
    if not lines or lines[0] not in HEADS:
        raise Fault(1, "neither `tevents report 1` nor `tevents report 2`")
    version = HEADS[lines[0]]
    entries: List[Entry] = []
    board = Board()
    for number, line in enumerate(lines[1:], 1):
        if line.startswith(("closed", "spent", "full")):
            _check_last(line, number + 1, number - 1, board)
            if len(lines) > number + 1 or cut:
                raise Fault(number + 2, "text behind the last line")
            return Report(version, entries, line)
        try:
            entry = _read_entry(line, number, version)
        except _NoEntry:
            raise Fault(number + 1, f"no line of entry {number}") from None
        refusal = board.refusal(entry)
        if refusal is not None:
            raise Fault(number + 1, refusal)
        board.add(entry)
        entries.append(entry)
    raise Fault(len(lines) + 1, "cut within this line" if cut else "the last line is missing")
