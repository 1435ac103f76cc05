"""People told on their requests: a status of the newest commit, and one comment that is kept up to date.

An adapter has a `People`, and gives it at each look the changes of its requests. Only what changed is written: news at
once, and how far it is now and then, since forges bound how much may be written.
"""
from __future__ import annotations

import math
from collections.abc import Callable, Sequence
from dataclasses import dataclass
from datetime import datetime
from typing import Protocol

from companions.api import ForgeFault, Full
from companions.forges import FAILURE, PENDING, SUCCESS, Limits, Place
from companions.gate import Gate, NoAnswer, say
from companions.moments import Moment
from companions.outbox import Notes
from companions.pace import Pace
from companions.people_gate import Later, Observer
from companions.people_seen import Seen, Subject, Text, Words, cut
from companions.people_texts import comment_of, parts_of, text_of
from companions.requests import State
from companions.rests import Paces

PART = "people"
# The kinds of texts that anybody can bring about, on requests that nobody has approved; how much of an hour's writes
# these have; and how much of it those have that are of a request of which so many such were written in the hour.
ANYBODY, ANYBODY_S, NOISY, OFTEN = {"unknown", "unapproved", "refusal", "elsewhere", "closed"}, 0.9, 0.75, 20
# What a comment says besides.
FULL = "The forge takes no more statuses of this commit: this comment says what is so."
CLOSED = "The gate has closed it, since the forge didn't show it as merged. Its branch has its commits."
CLOSED_AS_ONE = "The gate has closed it, since the forge doesn't show one that landed as one commit as merged."


# A look at the others begins: what is seen of a change at the gate is given back with what they know of it.
Others = Callable[[], Callable[[Subject, Seen], Seen]]
NO_OTHERS: Others = lambda: lambda subject, seen: seen

# Of a revision of a change people were told, at a time of the forge's.
Shown = Callable[[int, int, datetime], None]
NOBODY_ASKS: Shown = lambda change, revision, at: None


class Writer(Protocol):
    """What of a forge is needed here. Each call may raise `ForgeFault`."""

    def set_status(self, repository: str, commit: str, state: str, text: str) -> bool:
        """Sets the commit's status of the gate. Whether it has one now. `Full` where it takes no more of them."""

    def comment(self, place: Place, comment: int | None, text: str) -> int:
        """Writes a comment, in the place of an earlier one if there is one, and gives its number."""

    def close(self, place: Place, head: str) -> bool:
        """Closes a request that is open with this head, and says whether it was."""

    def time(self) -> datetime | None:
        """The forge's own time of its last answer."""


@dataclass(frozen=True)
class Manner:
    """How people are told. `mark` is what stands before a request's number, `logs` the address of a build's log with
    `{build}` in it. How far a change has come is written every `quiet` seconds, and what the forge didn't take is tried
    again after `rest`. At most `limits` are written, `burst` of them in a look, with `questions` about changes. What
    has landed and is still shown as open after `closes` seconds is closed, if that is given."""
    mark: str = "#"
    logs: str | None = None
    quiet: float = 60.0
    rest: float = 60.0
    limits: Limits = Limits()
    burst: int = 10
    questions: int = 100
    closes: float | None = None


@dataclass(frozen=True)
class Write:
    """What is to be written under the name of its note: a status, or a comment, or that the request is closed. It tells
    of these revisions."""
    name: str
    revisions: tuple[tuple[int, int], ...]
    place: Place
    kind: str
    commit: str | None
    state: str
    text: str
    is_closing: bool = False

    @property
    def changes(self) -> frozenset[int]:
        return frozenset(change for change, _ in self.revisions)

    @property
    def is_anybody_s(self) -> bool:
        """Whether anybody can bring it about."""
        return ANYBODY.issuperset(self.kind.split())


class People:
    """Tells people. Its notes have what was written, and of the gate how each change left its queue last.

    `places` has the request of a change, of all that the adapter knows, and `others` says what others than the gate
    know of it. `shown` is told of each revision of which people are.
    """

    def __init__(self, gate: Gate, notes: Notes, forge: Writer, places: Callable[[int], Place | None],
                 manner: Manner = Manner(), others: Others = NO_OTHERS, shown: Shown = NOBODY_ASKS) -> None:
        self.observer = Observer(gate, notes)
        self.notes, self.forge, self.places, self.manner, self.others = notes, forge, places, manner, others
        self.pace, self.shown = Pace(notes, manner.limits.minute, manner.limits.hour), shown
        self.rests: dict[str, float] = {}
        self.wrote = Paces(OFTEN, 0.0)
        self.troubles: set[str] = set()
        # The requests that were closed here, or that the forge shows otherwise by now: they have to be looked at.
        self.closed: list[Place] = []
        # What people are told of each change by the last look that said something of it, in paragraphs.
        self.said: dict[int, list[str]] = {}
        self.kinds: dict[int, str] = {}

    def look(self, subjects: Sequence[Subject], now: Moment) -> dict[int, str]:
        """One look at the gate, and what follows for these requests. The changes of which all is written by now, each
        with the kind of its text; that is empty where there is nothing to say.

        Of a request give one change: that of its target branch, or the last one where none is gated. A request that
        isn't open may be left out once the gate has answered that its change is closed, or it has landed, and a look
        after that has written so.
        """
        try:
            told, unclear = self.texts(subjects)
        except NoAnswer as fault:
            self.trouble("gate", f"can't look: no answer of the gate: {fault}")
            return {}
        if "gate" in self.troubles:
            self.troubles.discard("gate")
            say(PART, "the gate answers again")
        self.said = {it.change: parts_of(it, text) for it, text in told}
        writes = [*self.statuses(told, unclear), *self.comments(told), *self.closings(told, now)]
        written = self.write(writes, now)
        left = {change for it in writes if it.name not in written for change in it.changes}
        self.kinds = kinds = {it.change: text.kind for it, text in told}
        return {it.change: kinds.get(it.change, "") for it in subjects
                if it not in unclear and it.change not in left}

    def ask_again(self, change: int) -> None:
        """The gate has answered a delivery about a change: what it said of it before holds no more."""
        self.observer.ask_again(change)

    def texts(self, subjects: Sequence[Subject]) -> tuple[list[tuple[Subject, Text]], set[Subject]]:
        """The text of each request that has one, and the requests about which only the next look can tell."""
        self.observer.ask_anew({it.change: it for it in subjects})
        view, others = self.observer.view(self.manner.questions), self.others()
        told: list[tuple[Subject, Text]] = []
        unclear: set[Subject] = set()
        for subject in subjects:
            words = Words(self.places, self.manner.mark, self.manner.logs, subject.place.repository)
            try:
                text = text_of(subject, others(subject, self.observer.seen(subject, view)), words)
            except Later:
                unclear.add(subject)
                continue
            if text is not None:
                told.append((subject, text))
            elif subject.state is State.OPEN:
                unclear.add(subject)
        return told, unclear

    def statuses(self, told: Sequence[tuple[Subject, Text]], unclear: set[Subject]) -> list[Write]:
        """The status of each newest commit, and of an earlier one that has landed, where it isn't written yet. A commit
        may be that of several requests."""
        of_commit: dict[tuple[str, str], list[tuple[Subject, Text]]] = {}
        for subject, text in told:
            of_commit.setdefault((subject.place.repository, subject.commits[-1]), []).append((subject, text))
        for it in unclear:
            of_commit.pop((it.place.repository, it.commits[-1]), None)
        writes = []
        for (repository, commit), parts in of_commit.items():
            state, both = self.together(parts)
            kind = " ".join(it.kind for _, it in parts)
            revisions = tuple((it.change, it.revision) for it, _ in parts)
            writes.append(Write(f"status {repository} {commit}", revisions, parts[0][0].place, kind, commit, state,
                                both))
        for subject, text in told:
            repository = subject.place.repository
            if text.landed is not None and (repository, text.landed[0]) not in of_commit:
                commit, said = text.landed
                at = 1 + subject.commits.index(commit)
                writes.append(Write(f"status {repository} {commit}", ((subject.change, at),), subject.place, text.kind,
                                    commit, SUCCESS, said))
        return [it for it in writes if not self.is_written(it) and not self.is_full(it)]

    def is_written(self, write: Write) -> bool:
        """Whether it is there already, and was written of these revisions: of another one with the same commit people
        are told anew, since their comments approve what they were told of before."""
        noted = self.notes.get(write.name)
        return (noted is not None and (noted["state"], noted["text"]) == (write.state, write.text)
                and {*write.revisions} <= {(change, revision) for change, revision in noted.get("revisions", ())})

    def is_full(self, status: Write) -> bool:
        """Whether a commit takes no more statuses: the last ones are kept for news."""
        most = self.manner.limits.statuses
        return most is not None and self.count(status.name) >= (most if self.news(status)[0] else most - most // 10)

    def count(self, name: str) -> int:
        """How often a status was written."""
        return (self.notes.get(name) or {}).get("count", 0)

    def together(self, parts: Sequence[tuple[Subject, Text]]) -> tuple[str, str]:
        """The status of a commit by the requests that have it: by those that are open, if any is."""
        parts = [it for it in parts if it[0].state is State.OPEN] or parts
        if len(parts) == 1:
            return parts[0][1].state, cut(parts[0][1].status)
        states = {it.state for _, it in parts}
        state = FAILURE if FAILURE in states else PENDING if PENDING in states else SUCCESS
        return state, cut("; ".join(f"{self.manner.mark}{it.place.number}: {text.status}" for it, text in parts))

    def comments(self, told: Sequence[tuple[Subject, Text]]) -> list[Write]:
        """The comment of each request that isn't written yet. What is no news isn't worth a first one."""
        writes = []
        for subject, text in told:
            place = subject.place
            status, most = f"status {place.repository} {subject.commits[-1]}", self.manner.limits.statuses
            more = [FULL] if most is not None and self.count(status) >= most else []
            noted = self.notes.get(closing_of(place))
            if noted is not None and noted["state"] == "closed" and is_landed(text):
                more.append(CLOSED_AS_ONE if subject.is_squashed else CLOSED)
            said = comment_of(subject, text, more)
            write = Write(f"comment {place.repository} {place.number}", ((subject.change, subject.revision),), place,
                          text.kind, None, text.state, said)
            is_worth_it = text.is_news or subject.lines or subject.votes or subject.earlier
            if self.notes.get(write.name) is None and not is_worth_it:
                continue
            if not self.is_written(write):
                writes.append(write)
        return writes

    def closings(self, told: Sequence[tuple[Subject, Text]], now: Moment) -> list[Write]:
        """The requests that have landed and are shown as open some time later, as those of a Gitea that doesn't see
        merges. Once: who opens one again has a reason."""
        writes = []
        for subject, text in told:
            place, comment = subject.place, self.notes.get(f"comment {subject.place.repository} {subject.place.number}")
            closes = self.manner.closes
            if subject.is_squashed:
                # No forge sees that it has landed. First its comment names the commit.
                is_named = comment is not None and len(text.comment) > 1 and text.comment[-1] in comment["text"]
                closes = 0.0 if is_named else None
            if (closes is None or subject.state is not State.OPEN or not is_landed(text)
                    or comment is None or comment["kind"] != text.kind):
                continue
            write = Write(closing_of(place), ((subject.change, subject.revision),), place, text.kind,
                          subject.commits[-1], text.state, text.status, True)
            noted, age = self.notes.get(write.name), now.since(Moment(comment.get("boot", ""), comment["at"]))
            if (noted is None or noted["text"] != write.text) and (age is None or age >= closes):
                writes.append(write)
        return writes

    def is_due(self, write: Write, now: Moment) -> bool:
        if self.rests.get(write.name, 0.0) > now.uptime:
            return False
        is_news, age = self.news(write, now)
        return is_news or age >= self.manner.quiet

    def news(self, write: Write, now: Moment | None = None) -> tuple[bool, float]:
        """Whether what is written there by now is of another kind, and its age; what is of another boot is old."""
        noted = self.notes.get(write.name)
        if noted is None:
            return True, math.inf
        age = now.since(Moment(noted.get("boot", ""), noted["at"])) if now is not None else None
        return noted["kind"] != write.kind, math.inf if age is None else age

    def in_turn(self, writes: list[Write], now: Moment) -> list[Write]:
        """What is due and may be written by now, the news first, then what is the oldest: and behind all others what
        outsiders may bring about over and over."""
        due = sorted((it for it in writes if self.is_due(it, now)),
                     key=lambda it: (self.is_noisy(it, now), not self.news(it)[0], -self.news(it, now)[1]))
        found: list[Write] = []
        for it in due:
            part = NOISY if self.is_noisy(it, now) else ANYBODY_S if it.is_anybody_s else 1.0
            if len(found) < min(self.manner.burst, self.pace.left(now, part)):
                found.append(it)
        return found

    def is_noisy(self, write: Write, now: Moment) -> bool:
        return write.is_anybody_s and self.wrote.is_often(name_of(write.place), now.uptime)

    def write(self, writes: list[Write], now: Moment) -> set[str]:
        """Writes what is due. The names of what is written.

        After three faults in a row the forge is left alone until the next look.
        """
        written: set[str] = set()
        faults = 0
        for it in self.in_turn(writes, now):
            self.pace.count(now)
            if it.is_anybody_s:
                self.wrote.count(name_of(it.place), now.uptime)
            try:
                self.put(it, now)
            except Full:
                self.notes.put(it.name, {**self.notes.get(it.name), "count": self.manner.limits.statuses})
            except ForgeFault as fault:
                self.trouble(it.name, f"{it.place.repository}, request {it.place.number}: can't be told: {fault}")
                self.rests[it.name] = now.uptime + self.manner.rest
                faults += 1
                if faults == 3:
                    break
                continue
            faults = 0
            self.rests.pop(it.name, None)
            self.troubles.discard(it.name)
            written.add(it.name)
        return written

    def put(self, write: Write, now: Moment) -> None:
        """Writes, and notes it then. Before that it is noted that nobody knows what is there: a write that got no
        answer may have been done, so whatever is to be there is written again, also what was there before."""
        noted = self.notes.get(write.name)
        number = noted.get("number") if noted else None
        note = {"number": number, "kind": "", "state": "", "text": "", "at": now.uptime, "boot": now.boot,
                "count": self.count(write.name) + 1}
        self.notes.put(write.name, note)
        state, is_there = write.state, True
        if write.is_closing:
            state, is_there = "closed" if self.forge.close(write.place, write.commit or "") else "other", False
            self.closed.append(write.place)
        elif write.commit is not None:
            is_there = self.forge.set_status(write.place.repository, write.commit, write.state, write.text)
        else:
            number = self.forge.comment(write.place, number, write.text)
        at = self.forge.time() if is_there else None
        if at is not None:
            for change, revision in write.revisions:
                self.shown(change, revision, at)
        self.notes.put(write.name, {**note, "number": number, "kind": write.kind, "state": state, "text": write.text,
                                    "revisions": write.revisions})

    def trouble(self, name: str, what: str) -> None:
        """Says what goes wrong, once until it goes well again."""
        if name not in self.troubles:
            say(PART, what)
        self.troubles.add(name)


def name_of(place: Place) -> str:
    return f"{place.repository} {place.number}"


def closing_of(place: Place) -> str:
    """The name of the note that says that a request was closed."""
    return f"close {name_of(place)}"


def is_landed(text: Text) -> bool:
    """Whether the newest commit of a request has landed."""
    return (text.kind, text.state) == ("landed", SUCCESS)
