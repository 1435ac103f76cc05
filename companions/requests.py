"""What is so of a request, as a forge shows it now, and what a gate was told of it: what has to be told follows.

A hook says only which request to look at. Nothing here asks anybody: all is decided from what is given.
"""
from __future__ import annotations

import enum
from collections.abc import Iterable, Sequence
from dataclasses import dataclass, field
from datetime import datetime, timedelta

# In the place of a revision: a vote that is of none, since nobody knows which commit, or which branch, it was made for;
# and one of which nobody knows that since it was first seen behind a gap in looking, or not all could be read then.
NO_REVISION, BEHIND_GAP = 0, -1

# So many lines about votes are kept: as many as people are shown, with the one that counts the others.
LINES = 9

# The commit of a review that the forge doesn't name any more, as once it is gone from there.
GONE = ""


class State(enum.Enum):
    """How a forge shows a request."""
    OPEN = "open"
    CLOSED = "closed"
    MERGED = "merged"


@dataclass(frozen=True)
class Vote:
    """An object of the forge by which a person approves a request, or objects: a review, a comment, an event.

    `approves` is none for one that was dismissed, or that takes an approval back: from then on it says nothing, and
    neither do the person's earlier ones.
    `commit` is the one that it was made for, or none where the forge never says, or `GONE` where it no longer does.
    `flaw` is why what is meant as a vote is none, where it is none. `said` is when it was made, by the forge's time,
    where it is a comment that names no commit. `account` is the number of the person's account. `is_unplaced`: not all
    that was done to the request can be read, so it may have had another target branch, or another head.
    """
    object: str
    person: str
    approves: bool | None
    commit: str | None
    flaw: str | None = None
    said: datetime | None = None
    account: int | None = field(default=None, compare=False)
    is_unplaced: bool = field(default=False, compare=False)

    @property
    def names_none(self) -> bool:
        """Whether its person names no commit, so that it may be meant for another one than the request has."""
        return self.commit is None or self.said is not None


@dataclass(frozen=True)
class Request:
    """A pull or merge request as it is now. `votes` are those that the forge shows, the oldest first. One that is a
    draft isn't to land. `is_cut`: there are comments that are too long to be read, so nobody knows what they say.
    `moved` is when its head was pushed last, as far as the forge lists pushes; it is asked if somebody approves it.
    `author` is the login of who opened it, or empty where the forge names nobody."""
    repository: str
    number: int
    state: State
    head: str
    target: str
    title: str
    text: str
    votes: tuple[Vote, ...] = ()
    is_draft: bool = False
    is_cut: bool = False
    moved: datetime | None = field(default=None, compare=False)
    author: str = field(default="", compare=False)


@dataclass(frozen=True)
class Revision:
    """A revision that the gate was told: its commit, and the changes that it needs."""
    commit: str
    needs: tuple[int, ...]


@dataclass(frozen=True)
class Told:
    """What the gate was told of a change, and what it says of it.

    `closed`: the change was closed behind the last of its revisions. `landed`: the gate or the branch has its landing.
    `ordered`: the gate shows its order, so the lander may be at it. `approvals` are the votes that were told, each with
    its revision, and `withdrawals` those of them that were taken back. `seen` are all votes that were seen, each with
    the revision at which that was first, and `commits` the commits that they named then. `again`: the last revision was
    told under an id that isn't made of its commit, by which nobody can check that commit, so it is told once more as
    the next one. `shown` is when people were first told of the last revision, by the forge's time: so many seconds
    behind that, `reading`, a person may have read it. `sure` is since when the request was looked at without a gap, by
    the forge's time; none where the look of now is behind one.
    """
    change: int
    revisions: tuple[Revision, ...] = ()
    closed: bool = False
    landed: bool = False
    ordered: bool = False
    approvals: dict[str, int] = field(default_factory=dict)
    withdrawals: frozenset[str] = frozenset()
    seen: dict[str, int] = field(default_factory=dict)
    commits: dict[str, str] = field(default_factory=dict)
    again: bool = False
    shown: datetime | None = None
    reading: float = 60.0
    sure: datetime | None = None


@dataclass(frozen=True)
class Telling:
    """A delivery to be told: its kind, the revision, and what it stands for beside these, from which its id comes.

    `votes` are those that count as told with it: approvals, or the approvals that it takes back.
    """
    kind: str
    revision: int
    stands_for: tuple[str, ...]
    votes: tuple[str, ...] = ()


def tellings(so: Request, told: Told, needs: tuple[int, ...], may_approve: frozenset[str]) -> list[Telling]:
    """What is to be told of a change, in order, given the request that it stands for, at a branch that is gated.

    `may_approve` are the persons whose votes count.
    """
    if told.landed:
        return []
    if so.state is not State.OPEN:
        # While its order is shown, the lander may have merged it and not told that yet.
        return [] if so.state is State.MERGED and told.ordered else closing(told, so.state.value)
    revision, steps = revision_of(so, told, needs), []
    if revision > len(told.revisions):
        steps.append(Telling("revision", revision, (so.head, *map(str, needs))))
    return steps + votes(so, told, revision, first_seen(so, told, needs), may_approve)


def closing(told: Told, why: str) -> list[Telling]:
    """A change that is to be closed, since its request is, or has another target now."""
    last = len(told.revisions)
    return [Telling("closed", last, (why,))] if last and not told.closed and not told.landed else []


def set_aside(told: Told, why: str) -> list[Telling]:
    """The withdrawal of what still stands of the last revision, where a later commit is there and isn't told."""
    last = len(told.revisions)
    at_gate = tuple(sorted({name for name, at in told.approvals.items() if at == last} - told.withdrawals))
    is_over = not last or told.closed or told.landed
    return [] if is_over or not at_gate else [Telling("withdrawn", last, (*at_gate, why), at_gate)]


def revision_of(so: Request, told: Told, needs: tuple[int, ...]) -> int:
    """The revision that an open request is at: the last that was told, or the next one."""
    last = len(told.revisions)
    is_new = not last or told.closed or told.again or told.revisions[-1] != Revision(so.head, needs)
    return last + 1 if is_new or was_away(so, told) else last


def was_away(so: Request, told: Told) -> bool:
    """Whether the head has moved since people were told of it, so it was another one in between: what was said
    meanwhile may be of that one. The forge's time may be in whole seconds."""
    return so.moved is not None and told.shown is not None and so.moved.replace(microsecond=0) > told.shown


def first_seen(so: Request, told: Told, needs: tuple[int, ...]) -> dict[str, int]:
    """The votes that weren't seen before, each with the revision that it is of.

    A vote that names no commit and is first seen together with a new revision may be older than that, and then nobody
    has looked at what it would approve: it is of no revision. So is one that is first seen behind a gap, or was made so
    soon behind it that its person may have read what the request had in the gap. Whoever gives it again approves what
    is known by then.
    """
    last = len(told.revisions)
    revision = revision_of(so, told, needs) if so.state is State.OPEN else last
    is_unsure = so.state is not State.OPEN or revision > last

    def first_of(vote: Vote) -> int:
        if vote.is_unplaced:
            return BEHIND_GAP
        if not vote.names_none:
            return revision
        return NO_REVISION if is_unsure else revision if is_read(vote, told.sure, told.reading) else BEHIND_GAP

    return {it.object: first_of(it) for it in so.votes if it.flaw is None and it.object not in told.seen}


def votes(so: Request, told: Told, revision: int, new_ones: dict[str, int],
          may_approve: frozenset[str]) -> list[Telling]:
    """The approval of this revision, where a vote approves it that wasn't told, or the withdrawal where none holds.

    A vote approves once. Of several new ones the oldest is told, and the others count as told with it: told by
    themselves, later, they would put a change that has failed meanwhile into its queue again.
    """
    approving, objections = standing(it for it in so.votes if it.person in may_approve)
    against = [*(it.object for it in objections), *(["draft"] if so.is_draft else [])]
    counting = [] if against else [it for it in approving if counts(it, so, told, revision, new_ones)]
    at_gate = {name for name, at in told.approvals.items() if at == revision} - told.withdrawals
    steps = []
    if at_gate and (against or not counting and not at_gate & {it.object for it in approving}):
        taken_back = tuple(sorted(at_gate))
        steps.append(Telling("withdrawn", revision, (*taken_back, *against), taken_back))
    if counting:
        steps.append(Telling("approved", revision, (counting[0].object,), tuple(it.object for it in counting)))
    return steps


def standing(votes_of_all: Iterable[Vote]) -> tuple[list[Vote], list[Vote]]:
    """The approving votes behind which the same person has neither objected nor been dismissed, and the objections."""
    approving: dict[str, list[Vote]] = {}
    against: dict[str, Vote] = {}
    for it in votes_of_all:
        if it.flaw is not None:
            continue
        against.pop(it.person, None)
        if it.approves:
            approving.setdefault(it.person, []).append(it)
            continue
        approving.pop(it.person, None)
        if it.approves is False:
            against[it.person] = it
    return [it for each in approving.values() for it in each], list(against.values())


def counts(vote: Vote, so: Request, told: Told, revision: int, new_ones: dict[str, int]) -> bool:
    """Whether a vote approves this revision, and wasn't told of this one or another."""
    seen = told.seen.get(vote.object, new_ones.get(vote.object, NO_REVISION))
    if vote.object in told.approvals or seen in (NO_REVISION, BEHIND_GAP):
        return False
    if vote.names_none and (seen != revision or not is_read(vote, told.shown, told.reading)):
        return False
    return vote.commit is None or (vote.commit or told.commits.get(vote.object)) == so.head


def is_read(vote: Vote, since: datetime | None, reading: float) -> bool:
    """Whether a comment was made so long behind a time that its person may have read what was there then."""
    return vote.said is not None and since is not None and vote.said >= since + timedelta(seconds=reading)


def uncounted(so: Request, told: Told, needs: tuple[int, ...], may_approve: frozenset[str]) -> list[str]:
    """Why the approving votes that the forge shows of an open request aren't the gate's approval: a line each. Lines
    about persons who may not approve are the last, so that theirs hide none of the others."""
    if so.state is not State.OPEN or told.landed:
        return []
    revision, new_ones = revision_of(so, told, needs), first_seen(so, told, needs)
    approving, against = standing(so.votes)
    lines = [f"{it.person} objects ({it.object})" for it in against if it.person in may_approve]
    lines += ["it is a draft, which isn't to land"] if so.is_draft and approving else []
    lines += ["some of its comments are too long to be read: no approval by one of them counts"] if so.is_cut else []
    meant = (*approving, *(it for it in so.votes if it.flaw is not None))
    for it in sorted(meant, key=lambda it: it.person not in may_approve):
        why = it.flaw or why_not(it, so, told, revision, new_ones, it.person in may_approve)
        lines += [f"{it.person} {why}: {it.object} doesn't count"] if why else []
    return lines


def counted(lines: Sequence[str]) -> list[str]:
    """Lines about votes, of which the last one counts those that are too many: people vote as often as they like."""
    return [*lines] if len(lines) <= LINES + 1 else [*lines[:LINES], f"and {len(lines) - LINES} more"]


def why_not(vote: Vote, so: Request, told: Told, revision: int, new_ones: dict[str, int],
            may_approve: bool) -> str | None:
    """Why an approving vote isn't the gate's approval of this revision, if it isn't."""
    if not may_approve:
        return "isn't among those who may approve"
    if vote.object in told.withdrawals:
        return "approved, and that was withdrawn since"
    if told.approvals.get(vote.object, revision) != revision:
        return "approved an earlier revision, or another branch"
    if vote.object in told.approvals or counts(vote, so, told, revision, new_ones):
        return None
    if vote.commit == GONE:
        return "approved a commit that the forge no longer names"
    if vote.commit not in (None, so.head):
        return "approved another commit than that of now"
    seen = told.seen.get(vote.object, new_ones.get(vote.object, NO_REVISION))
    if seen == BEHIND_GAP and not vote.said:
        return "approved, while not all that was done to this request could be read"
    return why_unsure(vote, told, seen, revision)


def why_unsure(vote: Vote, told: Told, seen: int, revision: int) -> str:
    """Why nobody knows that a vote is of this revision that names no commit, given the one at which it was first
    seen."""
    if seen not in (revision, BEHIND_GAP):
        return "approved before the gate knew this revision at this branch"
    if told.shown is None:
        return "approved before the gate has told of this commit, and named none"
    if not is_read(vote, told.shown, told.reading):
        return f"approved within {told.reading:g} seconds of the gate's word of this commit, and named none"
    return "approved while the gate couldn't look at this request, or soon behind that, and named no commit"
