"""People at a forge who do whatever they like, looks at random moments, and what may never come of it."""
from __future__ import annotations

import random
import unittest
from dataclasses import dataclass, field, replace
from datetime import datetime, timedelta, timezone

from companions.requests import (NO_REVISION, Request, Revision, State, Telling, Told, Vote, closing, first_seen,
                                 standing, tellings)

SEEDS, STEPS = 300, 60
PEOPLE = ("ada", "bob", "mallory")
MAY = frozenset({"ada", "bob"})
BRANCHES = ("main", "old", "topic")
GATED = ("main", "old")
NOON = datetime(2024, 5, 1, 12, tzinfo=timezone.utc)


@dataclass
class Model:
    """A request with its votes, each with what its person looked at; what was told, by branch; what the gate has.
    `moved` is when its head moved last, which the forge lists, or doesn't: then looks may fail, which is a gap. What a
    person looks at he has read for a while."""
    chance: random.Random
    lists: bool = False
    now: datetime = NOON
    moved: datetime = NOON
    read_since: datetime = NOON
    sure: datetime | None = None
    head: int = 0
    needs: tuple[int, ...] = ()
    branch: str = "main"
    state: State = State.OPEN
    votes: list[Vote] = field(default_factory=list)
    looked_at: dict[str, tuple[object, ...]] = field(default_factory=dict)
    told: dict[str, Told] = field(default_factory=lambda: {it: Told(at + 1) for at, it in enumerate(GATED)})
    approved: set[str] = field(default_factory=set)
    seen: dict[str, tuple[str, int]] = field(default_factory=dict)
    spent: set[str] = field(default_factory=set)
    pushed: int = 0
    is_seen: bool = False

    def act(self) -> None:
        """Somebody does something at the forge."""
        self.now += timedelta(seconds=self.chance.choice((5, 30, 100)))
        what = self.chance.choice(("push", *("back",) * 3, "text", "branch", "state", *("vote",) * 6, "dismiss", "fail",
                                   "gap"))
        if what == "push":
            self.pushed += 1
            self.move(self.pushed)
        elif what == "back":
            self.move(self.chance.randrange(self.pushed + 1))
        elif what == "gap":
            self.sure = None
        elif what in ("text", "branch") and self.is_seen:
            self.is_seen = False
            self.change(what)
        elif what == "state":
            self.state = self.chance.choice((State.OPEN, State.OPEN, State.CLOSED))
        elif what == "vote":
            self.vote()
        elif what == "dismiss" and self.votes:
            self.dismiss(self.chance.randrange(len(self.votes)))
        elif what == "fail":
            self.approved.clear()

    def move(self, head: int) -> None:
        """The head moves, perhaps there and back again between two looks. Where the forge doesn't list that, a look
        between has failed."""
        if head != self.head:
            self.sure = self.sure if self.lists or self.is_seen else None
            self.head, self.is_seen, self.moved, self.read_since = head, False, self.now, self.now

    def change(self, what: str) -> None:
        """There and back again between two looks would be seen by nobody, so each is looked at before the next."""
        if what == "text":
            self.needs = self.chance.choice(((), (7,), (7, 8)))
        else:
            self.branch = self.chance.choice(BRANCHES)

    def vote(self) -> None:
        name = f"vote {len(self.looked_at)}"
        approves, is_comment = self.chance.random() < 0.8, self.chance.random() < 0.4
        self.looked_at[name] = self.head, self.needs, self.branch
        said = self.now if is_comment else None
        if is_comment and self.chance.random() < 0.2:
            # It names the commit.
            said, is_comment = None, False
        self.votes.append(Vote(name, self.chance.choice(PEOPLE), approves or is_comment,
                               None if is_comment else str(self.head), said=said))

    def dismiss(self, at: int) -> None:
        """A forge shows a dismissed vote as one that says nothing, or no more."""
        vote = self.votes.pop(at)
        if self.chance.random() < 0.5:
            self.votes.insert(at, replace(vote, approves=None))

    def so(self) -> Request:
        moved = self.moved if self.lists and self.votes else None
        return Request("acme/lib", 12, self.state, str(self.head), self.branch, "", "", tuple(self.votes), moved=moved)

    def known(self, branch: str) -> Told:
        """What was told at a branch; votes of others are of no revision of it."""
        other = [it for name, it in self.told.items() if name != branch]
        seen = {name: at if where == branch else NO_REVISION for name, (where, at) in self.seen.items()}
        approvals = {name: NO_REVISION for it in other for name in it.approvals} | self.told[branch].approvals
        return replace(self.told[branch], seen=seen, approvals=approvals, sure=self.sure)

    def look(self) -> list[Telling]:
        """The adapter looks. What it tells is taken by the gate."""
        so, self.is_seen, all_steps = self.so(), True, []
        for branch in GATED:
            known = self.known(branch)
            if branch == self.branch:
                steps, fresh = tellings(so, known, self.needs, MAY), first_seen(so, known, self.needs)
                if known.revisions or steps:
                    self.seen |= {name: (branch, at) for name, at in fresh.items()}
            else:
                steps = closing(known, "retargeted")
            for it in steps:
                self.take(branch, it)
            all_steps += steps
        if self.branch not in GATED:
            self.seen |= {it.object: ("", NO_REVISION) for it in so.votes if it.object not in self.seen}
        self.sure = self.sure or self.now
        return all_steps

    def take(self, branch: str, step: Telling) -> None:
        told = self.told[branch]
        if step.kind == "revision":
            told = replace(told, closed=False, revisions=(*told.revisions, Revision(str(self.head), self.needs)),
                           shown=self.now if self.chance.random() < 0.9 else None)
        elif step.kind == "closed":
            told = replace(told, closed=True)
        elif step.kind == "approved":
            told = replace(told, approvals=told.approvals | {it: step.revision for it in step.votes})
        else:
            told = replace(told, withdrawals=told.withdrawals | {*step.votes})
        self.told[branch] = told
        (self.approved.add if step.kind == "approved" else self.approved.discard)(branch)


class Days(unittest.TestCase):
    def test_people_do_what_they_like(self) -> None:
        approved = 0
        for seed in range(SEEDS):
            model = Model(random.Random(seed), lists=seed % 2 == 0)
            for step in range(STEPS):
                with self.subTest(seed=seed, step=step):
                    model.act()
                    if model.chance.random() < 0.6:
                        approved += self.check(model)
        self.assertGreater(approved, SEEDS)

    def check(self, model: Model) -> int:
        """One look, and what has to hold behind it."""
        before = {name: model.known(name) for name in GATED}
        steps = model.look()
        self.assertEqual(model.look(), [])
        for it in steps:
            if it.kind == "approved":
                self.check_approval(model, it)
        count, against = standing(it for it in model.votes if it.person in MAY)
        if model.branch in GATED and model.state is State.OPEN:
            if against or not count:
                self.assertNotIn(model.branch, model.approved)
            elif self.has_new(model, count, before[model.branch]):
                self.assertIn(model.branch, model.approved)
        else:
            self.assertEqual(model.approved, set())
        self.assertLessEqual(model.approved, {model.branch})
        return sum(it.kind == "approved" for it in steps)

    def check_approval(self, model: Model, step: Telling) -> None:
        """Each vote is of what is approved, as its person saw it, and has approved nothing before."""
        for vote in model.votes:
            if vote.object in step.votes:
                commit, needs, branch = model.looked_at[vote.object]
                self.assertEqual((vote.approves, vote.person in MAY, commit), (True, True, model.head))
                if vote.said is not None:
                    self.assertEqual((needs, branch), (model.needs, model.branch))
                    # Nobody could have read that which was pushed so shortly before.
                    self.assertGreaterEqual(vote.said - model.read_since, timedelta(seconds=60))
        self.assertLessEqual({*step.votes}, {it.object for it in model.votes})
        self.assertFalse({*step.votes} & model.spent)
        model.spent |= {*step.votes}

    def has_new(self, model: Model, count: list[Vote], before: Told) -> bool:
        """Whether a vote that wasn't seen before names the commit, or was given to a revision that was known."""
        is_known = before.revisions and not before.closed and before.sure and before.shown and (
            before.revisions[-1] == Revision(str(model.head), model.needs)) and not (
            model.lists and model.moved > before.shown)
        return any(it.object not in before.seen and (
            it.commit == str(model.head) or it.said is not None and is_known
            and it.said >= max(before.shown, before.sure) + timedelta(seconds=60)) for it in count)


if __name__ == "__main__":
    unittest.main()
