"""What the developers of a day do at a forge, by a seed: they push, write texts, vote, and change their minds."""
from __future__ import annotations

import random
import time
import uuid
from collections.abc import Callable
from dataclasses import dataclass, field

from companions.forges import Place
from companions.gate import NoAnswer
from companions.tests.day.developers import Change, Developers
from companions.tests.day.forge_stage import GUEST, WRITERS, ForgeStage
from companions.tests.day.layout import pace
from companions.tests.day.parts import wait_for
from companions.tests.forges.model import Entry, Pull

# An approval by a comment, as people write it, and for how long they read before, in seconds.
APPROVALS = ("/gate approve", "\n\n/gate approve\n", "  /gate approve\t\r\n")
READING = 61


@dataclass
class Proposal(Change):
    """A change as a request at the forge. Its number is the plan's: at the gate it has that which the adapter chose.

    `names` are the requests that its text names as needed, `later` those that it names once it was edited, and `text`
    is what stands there beside them. `heads` are the commits that were made, one a revision.
    """
    names: tuple[Proposal, ...] = ()
    later: tuple[Proposal, ...] = ()
    text: str = ""
    is_fork: bool = False
    place: Place | None = None
    heads: list[str] = field(default_factory=list)


@dataclass(frozen=True)
class Cast:
    """A vote that a person who may write, or one who may not, has given: for a request at a commit."""
    place: Place
    object: str
    person: str
    commit: str


class ForgeDevelopers(Developers):
    """Does the steps at the forge. What comes too late for a request, as it is merged, isn't done any more."""

    stage: ForgeStage

    def __init__(self, stage: ForgeStage) -> None:
        super().__init__(stage)
        self.model, self.file = stage.model, stage.adapter_file
        self.chance = random.Random(1)
        self.votes: list[Cast] = []
        # The requests that somebody has closed, merged past the gate, or given another target.
        self.left: set[Place] = set()
        # Those that somebody has opened again.
        self.reopened: set[Place] = set()
        # The approvals that an operator has told the gate past the adapter.
        self.by_hand: set[uuid.UUID] = set()

    def all(self) -> list[Proposal]:
        return [it for it in self.changes.values() if isinstance(it, Proposal)]

    def number(self, change: Change) -> int | None:
        place = self.place(change)
        return self.file.changes(place).get(self.model.pulls[place].target)

    def of_gate(self, number: int) -> Change:
        place = self.file.place(number)
        return next(it for it in self.all() if it.place == place)

    def is_broken(self, number: int, revision: int) -> bool:
        commit = self.file.commits(number)[revision - 1]
        return any(commit in it.heads[at - 1:at] for it in self.all() for at in it.broken)

    def place(self, change: Change) -> Place:
        assert isinstance(change, Proposal) and change.place is not None
        return change.place

    def pull(self, change: Change) -> Pull:
        return self.model.pulls[self.place(change)]

    def is_open(self, change: Change) -> bool:
        return self.pull(change).state == "open"

    def open(self, change: Proposal) -> None:
        """Opens the request, unless that was done: those first that its text has to name."""
        if change.place is not None:
            return
        for it in change.names:
            self.open(it)
        project = self.stage.project(change.project)
        repository = self.stage.name(project.home)
        head = self.make_commit(change, len(self.model.of(repository)) + 1)
        change.place = self.model.open(repository, head, project.branch, f"Change {change.number}", self.text(change),
                                       "dan", change.is_fork)
        self.changes[change.number] = change

    def make_commit(self, change: Proposal, request: int) -> str:
        change.revision += 1
        message = f"Change {change.number}, for the {change.revision}. time"
        head = self.commit(change, message, self.stage.client.head_ref(request))
        change.heads.append(head)
        return head

    def push(self, change: Change) -> None:
        """A further commit in the place of the head."""
        assert isinstance(change, Proposal)
        if self.is_open(change):
            self.move(change, self.make_commit(change, self.place(change).number))

    def move(self, change: Change, head: str) -> None:
        with self.model.lock:
            if self.is_open(change):
                self.model.push(self.place(change), head)

    def back(self, change: Change) -> None:
        """The head goes back to the first one. Between two looks nobody would see that it was another one."""
        assert isinstance(change, Proposal)
        place = self.place(change)
        wait_for(f"the adapter to look at change {change.number}", lambda: not self.is_open(change) or any(
            change.heads[-1] in self.file.commits(it) for it in self.file.changes(place).values()))
        if self.is_open(change):
            self.push_commit(change, change.heads[0], self.stage.client.head_ref(place.number))
            self.move(change, change.heads[0])

    def push_late(self, change: Change) -> None:
        """A commit that is pushed while the order is shown, if that can be seen in time."""
        def is_ordered() -> bool:
            try:
                return not self.is_open(change) or any(it.change == self.number(change)
                                                       for it in self.stage.gate.orders())
            except NoAnswer:
                return False
        self.wait(is_ordered, 0.02)
        self.push(change)

    def wait(self, is_so: Callable[[], bool], pause: float = 0.1) -> None:
        """Waits for something for a while. A developer doesn't wait for ever."""
        end = time.monotonic() + 40 * pace()
        while not is_so() and time.monotonic() < end:
            time.sleep(pause)

    def text(self, change: Proposal) -> str:
        """The text of a request, with the needs as people write them."""
        lines = [f"Depends-On: {self.named(change, it)}" for it in change.names]
        return "\r\n".join([f"What change {change.number} is for.", "", change.text, *lines])

    def named(self, change: Proposal, need: Proposal) -> str:
        """A request as another one's text names it."""
        place = self.place(need)
        mark = "!" if self.stage.forge.kind == "gitlab" else "#"
        short = place.repository if place.repository != self.stage.name(self.stage.project(change.project).home) else ""
        address = self.stage.forge.form.address(place)
        return self.chance.choice((f"{short}{mark}{place.number}", f"{place.repository}{mark}{place.number}", address,
                                   f"{address}/files"))

    def edit(self, change: Change) -> None:
        """The text names other needs from now on."""
        assert isinstance(change, Proposal)
        for it in change.later:
            self.open(it)
        change.names = change.later
        with self.model.lock:
            if self.is_open(change):
                self.model.edit(self.place(change), text=self.text(change))

    def rename(self, change: Change) -> None:
        """It gets another title. A landing has the one of when the gate was told of the revision."""
        with self.model.lock:
            if self.is_open(change):
                self.model.edit(self.place(change), title=f"Change {change.number}, as it is called now")

    def aside(self, change: Change) -> None:
        """It is to go to a branch that isn't gated."""
        self.retarget(change, "topic")

    def home(self, change: Change) -> None:
        self.retarget(change, self.stage.project(change.project).branch)

    def across(self, change: Change) -> None:
        """It is to go to another gated branch of its repository."""
        self.retarget(change, "old")

    def retarget(self, change: Change, branch: str) -> None:
        with self.model.lock:
            if self.is_open(change):
                self.left.add(self.place(change))
                self.model.retarget(self.place(change), branch)

    def approve(self, change: Change) -> None:
        self.vote(change, self.chance.choice(WRITERS), self.chance.random() < 0.4)

    def consent(self, change: Change) -> None:
        """Who objected approves."""
        self.vote(change, WRITERS[1], False)

    def admire(self, change: Change) -> None:
        """Somebody approves who may not."""
        self.vote(change, GUEST, self.chance.random() < 0.5)

    def vote(self, change: Change, person: str, by_comment: bool) -> None:
        """A new vote that approves: a review, or a comment."""
        text = self.approval(change) if by_comment else ""
        with self.model.lock:
            if not self.is_open(change):
                return
            place = self.place(change)
            if by_comment:
                entry = self.model.comment(place, person, text)
            else:
                # At GitLab nobody approves twice who hasn't taken that back.
                if self.stage.forge.kind == "gitlab" and person in self.pull(change).approving():
                    self.model.dismiss(place, person)
                entry = self.model.approve(place, person)
            self.votes.append(Cast(place, self.object_of(entry), person, entry.commit))

    def approval(self, change: Change) -> str:
        """What a comment that approves says: the line with the commit, or alone. Some write it alone as soon as they
        like, and others once they have read what the gate has told of."""
        pull, how = self.pull(change), self.chance.random()
        repository = pull.place.repository
        if how < 0.5:
            return f"/gate approve {pull.head}"
        if how < 0.9:
            self.wait(lambda: not self.is_open(change) or self.model.status(repository, pull.head) is not None)
            self.model.wait(READING)
        return self.chance.choice(APPROVALS)

    def object_of(self, entry: Entry) -> str:
        """The name by which the adapter has a vote."""
        if self.stage.forge.kind == "gitlab":
            return f"note {entry.note}"
        return f"comment {entry.id}" if entry.kind == "commented" else f"review {entry.id}"

    def oppose(self, change: Change) -> None:
        """Somebody who may is against it. GitLab knows nothing of that."""
        with self.model.lock:
            if self.is_open(change):
                self.model.reject(self.place(change), WRITERS[1])

    def withdraw(self, change: Change) -> None:
        """All approvals are taken back: reviews are dismissed, comments are deleted, or say something else."""
        with self.model.lock:
            if not self.is_open(change):
                return
            place = self.place(change)
            for person in self.pull(change).approving():
                self.model.dismiss(place, person)
            objects = {it.object for it in self.votes if it.place == place}
            for entry in [it for it in self.pull(change).of("commented") if self.object_of(it) in objects]:
                if self.chance.random() < 0.5:
                    self.model.delete_comment(place, entry)
                else:
                    self.model.edit_comment(place, entry, "I have to look again.")

    def draft(self, change: Change) -> None:
        """It isn't to land by now."""
        self.turn(change, True)

    def ready(self, change: Change) -> None:
        self.turn(change, False)

    def turn(self, change: Change, is_draft: bool) -> None:
        with self.model.lock:
            if self.is_open(change):
                self.model.draft(self.place(change), is_draft)

    def close(self, change: Change) -> None:
        with self.model.lock:
            if self.is_open(change):
                self.left.add(self.place(change))
                self.model.close(self.place(change))

    def reopen(self, change: Change) -> None:
        with self.model.lock:
            if self.pull(change).state == "closed":
                self.reopened.add(self.place(change))
                self.model.reopen(self.place(change))

    def merge_past(self, change: Proposal) -> tuple[str, str]:
        """Somebody who may merges a request himself: what its branch was, and what it is now."""
        self.open(change)
        self.left.add(self.place(change))
        both = self.push_past(change.project, change.heads[-1])
        self.stage.merges.look()
        return both
