"""What has to be so at the end of a day with a forge, by the forge's own model and by the gate."""
from __future__ import annotations

import re
import uuid
from collections import Counter
from collections.abc import Callable, Iterator
from dataclasses import dataclass
from functools import cached_property
from typing import Any

from companions.forges import FAILURE, PENDING, SUCCESS, Place
from companions.ids import id_of
from companions.requests import standing
from companions.tests.day.checks import Checks
from companions.tests.day.forge_developers import Cast, ForgeDevelopers, Proposal
from companions.tests.day.forge_stage import LANDER, WRITERS, ForgeStage
from companions.tests.forges.model import GATE, Pull

# What people may be told of an approval that holds and has landed nothing.
WHY = re.compile("landed|landing|closed|merged past|failed|was lost|left|mend|wait|not for the gate|queue|take|approved"
                 "|withdrawn|objects|isn't among|be landed", re.IGNORECASE)
LOST = {"failed": FAILURE, "refused": FAILURE, "needs": FAILURE}


@dataclass(frozen=True)
class Known:
    """A change as the adapter and the gate have it: its number, the commits that were told, the gate's answer."""
    number: int
    commits: list[str]
    said: dict[str, Any] | None

    @property
    def state(self) -> str:
        return self.said["state"] if self.said else "unknown"


class ForgeChecks(Checks):
    """Compares what a day left with what stands at the forge."""

    stage: ForgeStage
    developers: ForgeDevelopers

    def __init__(self, stage: ForgeStage, developers: ForgeDevelopers) -> None:
        super().__init__(stage, developers)
        self.file, self.model = stage.adapter_file, stage.model
        self.gated = {(stage.name(it.home), it.branch) for it in stage.projects}
        self.file.note_ids()

    def each(self) -> list[Callable[[], Iterator[str]]]:
        return [*super().each(), self.check_approved_commits, self.check_heads, self.check_states, self.check_closed,
                self.check_votes, self.check_comments, self.check_statuses]

    @cached_property
    def landed(self) -> dict[int, str]:
        """The commit at which each change has landed, as the branches have it."""
        return {it.change: it.merged for it in self.all()}

    @cached_property
    def places(self) -> dict[int, int]:
        """The place of each landing."""
        return {it.change: it.place for it in self.all()}

    def known(self, number: int) -> Known:
        return Known(number, self.file.commits(number), self.stage.gate.change(number))

    def at(self, place: Place) -> Known | None:
        """The change of a request at the branch to which it is to go, if the gate was told of it."""
        number = self.file.changes(place).get(self.model.pulls[place].target)
        known = None if number is None else self.known(number)
        return known if known and known.commits else None

    def requests(self) -> list[tuple[Proposal, Place, Pull]]:
        return [(it, it.place, self.model.pulls[it.place]) for it in self.developers.all() if it.place]

    def name(self, place: Place) -> str:
        return f"{place.repository} {place.number}"

    def check_deliveries(self) -> Iterator[str]:
        """Nothing was acted on twice, and each approval is that of a vote of somebody who may, at its commit."""
        told = self.deliveries()
        yield from self.twice(told)
        votes, taken = self.ids(told[0]["id"]) if told else {}, Counter[Cast]()
        approvals = [it for it in told if it["kind"] == "approved"
                     and uuid.UUID(str(it["id"])) not in self.developers.by_hand]
        approved = Counter(it["change"] for it in approvals)
        for change, times in approved.items():
            place = self.file.place(change)
            people = [it.person for it in self.developers.votes if it.place == place and it.person in WRITERS]
            if times > len(people):
                yield (f"change {change}, {self.name(place) if place else 'of no request'}, was approved {times} times"
                       f" by the votes of {', '.join(people) or 'nobody'}")
        for it in approvals:
            vote = votes.get(uuid.UUID(str(it["id"])))
            if vote is None:
                yield f"revision {it['revision']} of change {it['change']} was approved by no vote"
                continue
            taken[vote] += 1
            if vote.person not in WRITERS:
                yield f"{vote.person} approved {self.name(vote.place)}, and may not"
            if vote.commit != self.file.commits(it["change"])[it["revision"] - 1]:
                yield f"{vote.object} of {self.name(vote.place)} approved another commit than was told"
        yield from (f"{vote.object} of {self.name(vote.place)} approved {times} times"
                    for vote, times in taken.items() if times > 1)

    def ids(self, first: str) -> dict[uuid.UUID, Cast]:
        """The votes by the ids under which they may be told."""
        bases = {str(uuid.UUID(it)) for it in (*self.file.ids, first)}
        return {uuid.UUID(id_of(base, "approved", number, revision, vote.object)): vote
                for vote in self.developers.votes for number in self.file.changes(vote.place).values()
                for revision in range(1, len(self.file.commits(number)) + 1) for base in bases}

    def check_approved_commits(self) -> Iterator[str]:
        """Each landing merges a head that somebody who may had approved at the forge."""
        for it in self.all():
            place, commit = self.file.place(it.change), self.landed[it.change]
            if not any((vote.place, vote.commit) == (place, commit) and vote.person in WRITERS
                       for vote in self.developers.votes):
                yield f"{it} merges {commit[:9]}, which nobody has approved"

    def check_changes(self) -> Iterator[str]:
        """What had to land has landed, and nothing that may not."""
        landed = {self.file.place(it.change) for it in self.all()}
        for it, place, _ in self.requests():
            if it.lands and place not in landed or it.lands is False and place in landed:
                yield f"{self.name(place)}, change {it.number}, {'landed' if place in landed else 'did not land'}"
        if {253, 254} <= {it.number for it, place, _ in self.requests() if place in landed}:
            yield "both of two changes landed that conflict"

    def check_heads(self) -> Iterator[str]:
        """The gate knows each open request that is to go to a gated branch, and its head last."""
        for _, place, pull in self.requests():
            if pull.state != "open" or (place.repository, pull.target) not in self.gated:
                continue
            known = self.at(place)
            if known is None or known.said is None:
                yield f"{self.name(place)} is open, and the gate knows nothing of it"
            elif known.state != "landed" and known.commits[known.said["revision"] - 1] != pull.head:
                yield (f"{self.name(place)} is at {pull.head[:9]}, and the gate was told"
                       f" {known.commits[known.said['revision'] - 1][:9]} last")

    def check_states(self) -> Iterator[str]:
        """What is closed, merged past the gate or to go elsewhere is closed at the gate.

        What the lander merged isn't told as closed, unless somebody had closed it before.
        """
        closed = {(it["change"], it["revision"]) for it in self.deliveries() if it["kind"] == "closed"}
        for _, place, pull in self.requests():
            for branch, number in self.file.changes(place).items():
                state, is_there = self.known(number).state, pull.state == "open" and branch == pull.target
                if state == "open" and not is_there:
                    yield f"{self.name(place)} is {pull.state}, and its change at {branch} is open at the gate"
                if state == "closed" and is_there:
                    yield f"{self.name(place)} is open, and closed at the gate"
            if pull.merged_by == LANDER and not self.landed.keys() & set(self.file.changes(place).values()):
                yield f"{self.name(place)} is shown as merged by the lander, which hasn't landed it"
        yield from (f"{it}, and was told as closed" for it in self.all() if (it.change, it.revision) in closed
                    and self.file.place(it.change) not in self.developers.left)

    def check_closed(self) -> Iterator[str]:
        """What landed as one commit is closed, which no forge does, and people are told the commit."""
        for it in self.all():
            place, project = self.file.place(it.change), self.stage.project(it.project)
            if place is None or project.land != "squash":
                continue
            pull = self.model.pulls[place]
            if pull.target != project.branch:
                # People hear what became of it at the branch for which it is meant by now.
                continue
            if pull.state == "open" and pull.head == it.merged and place not in self.developers.reopened:
                yield f"{self.name(place)} has landed as one commit, and is open"
            if pull.head == it.merged and it.commit not in self.told(place):
                yield f"{self.name(place)} has landed as {it.commit[:9]}, and people hear: {self.told(place)!r}"

    def check_votes(self) -> Iterator[str]:
        """An approval that holds has landed what it approved, or people are told why it hasn't.

        Nobody is told of a request that was closed before the adapter looked.
        """
        for _, place, pull in self.requests():
            if pull.state != "open" and not any(map(self.file.commits, self.file.changes(place).values())):
                continue
            so = self.stage.client.request(place)
            holding = {it.object for it in standing(so.votes)[0]} if so else set()
            commits = {self.landed.get(it) for it in self.file.changes(place).values()}
            for vote in self.developers.votes:
                if vote.place == place and vote.object in holding and vote.commit not in commits:
                    told = self.told(place)
                    if not WHY.search(told):
                        yield f"{vote.object} of {self.name(place)} holds, hasn't landed, and people hear: {told!r}"

    def told(self, place: Place) -> str:
        """What people are told of a request: the comment, and the status of the commit that was told last."""
        comments = [it.text for it in self.model.comments(place, GATE)]
        commits = [commit for number in self.file.changes(place).values() for commit in self.file.commits(number)]
        statuses = [self.model.status(place.repository, it) for it in commits]
        return "\n".join([*comments, *(it.text for it in statuses if it)])

    def check_comments(self) -> Iterator[str]:
        for place in self.model.pulls:
            comments = self.model.comments(place, GATE)
            if len(comments) > 1:
                yield f"{self.name(place)} has {len(comments)} comments of the gate"

    def check_statuses(self) -> Iterator[str]:
        """The last status of each request is true of the gate."""
        for _, place, pull in self.requests():
            known = self.at(place)
            if known is None or pull.is_fork and self.stage.forge.kind == "gitlab":
                continue
            statuses = {known.commits[-1]: self.wanted(known, pull)}
            if known.number in self.landed and pull.state == "open" and pull.head != self.landed[known.number]:
                statuses[pull.head] = FAILURE, "without this commit"
            for commit, (wanted, text) in statuses.items():
                found = self.model.status(place.repository, commit)
                if found is None or found.state != wanted or text not in found.text:
                    yield (f"{self.name(place)} is {known.state} at the gate and {pull.state} at the forge, and the"
                           f" status of {commit[:9]} is {found and (found.state, found.text)}, not {wanted} {text!r}")

    def wanted(self, known: Known, pull: Pull) -> tuple[str, str]:
        """The status that the commit has to have that was told last, and a part of its text."""
        if known.number in self.landed:
            is_last = self.landed[known.number] == known.commits[-1]
            return SUCCESS if is_last else FAILURE, f" as {self.places[known.number]}"
        if pull.state != "open":
            return FAILURE, ""
        if known.said is None or known.said["order"] is not None or known.said["approval"] is not None:
            return PENDING, ""
        verdicts = [row[4] for queue in self.queues for row in self.reports(queue)
                    if (int(row[2]), int(row[3])) == (known.number, len(known.commits))]
        return LOST.get(verdicts[-1], PENDING) if verdicts else PENDING, ""
