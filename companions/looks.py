"""One look at one request: what is so is asked of the forge and the gate, and what has to be told is kept."""
from __future__ import annotations

import re
import time
from collections.abc import Callable, Mapping
from dataclasses import dataclass, replace
from datetime import datetime

from companions.answers import Wrong
from companions.api import ForgeFault
from companions.forges import Forge, Listed, Place
from companions.gate import Gate, say
from companions.held import why_held
from companions.landings import Branch, first_name
from companions.looked import Looked
from companions.merging import parent_of
from companions.named import NamedRequests
from companions.needs import Known, Needs, message, need_lines, needs_of
from companions.peeking import commit_of
from companions.repository import REVISION, Repository
from companions.requests import (NO_REVISION, Request, State, Telling, Told, closing, counted, first_seen, set_aside,
                                 tellings, uncounted)
from companions.rests import HOUR
from companions.required import Required
from companions.rights import Approvers, Rights
from companions.settings import Adapter, Project, Settings
from companions.squash import Squash, author_of, message_of, named_as, tag_of
from companions.subjects import Subjects

HASH = re.compile(r"[0-9a-f]{40}|[0-9a-f]{64}")
COMMITTED = re.compile(r"^committer .*> ([0-9]{1,20}) [+-][0-9]{4}$", re.MULTILINE)
DAY = 86400


# How a request is that another one names, with the number of its change and whether that can land.
Stands = tuple[Known | None, tuple[int, bool] | None]


@dataclass(frozen=True)
class Depends:
    """On what it depends, beside the request itself, whether it has to be looked at: on what those are that it names,
    and on the time, where outsiders approve it. They may get the right to that, but anybody may bring that about."""
    names: Mapping[Place, Stands | None]
    until: float | None = None


class Again(Exception):
    """The request has changed while it was looked at."""


class Trouble(Exception):
    """Nothing can be told of the request until somebody has looked."""


@dataclass(frozen=True)
class Decided:
    """What was told, with what the gate says of it; what is to be told; and whether the gate lacks what it was told."""
    told: Told
    steps: list[Telling]
    is_lacking: bool


class Looks:
    """Looks at requests. A request's trouble is raised, and nothing is kept then."""

    def __init__(self, settings: Settings, adapter: Adapter, forge: Forge, gate: Gate, subjects: Subjects) -> None:
        self.adapter, self.forge, self.gate, self.folder = adapter, forge, gate, settings.folder
        self.author = settings.author
        self.subjects, self.changes = subjects, subjects.changes
        self.projects = {(it.forge, it.branch): it for it in settings.projects.values()}
        self.names = names_of(settings)
        self.repositories = {it.name: Repository(it.repository, settings.folder / "adapter" / it.name, settings.author)
                             for it in settings.projects.values()}
        self.approvers = Approvers(adapter, forge, self.changes.outbox)
        self.required = Required(adapter.require, adapter.form, forge, self.changes.outbox)
        # Each request is looked at once in a comparison at least, and that may take long.
        self.looked = Looked(2 * adapter.compare)
        self.named = NamedRequests(forge.outline, self.changes.landed_at, self.looked.longest)
        self.depends: dict[Place, Depends] = {}

    def look(self, place: Place) -> None:
        """Keeps what has to be told of a request, and of changes that it no longer stands for."""
        began = self.looked.clock()
        try:
            so, at = self.forge.request(place), self.forge.time()
            fault, is_settled = self.follow(so) if so is not None else (None, False)
        except BaseException:
            self.looked.failed(place)
            raise
        self.named.note(place, Known(so.target, so.state) if so is not None else None)
        if so is None:
            self.looked.failed(place)
            if self.changes.of_request(place):
                say("adapter", f"{place.repository} {place.number}: the forge doesn't show it: nothing is told")
            return
        self.looked.went_well(place, began, at, is_settled)
        if fault is not None:
            raise fault

    def follow(self, so: Request) -> tuple[ForgeFault | None, bool]:
        """Keeps what has to be told of a request as it is. Gives the fault by which it isn't known who may approve, and
        whether nothing is to be done before the request itself changes."""
        place = Place(so.repository, so.number)
        changes, project = self.changes.of_request(place), self.projects.get((so.repository, so.target))
        for branch, change in changes.items():
            if branch != so.target:
                self.leave(so, self.projects.get((so.repository, branch)), change)
        if project is None:
            self.pass_by(so, changes)
        elif so.state is State.OPEN or so.target in changes:
            return self.compare(so, project, self.changes.number(place, so.target))
        return None, True

    def pass_by(self, so: Request, changes: dict[str, int]) -> None:
        """Notes what is so of a request whose branch isn't gated. Its votes are of no revision, whatever comes."""
        last = max((it for it in changes.values() if self.changes.told(it).revisions), default=None)
        with self.changes.step():
            self.changes.see(so, None, {it.object: NO_REVISION for it in so.votes})
            if last is not None:
                self.subjects.see(so, last, False)

    def leave(self, so: Request, project: Project | None, change: int) -> None:
        """Closes the change of a request that has another target now."""
        told = self.changes.told(change)
        if closing(told, "retargeted"):
            decided = self.decide(so, told, project, lambda known: closing(known, "retargeted"))
            with self.changes.step():
                self.write(so, decided, {}, ())

    def compare(self, so: Request, project: Project, change: int) -> tuple[ForgeFault | None, bool]:
        """Keeps what has to be told of a request at its branch."""
        needs = self.needs(so) if so.state is State.OPEN else Needs((), ())
        rights = self.approvers.of(so)
        told = replace(self.changes.told(change), reading=self.adapter.reading,
                       sure=self.looked.since(Place(so.repository, so.number)))
        decided = self.decide(so, told, project, lambda known: self.sure_steps(so, known, needs.changes, rights))
        if self.changes.first() is None:
            # Ids are made of the first delivery's, so that one is told alone.
            decided = replace(decided, steps=[it for it in decided.steps if it.kind == "revision"])
        is_approved = any(it.kind == "approved" for it in decided.steps)
        waits, fault = self.waits_for(so, project) if is_approved else ([], None)
        if waits:
            decided = replace(decided, steps=[it for it in decided.steps if it.kind != "approved"])
        decided, tag, is_ahead = self.of_head(so, project, decided)
        told, seen = decided.told, first_seen(so, decided.told, needs.changes)
        self.be_sure(so, seen)
        approved = next((it.revision for it in decided.steps if it.kind == "approved"), None)
        if approved is not None:
            # Nobody but those who may approve fills the forge's repository.
            self.name(project, so.number, so.head, REVISION.format(change=change, revision=approved),
                      tag or self.changes.tag(change, approved))
        more = {"project": project.name, "message": message(so, needs.changes, self.adapter.base)}
        with self.changes.step():
            if told.revisions or decided.steps or is_ahead:
                self.changes.see(so, change, seen)
                self.subjects.see(so, change, True)
            self.write(so, decided, more, needs.changes, tag)
            self.changes.remark(change, "need", needs.remarks)
            may = rights.may | rights.unknown
            uncounting = counted([*waits, *uncounted(so, told, needs.changes, may)])
            self.changes.remark(change, "vote", uncounting)
            self.changes.remark_head(so, change, is_ahead)
        is_unsure = bool(uncounting) and any(it.person in may for it in so.votes)
        self.depends[Place(so.repository, so.number)] = Depends(
            {it: self.stands_for(it) for it in needs.places}, self.looked.clock() + HOUR if uncounting else None)
        is_open = bool(decided.steps) or decided.is_lacking or is_ahead or is_unsure
        fault = rights.fault or fault
        return fault, not is_open and fault is None and self.changes.first() is not None

    def of_head(self, so: Request, project: Project, decided: Decided) -> tuple[Decided, str | None, bool]:
        """What is to be told where the head becomes a revision, the tag at it if that is to land as one commit, and
        whether it is dated ahead: then it becomes none."""
        revision = next((it.revision for it in decided.steps if it.kind == "revision"), None)
        if revision is None:
            return decided, None, False
        content = self.head_of(so, project)
        if is_ahead_of_now(content):
            return replace(decided, steps=set_aside(decided.told, so.head)), None, True
        if not project.squashes:
            return decided, None, False
        tag = self.tag(so, decided.told.change, revision, content)
        return replace(decided, steps=[named_by(it, so.head, tag) for it in decided.steps]), tag, False

    def waits_for(self, so: Request, project: Project) -> tuple[list[str], ForgeFault | None]:
        """Why an approval that holds isn't told yet, a line each, and the fault by which that isn't known."""
        held = why_held(self.folder, project.queue)
        if held is not None:
            return [f"{project.queue} takes no approvals for now: {held}"], None
        try:
            return self.required.unmet(so), None
        except ForgeFault as fault:
            return ["the forge doesn't say whether its checks have passed: no approval counts before that"], fault

    def sure_steps(self, so: Request, told: Told, needs: tuple[int, ...], rights: Rights) -> list[Telling]:
        """What is to be told whoever of those whose right isn't known may approve. The others wait for that."""
        steps = tellings(so, told, needs, rights.may)
        kinds = {it.kind for it in tellings(so, told, needs, rights.may | rights.unknown)}
        return [it for it in steps if it.kind in kinds]

    def write(self, so: Request, decided: Decided, more: dict[str, str], needs: tuple[int, ...],
              tag: str | None = None) -> None:
        change = decided.told.change
        if decided.told.landed:
            self.changes.land(change)
        self.changes.keep(so, change, decided.steps, more, needs, tag)
        if decided.is_lacking and not decided.steps and not self.changes.waits(change):
            self.changes.tell_again(change)

    def decide(self, so: Request, told: Told, project: Project | None,
               steps_of: Callable[[Told], list[Telling]]) -> Decided:
        """What is to be told, given what the gate says of the change by now.

        Whatever the gate says, a change that its branch has was landed: told a closing or a later revision, a gate that
        was restored could never be told the landing.
        """
        told, is_lacking = self.with_gate(so, told)
        steps = steps_of(told)
        if project and told.revisions and any(it.kind != "approved" for it in steps):
            self.note_landings(project)
            if self.changes.told(told.change).landed:
                told = replace(told, landed=True)
                steps = steps_of(told)
        return Decided(told, steps, is_lacking)

    def with_gate(self, so: Request, told: Told) -> tuple[Told, bool]:
        """What was told, with whether the change has landed or its order is shown; and whether the gate lacks its last
        revision, as where its settings didn't have the project.

        The forge is asked first, then orders, then the change: what the lander had merged when the forge was asked has
        its order shown still, or has landed by the time of the last question.
        """
        if told.landed:
            return told, False
        ordered = so.state is State.MERGED and any(it.change == told.change for it in self.gate.orders())
        known = self.gate.change(told.change) or {"revision": 0, "state": "unknown"}
        last = len(told.revisions)
        if known["revision"] > last:
            raise Trouble(f"the gate has revision {known['revision']} of change {told.change}, and the adapter {last}."
                          " Its tables are older than the gate's file, or somebody else tells the gate of this change")
        if last and known["revision"] == last:
            told = self.as_read(told, tuple(it["change"] for it in known["needs"]))
        told = replace(told, ordered=ordered, landed=known["state"] == "landed")
        return told, not told.closed and known["revision"] < last

    def as_read(self, told: Told, read: tuple[int, ...]) -> Told:
        """What was told, with the needs that the gate read of the last revision.

        It reads others than it was told where the base that stood before them isn't its own. If that was another base
        than the adapter has now, the needs that it read are those of the revision, so the next one gets the right ones.
        """
        last = told.revisions[-1]
        if set(read) == set(last.needs):
            return told
        message = self.changes.message(told.change) or ""
        if message.splitlines()[2:] == need_lines(last.needs, self.adapter.base):
            raise Trouble(f"the gate reads other needs of change {told.change} than it was told: adapter.base has to be"
                          " forge.base of the gate's settings")
        return replace(told, revisions=(*told.revisions[:-1], replace(last, needs=read)))

    def note_landings(self, project: Project) -> None:
        """Notes what a project's branch has landed by the gate's present file, since the branch was read last."""
        repository, branch = self.repositories[project.name], f"refs/heads/{project.branch}"
        outbox, name, first = self.changes.outbox, f"read {project.name}", first_name(project.queue)
        asked = repository.ask(branch, first)
        file, noted, head = outbox.get("file"), outbox.get(name), asked.get(branch)
        if file is None or file["first"] is None or head is None:
            return
        # Their places don't matter here.
        below = asked.get(first) and repository.commit(asked[first])
        line = Branch(project.name, repository, project.queue, head, below, lambda: None, file["first"])
        is_known = noted and noted["first"] == file["first"] and repository.commit(noted["head"]) is not None
        above = line.up(noted["head"]) if is_known else None
        landed = above if above is not None else line.down().landings
        with self.changes.step():
            for it in landed:
                self.changes.land(it.change)
            outbox.put(name, {"first": file["first"], "head": head})

    def be_sure(self, so: Request, seen: dict[str, int]) -> None:
        """An approval that names no commit is of what the forge shows before it and behind it."""
        if any(it.approves and it.names_none and seen.get(it.object, NO_REVISION) > NO_REVISION for it in so.votes):
            if self.forge.outline(Place(so.repository, so.number)) != replace(so, votes=(), is_cut=False):
                raise Again

    def head_of(self, so: Request, project: Project) -> bytes:
        """The commit object of a request's head."""
        if not HASH.fullmatch(so.head):
            raise Trouble(f"the forge's head of it is no commit: {so.head[:80]!r}")
        repository, head = self.repositories[project.name], self.forge.head_ref(so.number)
        content = (repository.content(so.head) if repository.commit(so.head) is not None else
                   commit_of(repository, head, so.head))
        if content is None:
            raise Trouble(f"{head} of {repository.address} doesn't have {so.head} yet")
        return content

    def tag(self, so: Request, change: int, revision: int, content: bytes) -> str:
        """What stands at the commit of a revision that lands as one: the request's title and text as they are now, and
        the author of its commit."""
        squash = Squash(author_of(content, self.author), message_of(so.title, so.text))
        seconds = parent_of(so.head, content).seconds or 0
        return tag_of(so.head, change, revision, seconds, self.author, squash).decode()

    def fetched(self, project: Project, request: int, commit: str) -> Repository:
        """The mirror of a request's repository, in which its commit is by now."""
        repository = self.repositories[project.name]
        if repository.commit(commit) is None:
            head = self.forge.head_ref(request)
            repository.git("fetch", "--quiet", "--no-tags", repository.address, f"+{head}:{head}")
            if repository.commit(commit) is None:
                raise Trouble(f"{head} of {repository.address} doesn't have {commit} yet")
        return repository

    def name(self, project: Project, request: int, commit: str, name: str, tag: str | None = None) -> str | None:
        """Names a request's commit, or the tag at it, which could be pushed over at any time, by a ref that stays, and
        gives what was named so before: the commit of a revision that was chosen and never told, or what somebody has
        pushed there."""
        repository = self.fetched(project, request, commit)
        there, it = repository.ask(name).get(name), commit if tag is None else repository.write("tag", tag.encode())
        if there != it and not repository.push({name: (there, it)}):
            raise Again
        # Its name stays here too, for as long as it may have to be set right.
        repository.set({name: it})
        return there

    def set_right(self, wrong: Wrong) -> None:
        """A revision's ref is the commit that the gate was told, whoever has moved it since."""
        place, told = self.changes.place(wrong.change), self.changes.revision(wrong.change, wrong.revision)
        project = next((it for it in self.projects.values() if it.name == wrong.project), None)
        if place is None or told is None or project is None or project.forge != place.repository:
            raise Trouble(f"revision {wrong.revision} of change {wrong.change} of {wrong.project} wasn't told here")
        name = REVISION.format(change=wrong.change, revision=wrong.revision)
        tag = self.changes.tag(wrong.change, wrong.revision)
        there, right = self.name(project, place.number, told, name, tag), named_as(told, tag)
        if there != right:
            say("adapter", f"{name} of {wrong.project} was {there or 'gone'}: set right to {right}, which was told")

    def jobs(self, change: int) -> frozenset[str] | None:
        """The jobs of a change's project that workers know; none where these settings have no jobs of it."""
        project = self.project_of(change)
        return frozenset(project.jobs) if project is not None and project.jobs else None

    def queue_of(self, change: int) -> str:
        """The queue of a change, if its branch is gated."""
        project = self.project_of(change)
        return project.queue if project is not None else ""

    def project_of(self, change: int) -> Project | None:
        return self.projects.get(self.changes.home(change) or ("", ""))

    def needs(self, so: Request) -> Needs:
        return needs_of(so, self.adapter.web, self.names, self.named.ask, self.change_of)

    def change_of(self, place: Place, target: str) -> tuple[int, bool] | None:
        if (place.repository, target) not in self.projects:
            return None
        change = self.changes.number(place, target)
        return change, self.changes.stands(change)

    def stands_for(self, place: Place) -> Stands | None:
        """What a request is to those that name it, where that is known without a question."""
        seen = self.named.peek(place)
        if seen is None:
            return None
        return seen.known, self.change_of(place, seen.known.target) if seen.known is not None else None

    def unchanged(self, repository: str, shown: Mapping[int, Listed], began: float, at: datetime | None) -> set[int]:
        """The requests of a repository's list that needn't be looked at: neither they have changed since a look, nor
        what they name. The list was asked for at an uptime and had its answer at a time of the forge's."""
        self.named.listed(repository, {number: it.target for number, it in shown.items()})
        for place in [it for it in self.depends if it.repository == repository and it.number not in shown]:
            del self.depends[place]
        found = self.looked.unchanged(repository, {number: it.shown for number, it in shown.items()}, began, at)
        return {it for it in found if self.holds(self.depends.get(Place(repository, it), Depends({})))}

    def holds(self, it: Depends) -> bool:
        """Whether all is as it was on which it depends whether a request has to be looked at."""
        is_over = it.until is not None and self.looked.clock() >= it.until
        return not is_over and all(known is not None and self.stands_for(place) == known
                                   for place, known in it.names.items())


def is_ahead_of_now(content: bytes) -> bool:
    """Whether a commit is dated more than a day ahead. A landing has the later date of what it merges, so all landings
    behind it would be dated so."""
    dates = COMMITTED.findall(content.partition(b"\n\n")[0].decode("utf-8", "replace"))
    return len(dates) == 1 and int(dates[0]) > time.time() + DAY


def named_by(it: Telling, commit: str, tag: str) -> Telling:
    """A revision that is told by the tag at its commit, whose hash its id is made of."""
    return replace(it, stands_for=(named_as(commit, tag), *it.stands_for[1:])) if it.kind == "revision" else it


def names_of(settings: Settings) -> dict[str, str]:
    """The gated repositories' names as the settings have them: forges find them whether written large or small."""
    return {it.forge.casefold(): it.forge for it in settings.projects.values()}
