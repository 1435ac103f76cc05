"""The builds of one queue that a CI runs: makes their commits, pushes them as runs, judges them, and tells the gate.

Each step may fail by itself, and is tried again. What a queue waits for holds up no other queue.
"""
from __future__ import annotations

import sqlite3
import threading
import time
from collections.abc import Callable
from dataclasses import asdict, dataclass, replace
from functools import partial

from companions.api import ForgeFault
from companions.beating import Beating
from companions.ci_settings import LOOK
from companions.conflicts import Conflict
from companions.gate import Answer, Gate, NoAnswer
from companions.judged import Verdict, Wanted, judge
from companions.links import Link, Links
from companions.moments import Moment
from companions.outbox import Notes
from companions.repository import Declined, GitFault
from companions.rests import Paces
from companions.runs import Run, Runs, others_on_no_branch
from companions.settings import Settings
from companions.statuses import Mark, Statuses
from companions.trees import Build, Trees, UnknownChange, Unset, build_of
from companions.wanted import Look, Reply
from companions.worker import result_of

# What may be at fault outside of a build. It is kept as long as that lasts: nobody else could take it, since one
# program of this kind runs for a gate.
FAULTS = (ForgeFault, GitFault, NoAnswer, OSError, sqlite3.Error, Unset)

# So often in an hour a hook has a run looked at at once. More of them count once in half a minute, or in `ci.look`.
AT_ONCE = 20


class Waits(GitFault):
    """What a build needs isn't there yet, as a landing that is late: this is looked at again soon."""


@dataclass
class Taken:
    """A build that was taken for a CI: the id of its take, the gate's reply, and the project of its change. `run` names
    the run that it is in, and `outcome` is how it ended. `is_held`: nothing is told of it."""
    take: str
    reply: Reply
    project: str
    run: str = ""
    outcome: str | None = None
    why: str = ""
    link: str = ""
    is_held: bool = False

    @property
    def build(self) -> Build:
        return build_of(self.reply)

    @property
    def key(self) -> str:
        return f"build {self.take}"


class CiQueue:
    """The builds of a queue. Its turns are taken by one thread at a time; `add` may be called by another one."""

    def __init__(self, queue: str, name: str, settings: Settings, gate: Gate, notes: Notes, trees: Trees,
                 statuses: Statuses, links: Links, beating: Beating, say: Callable[[str], None],
                 record: Callable[[Taken, Run | None], None], again: Callable[[str, Reply], None]) -> None:
        self.queue, self.name, self.settings, self.gate, self.notes = queue, name, settings, gate, notes
        self.trees, self.statuses, self.links, self.record, self.again = trees, statuses, links, record, again
        self.beating, self.tell = beating, say
        self.runs = Runs(queue, notes, {it.name: trees.repositories[it.name] for it in settings.projects_of(queue)},
                         lambda project, branch: statuses.delete(settings.projects[project].forge, branch))
        self.builds: dict[str, Taken] = {}
        self.looks: dict[str, Look] = {}
        # When each thing is looked at again, by its name, and what was said last of it.
        self.due: dict[str, float] = {}
        self.said: dict[str, str] = {}
        # Since when a build's changes aren't known.
        self.unknown: dict[str, float] = {}
        self.is_clear = False
        # How often hooks have had each run looked at.
        self.hooked, self.paces = threading.Lock(), Paces(AT_ONCE, min(LOOK, settings.ci.look))

    def add(self, it: Taken) -> None:
        """A build that was taken, and is noted."""
        self.looks[it.take] = Look(self.gate, it.reply, self.settings.look)
        self.looks[it.take].due = 0.0
        self.builds[it.take] = it
        self.beats(it)

    def beats(self, it: Taken) -> None:
        """The watch is told of a build that is here, and doesn't time one that is held."""
        self.beating.put(it.take, it.build.number, it.is_held)

    def counted(self) -> int:
        """How many builds it has that aren't held, and aren't kept for a fault before they are with the CI."""
        return sum(not it.is_held and not self.is_kept(it) for it in list(self.builds.values()))

    def is_kept(self, it: Taken) -> bool:
        run = self.runs.of(it.run)
        return (run is None or run.pushed is None) and (it.key in self.said or f"run {it.run}" in self.said)

    def look_at(self, commit: str) -> None:
        """A hook says that there is news of a commit. Whoever may set statuses can bring about very many."""
        for run in list(self.runs.all):
            with self.hooked:
                now = time.monotonic()
                if run.commit != commit or self.paces.waits(run.last, now):
                    continue
                self.paces.count(run.last, now)
            self.due.pop(f"run {run.last}", None)

    def turn(self) -> None:
        """One round over all that it has."""
        if not self.is_clear:
            self.attempt("earlier runs", self.clear)
        for it in list(self.builds.values()):
            self.attempt(it.key, partial(self.step, it))
        for run in list(self.runs.all):
            self.attempt(f"run {run.last}", partial(self.drive, run))

    def attempt(self, name: str, task: Callable[[], None]) -> None:
        """Does what is due; what is at fault is said once, and tried again at the next look."""
        if self.due.get(name, 0.0) > time.monotonic():
            return
        try:
            task()
        except FAULTS as fault:
            again = self.settings.pause if isinstance(fault, Waits) else self.settings.look
            self.due[name] = time.monotonic() + again
            self.say(name, " ".join(str(fault).split())[:1000])
        except Exception as fault:  # pylint: disable=broad-except
            self.due[name] = time.monotonic() + self.settings.look
            self.say(name, f"{type(fault).__name__}: {fault}"[:1000])
        else:
            self.said.pop(name, None)

    def say(self, name: str, what: str) -> None:
        if self.said.get(name) != what:
            it = self.builds.get(name.removeprefix("build "))
            self.tell(f"{f'build {it.build.number}' if it else name}: {what}")
        self.said[name] = what

    def clear(self) -> None:
        """Takes away what an earlier run has left there, once."""
        try:
            self.runs.clear(self.tell)
        except Declined as fault:
            self.tell(f"branches of earlier runs stay: {fault.words}")
        self.is_clear = True

    def step(self, it: Taken) -> None:
        """Begins a build, drops one that isn't wanted any more, or tells how it ended."""
        if it.outcome is not None:
            self.report(it)
            return
        look = self.looks[it.take]
        if time.monotonic() >= look.due and not look.wanted():
            self.tell(f"build {it.build.number}: not wanted any more")
            self.leave(it, is_useless=True)
        elif self.runs.of(it.run) is None:
            self.begin(it)

    def begin(self, it: Taken) -> None:
        """Makes a build's commit, and puts it into a run."""
        try:
            self.put_into_run(it)
        except Conflict as fault:
            self.end(it, Verdict("failure", str(fault)))
        except UnknownChange as fault:
            self.end(it, Verdict("lost", str(fault)))

    def put_into_run(self, it: Taken) -> None:
        build = it.build
        found = self.trees.look(build)
        if found.lacking or found.unknown:
            since = self.unknown.setdefault(it.take, time.monotonic())
            if found.unknown and time.monotonic() - since >= self.settings.look:
                raise UnknownChange(found.unknown[0])
            lacking = found.unknown + found.lacking
            raise Waits(f"waits: {', '.join(lacking[:3])}{' and more' if len(lacking) > 3 else ''}")
        heads = dict(found.past.heads)
        commits = self.trees.merge(build, found)
        self.trees.forget(build)
        run = self.runs.join(it.project, commits[it.project], build.job, build.number,
                             others_on_no_branch(commits, heads, it.project))
        it.run = run.last
        self.note(it)

    def drive(self, run: Run) -> None:
        """Pushes a run, looks at it, or takes it away."""
        builds = [it for it in self.builds.values() if it.run == run.last and it.outcome is None]
        if not builds and not any(it.run == run.last for it in self.builds.values()):
            self.take_away(run)
        elif run.pushed is None:
            self.push(run)
        elif builds:
            # A hook that comes meanwhile has it looked at once more.
            self.due[f"run {run.last}"] = time.monotonic() + self.settings.ci.look
            self.judge(run, builds)

    def push(self, run: Run) -> None:
        project = self.settings.projects[run.project]
        if run.status is None:
            mark = self.statuses.mark(project.forge, run.short, run.commit)
            run.status, run.run, run.checks = mark.status, mark.run, dict(mark.checks)
            self.runs.note(run)
        self.runs.push(run)
        self.tell(f"pushed {run.short} to {run.project}")

    def judge(self, run: Run, builds: list[Taken]) -> None:
        """Ends the builds of a run of which the forge says by now how their jobs ended."""
        now, project = Moment.now(), self.settings.projects[run.project]
        run.of_boot(now)
        seen = self.statuses.look(project.forge, run.short, run.commit, mark_of(run))
        names = {it.name for it in seen.reports}
        for it in builds:
            job = project.jobs.get(it.build.job)
            if job is None or not job.status:
                raise Unset(self.settings, self.queue, run.project, it.build.job)
            if job.status in names:
                self.has_come(run, job.status, now)
            wanted = Wanted(job.status, job.limit, self.settings.ci.begins, job.status in self.known(run.project))
            uncounted = [*seen.uncounted, *(["more statuses or check runs than are read"] if seen.is_cut else [])]
            verdict = judge(wanted, seen.reports, uncounted, run.age(now), run.came_for(job.status, now),
                            bool(seen.running))
            if verdict.is_over_limit:
                run.cancels = True
                self.runs.note(run)
            self.link(it, verdict.link or next((report.link for report in seen.reports if report.link
                                                and report.name == job.status), ""))
            if verdict.outcome is not None:
                self.end(it, verdict)
            elif it.is_held != verdict.is_held:
                it.is_held = verdict.is_held
                self.note(it)
                self.beats(it)
                self.tell(f"build {it.build.number}: " + (f"held: {verdict.why}" if it.is_held else "held no more"))

    def has_come(self, run: Run, name: str, now: Moment) -> None:
        if name not in run.came:
            run.came[name] = now.uptime
            self.runs.note(run)
        known = self.known(run.project)
        if name not in known:
            # Names that the settings have had are few.
            self.notes.put(f"known {run.project}", [*known, name][-100:])

    def known(self, project: str) -> list[str]:
        """The names of statuses that have come for a project."""
        names: list[str] = self.notes.get(f"known {project}") or []
        return names

    def link(self, it: Taken, link: str) -> None:
        if link and link != it.link:
            it.link = link
            self.note(it)
            build = it.build
            self.links.put(Link(build.number, build.change, build.revision, build.job, link))

    def end(self, it: Taken, verdict: Verdict) -> None:
        """Notes how a build ended, which is told once that is on disk."""
        ended = replace(it, outcome=verdict.outcome, why=verdict.why, is_held=False)
        self.record(ended, self.runs.of(it.run))
        self.note(ended)
        it.outcome, it.why, it.is_held = ended.outcome, ended.why, False
        self.tell(f"build {it.build.number}: {it.outcome}, {it.why}")
        self.due.pop(it.key, None)

    def note(self, it: Taken) -> None:
        self.notes.put(it.key, asdict(it))

    def leave(self, it: Taken, is_useless: bool = False) -> None:
        """A build is over here. Its run's branch goes once it was the last one."""
        run = self.runs.of(it.run)
        if run is not None:
            run.cancels |= is_useless
            self.runs.note(run)
        self.notes.drop(it.key)
        self.beating.drop(it.take)
        self.builds.pop(it.take, None)
        self.looks.pop(it.take, None)
        self.unknown.pop(it.take, None)
        self.due.pop(it.key, None)
        self.due.pop(f"run {it.run}", None)

    def report(self, it: Taken) -> None:
        """Tells how a build ended, unless the gate means another one by its take."""
        run = self.runs.of(it.run)
        told, answer = self.exchange(it, run.commit if run is not None else None)
        number = it.build.number
        if told:
            self.tell(f"build {number}: {it.outcome} was told, and answered {answer.reply or answer.code}")
        else:
            self.tell(f"build {number}: dropped, since the gate was restored without it")
        self.leave(it)
        if not told and answer.reply == "build":
            self.again(it.take, answer.said)

    def exchange(self, it: Taken, commit: str | None) -> tuple[bool, Answer]:
        """Sends the take again, and the result only if its reply is the same, as a worker does."""
        assert it.outcome is not None
        again = self.gate.post("worker", {"id": it.take, "kind": "take", "worker": self.name})
        if again.said != it.reply:
            return False, again
        return True, self.gate.post("worker", result_of(it.take, it.reply, it.outcome, commit))

    def take_away(self, run: Run) -> None:
        """Ends a run that no build is in any more: what still runs of it is cancelled if it is of no use. However long
        that takes, no build joins it from now on."""
        if not run.is_over:
            run.is_over = True
            self.runs.note(run)
        if run.cancels and run.status is not None:
            self.cancel(run)
            run.cancels = False
        try:
            self.runs.end(run)
        except Declined as fault:
            # It is tried again at the next start.
            self.tell(f"{run.short} stays in {run.project}: {fault.words}")
            self.runs.forget(run)
        self.due.pop(f"run {run.last}", None)

    def cancel(self, run: Run) -> None:
        """Cancels what still runs. A forge that can't say or do it has the branch taken away nevertheless."""
        forge = self.settings.projects[run.project].forge
        try:
            seen = self.statuses.look(forge, run.short, run.commit, mark_of(run))
            for number in seen.running:
                self.statuses.cancel(forge, number)
                self.tell(f"cancelled run {number} of {run.short}")
        except ForgeFault as fault:
            self.tell(f"what the CI runs of {run.short} can't be cancelled: {fault}")


def mark_of(run: Run) -> Mark:
    """What was there before a run was pushed."""
    return Mark(run.status or 0, run.run, run.checks)
