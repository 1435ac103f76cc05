"""Checks landings afterwards: from the repositories, the gate's log and its items, that each landed what was tested.

    python3 -m companions.evidence companions.toml QUEUE [FROM [TO]] [--file COPY] [--json]

It prints a line for each landing, and ends with 0 only if all hold. It asks as the account `standby`. Which voting jobs
an item had the gate doesn't say once that is gone: the lander's note lists them. With `--file` they are those of a copy
of the gate's file.
"""
from __future__ import annotations

import argparse
import json
import re
import sqlite3
import sys
import uuid
from collections.abc import Iterable, Mapping
from contextlib import closing
from dataclasses import asdict, dataclass, field
from functools import partial
from pathlib import Path
from typing import Any

from companions.command_line import CommandLine
from companions.gate import Gate, NoAnswer, expected, say
from companions.ids import revision_id, success_id
from companions.landings import (Branch, Landed, Landing, Note, first_name, in_order, lines_of, note_name, places_of,
                                 text_of)
from companions.merging import Merge
from companions.reader import SettingsFault
from companions.repository import REVISION, GitFault, Repository
from companions.settings import Settings, read

# So many lines has an answer of the gate at most.
PAGE = 1000
COMMITTER = re.compile(rb"^committer ([^\n]*) \d+ \+0000$", re.MULTILINE)


@dataclass
class Found:
    """What was found of a landing: how its jobs were shown, what else is to be said of it, and what differs."""
    place: int
    project: str
    change: int
    revision: int
    commit: str
    jobs: dict[str, int] = field(default_factory=dict)
    remark: str | None = None
    differs: list[str] = field(default_factory=list)

    def __str__(self) -> str:
        shown = ", ".join(f"{job} by build {build}" for job, build in self.jobs.items())
        said = f"DIFFERS: {'; '.join(self.differs)}" if self.differs else self.remark or f"holds: {shown}"
        return (f"{self.place} {self.project}: change {self.change}, revision {self.revision}, {self.commit[:12]}:"
                f" {said}")


@dataclass(frozen=True)
class Log:
    """What of the gate's log is asked for: the revisions and the successes that it has accepted, by their ids."""
    first: str | None
    revisions: Mapping[str, tuple[int, int]]
    successes: Mapping[str, int]

    @staticmethod
    def of(gate: Gate) -> Log:
        """Reads the log, once."""
        first, revisions, successes = None, dict[str, tuple[int, int]](), dict[str, int]()
        path = "/deliveries"
        while True:
            lines = gate.lines(path) or []
            with expected(path):
                for said in map(json.loads, lines):
                    identity = str(uuid.UUID(said["id"]))
                    first = first or identity
                    if said["kind"] == "revision":
                        revisions[identity] = said["change"], said["revision"]
                    elif said["kind"] == "result" and said["outcome"] == "success":
                        successes[identity] = said["build"]
            if len(lines) < PAGE:
                return Log(first, revisions, successes)
            path = f"/deliveries/{identity}"


class Evidence:
    """What a queue has landed, as its repositories and the gate have it."""

    def __init__(self, settings: Settings, queue: str, gate: Gate, file: Path | None) -> None:
        self.queue, self.gate, self.file = queue, gate, file
        self.projects = settings.projects_of(queue)
        self.repositories = {it.name: Repository(it.repository, settings.folder / "evidence" / it.name, settings.author)
                             for it in self.projects}
        self.notes: dict[str, dict[str, str]] = {}
        self.orders: dict[int, tuple[int, int, int]] = {}

    def read(self) -> list[Landed]:
        """The queue's landings, in order. The branches are read before the gate, which hears of a landing later."""
        branches = []
        for project in self.projects:
            repository, branch = self.repositories[project.name], f"refs/heads/{project.branch}"
            repository.unlock()
            self.notes[project.name] = notes = repository.listed(f"refs/landings/{self.queue}/*")
            tip = repository.ask(branch)[branch]
            repository.git("fetch", "--quiet", "--no-tags", "--prune", repository.address,
                           f"+refs/landings/{self.queue}/*:refs/landings/{self.queue}/*")
            first = notes.get(first_name(self.queue))
            branches.append(Branch(project.name, repository, self.queue, tip, first and repository.commit(first),
                                   partial(places_of, notes, self.queue)))
        landings = in_order(lines_of(branches).values())
        if [it.place for it in landings] != list(range(1, len(landings) + 1)):
            places = ", ".join(str(it.place) for it in landings)[:200]
            raise GitFault(f"the branches of {self.queue} have landings at the places {places}: they have to be 1 to"
                           f" {len(landings)}")
        self.log, self.orders = Log.of(self.gate), self.read_history()
        return landings

    def read_history(self) -> dict[int, tuple[int, int, int]]:
        """Of each landing, by its place, its order, change and revision, as the gate has them."""
        found, at = dict[int, tuple[int, int, int]](), 1
        while True:
            path = f"/history/{self.queue}/{at}"
            with expected(path):
                rows = [line.split() for line in (self.gate.lines(path) or [])[1:]]
                found.update({int(row[5]): (int(row[1]), int(row[2]), int(row[3])) for row in rows if row[5] != "-"})
            if len(rows) < PAGE:
                return found
            at += len(rows)

    def check(self, start: int, end: int | None) -> list[Found]:
        """What is found of each landing from one place to another."""
        heads: dict[str, str] = {}
        found = []
        landings = self.read()
        for it in landings:
            if it.place >= start and (end is None or it.place <= end):
                others = {name: head for name, head in heads.items() if name != it.project}
                found.append(self.check_one(it, heads.get(it.project), others))
            heads[it.project] = it.commit
        lacking = [it for it in self.orders if max(start, len(landings) + 1) <= it and (end is None or it <= end)]
        return found + [Found(it, "none", *self.orders[it][1:], "no commit",
                              differs=["the gate has this landing, and no branch does"]) for it in lacking]

    def check_one(self, it: Landed, before: str | None, others: Mapping[str, str]) -> Found:
        found = Found(it.place, it.project, it.change, it.revision, it.commit)
        repository = self.repositories[it.project]
        order, *which = self.orders.get(it.place, (None, None, None))
        if which != [it.change, it.revision]:
            found.differs.append(f"the gate has change {which[0]}, revision {which[1]}, as this landing" if order else
                                 "the gate doesn't have this landing")
        landing = Landing.read(repository.message(it.commit))
        if landing is None or landing.place is None:
            found.remark = "of an earlier version, whose landings show no tests"
            return found
        if before not in (None, it.parent):
            found.differs.append(f"its first parent is {it.parent}, and the landing before is {before}")
        self.check_commit(it, others, found)
        if order is not None:
            self.check_jobs(it, order, found)
        return found

    def check_commit(self, it: Landed, others: Mapping[str, str], found: Found) -> None:
        """The commit is the one that the function gives, and what it merges was approved."""
        repository = self.repositories[it.project]
        content, name = repository.content(it.commit), REVISION.format(change=it.change, revision=it.revision)
        landing = Landing.read(repository.message(it.commit))
        if landing is not None and landing.commit is not None:
            # Its past isn't in the branch. What was told of it is a tag, by whose id its message is checked too.
            merged = repository.ask(name, keep=True).get(name)
            if merged is None:
                found.differs.append(f"{name}, which was squashed, is gone, so what was merged can't be seen")
                return
        else:
            merged = repository.git("rev-parse", f"{it.commit}^2").strip()
        committer = COMMITTER.search(content.partition(b"\n\n")[0])
        who = committer[1].decode("utf-8", "replace") if committer else repository.author
        what = Merge(self.queue, it.place, it.change, it.revision, repository.parent(it.parent),
                     repository.parent(merged), others, who)
        tree = repository.merge_trees(it.parent, what.commit.hash).tree
        if tree is None or what.content(tree) != content:
            found.differs.append("its commit isn't the one that these merge to")
        path = f"/changes/{it.change}"
        with expected(path):
            known = self.gate.change(it.change)
            needs = [int(need["change"]) for need in known["needs"]] if known else []
        told = self.log.revisions.get(revision_id(str(self.log.first), it.change, it.revision, merged, needs))
        if told != (it.change, it.revision):
            found.differs.append(f"the gate wasn't told {merged} as revision {it.revision} of change {it.change}")
        there = repository.ask(name).get(name, merged)
        if there != merged:
            found.differs.append(f"{name} is at {there}, and {merged} has landed")

    def check_jobs(self, it: Landed, order: int, found: Found) -> None:
        """Each voting job has an accepted success of this very commit."""
        name, repository = note_name(self.queue, it.place), self.repositories[it.project]
        there = self.notes[it.project].get(name)
        if there is None or repository.commit(there) != it.commit:
            found.differs.append(f"its note, {name}, is {'gone' if there is None else 'at another commit'}")
            note = Note(None, None)
        else:
            note = Note.read(text_of(repository, there))
        jobs = self.jobs_of(order) if self.file else None
        if note.first is not None and note.proofs is None:
            found.remark = "its project has evidence = false, so its tests weren't asked for"
            return
        listed = {proof.job for proof in note.proofs or ()}
        if jobs is None and note.proofs is None:
            found.differs.append("its note was made anew, so only --file has its jobs")
        elif jobs is not None and note.proofs is not None and jobs != listed:
            found.differs.append(f"its note lists the jobs {words(listed)}, and its item had {words(jobs)}")
        self.check_builds(it, order, sorted(jobs if jobs is not None else listed), found)

    def check_builds(self, it: Landed, order: int, jobs: Iterable[str], found: Found) -> None:
        path = f"/items/{order}"
        said = self.gate.json(path)
        with expected(path):
            live = [] if said is None else [(str(build["job"]), int(build["build"])) for build in said["builds"]
                                            if build["live"] and build["outcome"] == "success"]
        for job in jobs:
            builds = [build for of, build in live if of == job]
            shown = [build for build in builds if self.log.successes.get(
                success_id(build, self.queue, it.change, it.revision, job, it.commit)) == build]
            if shown:
                found.jobs[job] = shown[0]
            else:
                found.differs.append(f"{job} has no success of this commit (live successful builds:"
                                     f" {words(builds)})")

    def jobs_of(self, order: int) -> set[str]:
        """The voting jobs that an item was admitted with, by a copy of the gate's file."""
        with closing(sqlite3.connect(f"file:{self.file}?mode=ro&immutable=1", uri=True)) as tables:
            rows = tables.execute("SELECT name FROM item_job WHERE serial = ? AND voting = 1", (order,)).fetchall()
        return {row[0] for row in rows}


def words(them: Iterable[object]) -> str:
    return ", ".join(sorted(map(str, them))) or "none"


def last_line(queue: str, found: list[Found], file: Path | None) -> str:
    holds = sum(not it.differs for it in found)
    by = f"their jobs are those of {file}" if file else "which jobs they had is the lander's word"
    return f"{queue}: {holds} of {len(found)} landings hold; {by}"


def main(given: list[str]) -> int:
    them = CommandLine("evidence", __doc__)
    them.add_settings()
    them.add_argument("queue", metavar="QUEUE", help="the queue that has landed them")
    them.add_argument("start", type=int, nargs="?", default=1, metavar="FROM", help="the first landing's place")
    them.add_argument("end", type=int, nargs="?", metavar="TO", help="the last landing's place")
    them.add_argument("--file", type=Path, metavar="COPY", help="a copy of the gate's file, for the jobs of each item")
    them.add_argument("--json", action="store_true", help="print JSON in place of lines")
    return them.run(given, begin)


def begin(asked: argparse.Namespace) -> int:
    try:
        settings = read(asked.settings)
        if not settings.projects_of(asked.queue):
            raise SettingsFault(f"{asked.settings}: no project has the queue {asked.queue}")
        gate = Gate(settings.url, settings.account("standby"), part="evidence")
        found = Evidence(settings, asked.queue, gate, asked.file).check(asked.start, asked.end)
    except (SettingsFault, GitFault, NoAnswer, OSError, sqlite3.Error) as fault:
        say("evidence", str(fault))
        return 1
    if asked.json:
        table: dict[str, Any] = {"queue": asked.queue, "file": asked.file and str(asked.file),
                                 "landings": [asdict(it) for it in found]}
        print(json.dumps(table))
    else:
        for it in found:
            print(f"{asked.queue} {it}")
        print(last_line(asked.queue, found, asked.file))
    return 1 if any(it.differs for it in found) else 0


if __name__ == "__main__":
    sys.exit(main(sys.argv[1:]))
