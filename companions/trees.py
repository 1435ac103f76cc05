"""The trees of a build: of each project of its queue what will be there once the changes ahead and its own landed.

They are made by the merges that the lander makes, in the same order on the same heads, so that the very commit that is
tested lands. docs/CONNECTING.md ("Trees") has what a build names.
"""
from __future__ import annotations

import time
import urllib.parse
from collections.abc import Callable, Iterable, Mapping
from dataclasses import dataclass, field
from pathlib import Path
from typing import Any

from companions.aside import clear, clear_aside
from companions.checkout import check_out, forget_earlier
from companions.conflicts import Conflict, cause_of
from companions.gate import NoAnswer
from companions.landings import Branch, Line, author_of, first_name, in_order, lines_of, places_of, text_of
from companions.lfs import LargeFiles
from companions.merging import Merge
from companions.outbox import Notes
from companions.reader import SettingsFault
from companions.repository import REVISION, GitFault, Repository
from companions.settings import Settings

# So many revisions' names are kept in a mirror.
KEPT = 500


@dataclass(frozen=True)
class Build:
    """What a reply `build` tells a worker to run."""
    number: int
    queue: str
    change: int
    revision: int
    job: str
    after: int
    ahead: list[tuple[int, int]]

    @property
    def changes(self) -> list[tuple[int, int]]:
        """The changes that are merged, with their revisions, in order: its own is the last."""
        return [*self.ahead, (self.change, self.revision)]

    def __str__(self) -> str:
        return (f"build {self.number}: change {self.change}, revision {self.revision}, job {self.job}, "
                f"queue {self.queue}")


def build_of(reply: dict[str, Any]) -> Build:
    return Build(reply["build"], reply["queue"], reply["change"], reply["revision"], reply["job"], reply["after"],
                 [(change, revision) for change, revision in reply["ahead"]])


def revision_name(change: tuple[int, int]) -> str:
    """The name that a repository has for a change at a revision."""
    return REVISION.format(change=change[0], revision=change[1])


@dataclass(frozen=True)
class Made:
    """Trees on disk: where, whose change is built, and of each project the commit and its tree's hash.

    Beside their folder is the build's own, which has nothing of the changes.
    """
    folder: Path
    project: str
    commits: dict[str, str]
    trees: dict[str, str]

    @property
    def own(self) -> Path:
        """Where a sandbox has its folders."""
        return self.folder.parent / "own"

    @property
    def commit(self) -> str:
        """The landing commit of the change that is built."""
        return self.commits[self.project]


class UnknownChange(Exception):
    """The gate doesn't know a change, or its repository doesn't have the revision."""


class Unset(Exception):
    """The settings lack what a build needs, by its queue, and the project and the job as far as they matter."""

    def __init__(self, settings: Settings, *lacking: str) -> None:
        super().__init__(settings.lacking(*lacking))
        self.lacking = lacking


class Unreadable(GitFault):
    """The repository of a project can't be read, where it is or on this machine."""

    def __init__(self, project: str, said: str) -> None:
        super().__init__(said)
        self.project = project


@dataclass
class Past:
    """What was found of a queue's landings: all up to a place, each project's last commit by then, as far as that is
    known, and which projects have a landing."""
    place: int = 0
    heads: dict[str, str] = field(default_factory=dict)
    landed: set[str] = field(default_factory=set)


@dataclass
class Found:
    """What a look found of what a build needs: of each change its project and commit; and what it lacks.

    What is lacking is waited for. What is unknown is, for a while, since somebody may be about to tell it.
    """
    past: Past
    homes: dict[tuple[int, int], tuple[str, str]] = field(default_factory=dict)
    lacking: list[str] = field(default_factory=list)
    unknown: list[str] = field(default_factory=list)


Wait = Callable[[str], None]


class Trees:
    """Makes trees, one build's at a time, from mirrors that one worker has for itself."""

    def __init__(self, settings: Settings, folder: Path, notes: Notes, mark: str,
                 project_of: Callable[[int], str | None]) -> None:
        """`project_of` asks the gate for a change's project."""
        self.settings, self.notes, self.project_of = settings, notes, project_of
        self.folder, self.aside = folder / "trees", folder / "aside"
        self.repositories: dict[str, Repository] = {}
        self.projects: dict[int, str] = {}
        name, _, value = mark.partition("=")
        for project in settings.projects.values():
            mirror = folder / "mirrors" / urllib.parse.quote(project.name, safe="")
            self.repositories[project.name] = Repository(project.repository, mirror, settings.author, {name: value})
            for other in settings.projects_of(project.queue):
                if other.name.startswith(f"{project.name}/"):
                    raise SettingsFault(f"the tree of project {other.name} would stand in that of {project.name}: give "
                                        f"them queues of their own")

    def begin(self) -> list[str]:
        """Removes what a worker has left that was killed: nobody else uses its mirrors. What stays is to be said."""
        for repository in self.repositories.values():
            repository.unlock()
            forget_earlier(repository)
        return [*clear_aside(self.aside), *self.remove()]

    def remove(self) -> list[str]:
        """Removes the trees that were made. What can't be removed is set aside, which is to be said."""
        return clear(self.folder, self.aside)

    def make(self, build: Build, name: str, wait: Wait, patience: float) -> Made:
        """Makes a build's trees below a folder of this name.

        `wait` is called with what is waited for, before each further look. `Conflict` where a change can't be merged,
        `Lacking` where files of it can't be had, `UnknownChange` where no repository has one of them after `patience`
        seconds, `Unset` where the settings lack what is needed, `Unreadable` where a repository can't be read, another
        `GitFault` or `OSError` where the machine is at fault.
        """
        found = self.gather(build, wait, patience)
        commits = self.merge(build, found)
        self.forget(build)
        folder, trees = self.folder / name / "trees", {}
        for project, commit in commits.items():
            check_out(self.repositories[project], folder / project, commit)
            trees[project] = self.repositories[project].tree(commit)
            if "lfs" in self.settings.filters:
                self.fill(project, folder / project, commit)
        return Made(folder, found.homes[build.changes[-1]][0], commits, trees)

    def fill(self, project: str, place: Path, commit: str) -> None:
        """Puts the files that git-lfs keeps into a tree."""
        try:
            LargeFiles(self.repositories[project], self.settings.space).fill(place, commit)
        except GitFault as fault:
            raise Unreadable(project, str(fault)) from fault

    def objects(self, projects: Iterable[str]) -> tuple[Path, ...]:
        """The objects that the trees of projects read."""
        return tuple((self.repositories[it].mirror / "objects").resolve() for it in projects)

    def merge(self, build: Build, found: Found) -> dict[str, str]:
        """Each project's commit, once the build's changes are merged in their order: their landing commits."""
        commits, known = dict(found.past.heads), set(found.past.landed)
        ahead: dict[str, list[tuple[int, str]]] = {}
        for place, (change, revision) in enumerate(build.changes, build.after + 1):
            project, commit = found.homes[change, revision]
            repository = self.repositories[project]
            others = {name: commits[name] for name in known if name != project}
            what = Merge(build.queue, place, change, revision, repository.parent(commits[project]),
                         repository.parent(commit), others, self.settings.author)
            merged = repository.merge(what)
            if merged is None:
                cause = cause_of(repository, commits[project], what.commit.hash, ahead.get(project, []))
                raise Conflict((change, revision), project, change == build.change, cause)
            ahead.setdefault(project, []).append((change, merged))
            commits[project] = merged
            known.add(project)
        return commits

    def gather(self, build: Build, wait: Wait, patience: float) -> Found:
        """Fetches what a build needs, and waits for what isn't there.

        Landings may be late, and the gate may be away: both are waited for as long as the build is wanted, since builds
        that are lost for that would count against their changes.
        """
        if self.settings.lacking(build.queue, "", "") is not None:
            raise Unset(self.settings, build.queue, "", "")
        begin = time.monotonic()
        while True:
            try:
                found = self.look(build)
            except Unreadable:
                raise
            except (GitFault, NoAnswer) as fault:
                wait(str(fault))
                continue
            if not found.lacking and not found.unknown:
                return found
            if found.unknown and time.monotonic() - begin >= patience:
                raise UnknownChange(found.unknown[0])
            lacking = found.unknown + found.lacking
            wait(f"waits: {', '.join(lacking[:3])}{' and more' if len(lacking) > 3 else ''}")

    def look(self, build: Build) -> Found:
        """Asks each project's repository, by exact names, for what a build needs.

        Whoever may push could have moved a revision's name meanwhile, and it may be right again: so it is asked for at
        each look, in the repository of the project that the gate names and in no other one.
        """
        found, wanted = Found(Past()), self.homes(build)
        past = self.noted(build.queue, build.after)
        projects = self.settings.projects_of(build.queue)
        is_known = past is not None and past.place == build.after and all(it.name in past.heads for it in projects)
        asked: dict[str, dict[str, str]] = {}
        for project in projects:
            names = [revision_name(it) for it, name in wanted.items() if name == project.name]
            names += [] if is_known else [f"refs/heads/{project.branch}", first_name(build.queue)]
            asked[project.name] = self.ask(project.name, names) if names else {}
        for it, name in wanted.items():
            if name is None:
                found.unknown.append(f"the gate doesn't know change {it[0]}")
            elif name not in asked:
                raise Unset(self.settings, build.queue, name, "")
            elif revision_name(it) in asked[name]:
                found.homes[it] = name, asked[name][revision_name(it)]
            else:
                found.unknown.append(f"{self.repositories[name].address} has no {revision_name(it)}")
                self.projects.pop(it[0], None)
        found.past = past if past is not None and is_known else self.read(build, past, asked, found)
        return found

    def ask(self, project: str, names: list[str]) -> dict[str, str]:
        """What a repository has under these names. They stay here."""
        try:
            return self.repositories[project].ask(*names, keep=True)
        except GitFault as fault:
            raise Unreadable(project, str(fault)) from fault

    def homes(self, build: Build) -> dict[tuple[int, int], str | None]:
        """The projects of a build's changes, as the gate names them: it is asked once a change."""
        for change, _ in build.changes:
            if change not in self.projects:
                project = self.project_of(change)
                if project is not None:
                    self.projects[change] = project
        return {it: self.projects.get(it[0]) for it in build.changes}

    def noted(self, queue: str, after: int) -> Past | None:
        """What is noted of a queue's landings, unless it is too new, since a restored gate comes from behind."""
        noted = self.notes.get(f"past {queue}")
        if noted is None or "landed" not in noted or noted["place"] > after:
            return None
        return Past(noted["place"], noted["heads"], set(noted["landed"]))

    def read(self, build: Build, past: Past | None, asked: Mapping[str, Mapping[str, str]], found: Found) -> Past:
        """Reads the landings up to `after` from the branches, which nobody but the lander moves, and notes them."""
        queue, branches = build.queue, []
        for project in self.settings.projects_of(queue):
            repository, first = self.repositories[project.name], asked[project.name].get(first_name(queue))
            self.compare_author(repository, first, found)
            branches.append(Branch(project.name, repository, queue, asked[project.name][f"refs/heads/{project.branch}"],
                                   first and repository.commit(first), self.places(repository, queue)))
        lines = self.later(branches, past)
        if past is None or lines is None:
            past, lines = Past(), lines_of(branches, build.after)
        landings = [it for it in in_order(lines.values()) if past.place < it.place <= build.after]
        for branch in branches:
            base = base_of(branch, lines[branch.project])
            if branch.project not in past.heads and base is not None:
                past.heads[branch.project] = base
        for it in landings:
            if it.place == past.place + 1:
                past.place, past.heads[it.project] = it.place, it.commit
                past.landed.add(it.project)
        missing = set(range(past.place + 1, build.after + 1)) - {it.place for it in landings}
        found.lacking += [f"no branch of the queue {queue} has its landing {place}" for place in sorted(missing)[:3]]
        if past.place < build.after and not missing:
            found.lacking.append(f"the branches of the queue {queue} have a landing twice behind {past.place}")
        found.lacking += [f"the branch of {it.project} isn't at its first note, {first_name(queue)}"
                          for it in branches if it.project not in past.heads]
        self.notes.put(f"past {queue}", {"place": past.place, "heads": past.heads, "landed": sorted(past.landed)})
        return past

    def later(self, branches: list[Branch], past: Past | None) -> dict[str, Line] | None:
        """What the branches have above what is noted; none where that isn't in them."""
        lines = {}
        for branch in branches if past is not None else ():
            head = past.heads.get(branch.project) if past is not None else None
            above = branch.up(head) if head is not None else branch.down().landings
            if above is None:
                return None
            lines[branch.project] = Line(head or (above[0].parent if above else None), above)
        return lines

    def places(self, repository: Repository, queue: str) -> Callable[[], Mapping[str, int]]:
        """The places of landings in the form of an earlier version: they are asked for where there is one."""
        found: dict[str, int] = {}

        def ask() -> Mapping[str, int]:
            if not found:
                found.update(places_of(repository.listed(f"refs/landings/{queue}/*"), queue))
            return found
        return ask

    def compare_author(self, repository: Repository, first: str | None, found: Found) -> None:
        """Whoever merges with another author makes other commits."""
        differs = self.differs(repository, first)
        if differs is not None:
            found.lacking.append(differs)

    def differs(self, repository: Repository, first: str | None) -> str | None:
        """What to say where the lander has another author than the settings, by a first note's object."""
        author = None if first is None else author_of(text_of(repository, first))
        if author in (None, self.settings.author):
            return None
        return f"lander.author is {self.settings.author} here, and {author} where the lander runs: make them the same"

    def other_author(self) -> str | None:
        """What to say where a lander has another author than the settings. A repository that is away says nothing."""
        for project in self.settings.projects.values():
            repository, name = self.repositories[project.name], first_name(project.queue)
            try:
                differs = self.differs(repository, repository.ask(name).get(name))
            except GitFault:
                continue
            if differs is not None:
                return differs
        return None

    def forget(self, build: Build) -> None:
        """Drops the revisions' names from a mirror that has too many: what is built again is fetched again."""
        used = {revision_name(it) for it in build.changes}
        for project in self.settings.projects_of(build.queue):
            names = self.repositories[project.name].names("refs/changes")
            if len(names) > KEPT:
                self.repositories[project.name].drop(*(it for it in names if it not in used))


def base_of(branch: Branch, line: Line) -> str | None:
    """What a project without a landing is for a build: what its first landing will be merged onto.

    That is the first note's commit if the branch is still there, since others than the lander may push notes.
    """
    if line.landings:
        return line.landings[0].parent
    return branch.first if branch.first == branch.tip else None
