"""The branches and notes of a queue's projects, as its lander knows them and keeps them.

What was found whole is noted, so that a start reads what came since and no history. A note that isn't the lander's own
is set right from the branches, which nobody else may push to: whoever may push a note could stop a queue by it else.
"""
from __future__ import annotations

import time
from collections.abc import Mapping, Sequence
from concurrent.futures import ThreadPoolExecutor
from typing import Any

from companions.gate import say
from companions.landings import (Branch, Landed, Landing, Line, Note, first_name, first_text, in_order, lines_of,
                                 note_name, places_of, tag, text_of)
from companions.outbox import Notes
from companions.repository import GitFault, Repository, version
from companions.settings import Project

# So many notes are set right by one push.
MANY = 100


class Branches:
    """The branches of a queue's projects, and the landings that they have."""

    def __init__(self, queue: str, repositories: dict[str, Repository], projects: list[Project], notes: Notes) -> None:
        self.queue, self.repositories, self.projects, self.notes = queue, repositories, projects, notes
        # How many landings the branches have, where each project's branch was left, and which projects have a landing.
        self.noted = 0
        self.heads: dict[str, str] = {}
        self.landed: set[str] = set()

    def look(self) -> None:
        """Reads what the branches have by now, and sets the notes right."""
        with ThreadPoolExecutor(max_workers=len(self.projects)) as pool:
            tips = dict(pool.map(self.tip, self.projects))
            names = dict(pool.map(self.names, self.projects))
        self.read(tips, names)
        self.set_right(names)

    def tip(self, project: Project) -> tuple[str, str]:
        branch = f"refs/heads/{project.branch}"
        tip = self.repositories[project.name].ask(branch).get(branch)
        if tip is None:
            raise GitFault(f"{project.repository} has no branch {project.branch}")
        return project.name, tip

    def names(self, project: Project) -> tuple[str, dict[str, str]]:
        """The names of the queue's notes that a repository has, each with its object."""
        begin = f"refs/landings/{self.queue}"
        return project.name, self.repositories[project.name].listed(begin, f"{begin}/*")

    def read(self, tips: Mapping[str, str], names: Mapping[str, Mapping[str, str]]) -> None:
        """Reads the landings that the branches have and that aren't noted yet."""
        known = self.notes.get(f"whole {self.queue}")
        branches = {name: self.branch(name, tip, names[name]) for name, tip in tips.items()}
        if known is not None:
            bases = {name: known["heads"].get(name) for name in branches}
            lines = {name: self.later(it, bases[name]) for name, it in branches.items()}
        elif any(names.values()):
            lines = lines_of(branches.values())
            known = {"place": 0, "heads": {}, "landed": []}
        else:
            lines = {name: Line(tip) for name, tip in tips.items()}
            known = {"place": 0, "heads": {}, "landed": []}
        news = [it for it in in_order(lines.values()) if it.place > known["place"]]
        if [it.place for it in news] != list(range(known["place"] + 1, known["place"] + len(news) + 1)):
            raise GitFault(f"the branches of {self.queue} have landings at the places {cut([it.place for it in news])},"
                           f" after {known['place']} that are known: they have to be the next ones, each once")
        first = {f"first {self.queue} {name}": {"commit": line.base or tips[name], "note": None}
                 for name, line in lines.items() if name not in known["heads"]}
        heads = {name: known["heads"].get(name, line.base or tips[name]) for name, line in lines.items()}
        heads.update({it.project: it.commit for it in news})
        self.note(news, {}, first)
        self.keep(known["place"] + len(news), {**known["heads"], **heads},
                  {*known["landed"], *(it.project for it in news)})

    def branch(self, name: str, tip: str, names: Mapping[str, str]) -> Branch:
        """A project's branch. Its first note is read where it names a commit of the branch."""
        first = names.get(first_name(self.queue))
        if first is not None:
            asked = self.repositories[name].ask(first_name(self.queue)).get(first_name(self.queue))
            first = None if asked is None else self.repositories[name].commit(asked)
        return Branch(name, self.repositories[name], self.queue, tip, first, lambda: places_of(names, self.queue))

    def later(self, branch: Branch, head: str | None) -> Line:
        """What a branch has above the last landing that is noted; of a project that is new, above its first note."""
        if head is None:
            return branch.down() if branch.first is not None else Line(branch.tip)
        return Line(head, branch.up(head) or [])

    def note(self, landings: list[Landed], notes: Mapping[int, str], more: Mapping[str, object]) -> None:
        """Notes landings, each with its note's object where that is known."""
        self.notes.put_all({**{self.row(it.place): [it.project, it.commit, it.parent, it.change, it.revision,
                                                    notes.get(it.place)] for it in landings}, **more})

    def row(self, place: int) -> str:
        return f"landing {self.queue} {place:06d}"

    def keep(self, place: int, heads: dict[str, str], landed: set[str]) -> None:
        """Notes up to which place all is whole. It comes last: what was noted before it is noted again."""
        self.notes.put(f"whole {self.queue}", {"place": place, "heads": heads, "landed": sorted(landed)})
        self.noted, self.landed = place, landed
        self.heads = {it.name: heads[it.name] for it in self.projects}

    def at(self, place: int) -> Landed:
        """The landing at a place, from 1."""
        project, commit, parent, change, revision, _ = self.notes.get(self.row(place))
        return Landed(place, project, commit, parent, change, revision)

    def file(self) -> str | None:
        """The gate's file by which the branches were landed, by the id of its first delivery, as far as it is known."""
        known: str | None = self.notes.get(f"file {self.queue}")
        for place in range(self.noted, 0, -1) if known is None else ():
            project, commit, *_, note = self.notes.get(self.row(place))
            repository = self.repositories[project]
            landing = Landing.read(repository.message(commit))
            known = Note.read(text_of(repository, note)).first or (landing.first if landing else None)
            if known is not None:
                self.notes.put(f"file {self.queue}", known)
                break
        return known

    def set_right(self, names: Mapping[str, Mapping[str, str]]) -> None:
        """Makes the notes there what they have to be, and says which weren't."""
        rows = {int(name.rpartition(" ")[2]): row for name, row in self.notes.all(f"landing {self.queue} ").items()}
        for project in self.projects:
            there = names[project.name]
            own = {place: row for place, row in rows.items() if row[0] == project.name and place <= self.noted}
            peeled = self.peeled(project.name, [note_name(self.queue, it) for it in own if own[it][5] is None], there)
            right = {place: self.right(project.name, place, row, there.get(note_name(self.queue, place)), peeled)
                     for place, row in own.items()}
            self.note([Landed(place, *row[:5]) for place, row in own.items() if row[5] != right[place]], right, {})
            wanted = {note_name(self.queue, place): note for place, note in right.items()}
            self.take_away(project.name, {it: there[it] for it in there
                                          if it not in wanted and it != first_name(self.queue)})
            self.push(project.name, {it: (there.get(it), note) for it, note in wanted.items() if there.get(it) != note})
            self.set_first_right(project.name, there.get(first_name(self.queue)))

    def peeled(self, project: str, unknown: list[str], names: Mapping[str, str]) -> dict[str, str]:
        """The commits of the notes that are there and aren't known here: these are many only after an upgrade."""
        repository, folder = self.repositories[project], f"refs/landings/{self.queue}"
        if any(it in names for it in unknown):
            repository.fetch(f"{folder}/*")
        listed = repository.git("for-each-ref", "--format=%(objectname) %(*objectname)", folder)
        return {it: commit or it for it, _, commit in (line.partition(" ") for line in listed.splitlines())}

    def right(self, project: str, place: int, row: list[Any], there: str | None, peeled: Mapping[str, str]) -> str:
        """The object that a landing's note has to name: the one that it did, or else one that is at its commit."""
        repository, commit, note = self.repositories[project], row[1], row[5]
        if note is not None and (note == there or repository.commit(note) == commit):
            return str(note)
        if note is None and there is not None and peeled.get(there) == commit:
            return there
        return self.made(project, commit, note_name(self.queue, place), Note(None, None).text)

    def made(self, project: str, commit: str, name: str, text: str) -> str:
        repository = self.repositories[project]
        return repository.write("tag", tag(commit, name[len("refs/landings/"):], repository.author, int(time.time()),
                                           text))

    def set_first_right(self, project: str, there: str | None) -> None:
        """Makes a project's first note what it has to be: it says with which author and by which git is merged."""
        name, repository = f"first {self.queue} {project}", self.repositories[project]
        known, text = self.notes.get(name), first_text(repository.author, version())
        if known["note"] is not None and known["note"] == there and known.get("text") == text:
            return
        note = self.made(project, known["commit"], first_name(self.queue), text)
        self.push(project, {first_name(self.queue): (there, note)},
                  is_told=known["note"] is not None and known.get("text") == text)
        self.notes.put(name, {"commit": known["commit"], "note": note, "text": text})

    def take_away(self, project: str, strays: Mapping[str, str]) -> None:
        """Takes away names that nobody but the lander may give, and that it didn't."""
        for name, there in strays.items():
            self.repositories[project].take_away(name, there)
        if strays:
            say("lander", f"{self.queue}: taken away in {project}, as no landing of the branch: {cut(sorted(strays))}")

    def push(self, project: str, updates: Mapping[str, tuple[str | None, str]], is_told: bool = True) -> None:
        names = sorted(updates)
        for at in range(0, len(names), MANY):
            if not self.repositories[project].push({it: updates[it] for it in names[at:at + MANY]}):
                raise GitFault(f"the notes of {self.queue} in {project} move while they are set right")
        if names and is_told:
            say("lander", f"{self.queue}: set right in {project}, by the branch: {cut(names)}")

    def past(self) -> str | None:
        """What was pushed past the gate, asked of all projects at once; none where each is as its landings left it."""
        with ThreadPoolExecutor(max_workers=len(self.projects)) as pool:
            tips = dict(pool.map(self.now, self.projects))
        for it in self.projects:
            if tips[it.name] != self.heads[it.name]:
                return (f"{it.branch} of {it.name} is at {tips[it.name]}, and the last landing left"
                        f" {self.heads[it.name]}: take back what was pushed past the gate")
        return None

    def now(self, project: Project) -> tuple[str, str | None]:
        branch = f"refs/heads/{project.branch}"
        return project.name, self.repositories[project.name].listed(branch).get(branch)

    def others(self, project: str) -> dict[str, str]:
        """The heads of the queue's other projects that have a landing."""
        return {name: head for name, head in self.heads.items() if name != project and name in self.landed}

    def moved(self, landed: Landed, note: str, first: str) -> None:
        """One more landing is pushed, by the file of the gate with this first delivery."""
        self.note([landed], {landed.place: note}, {f"file {self.queue}": first})
        known = self.notes.get(f"whole {self.queue}")
        self.keep(landed.place, {**known["heads"], landed.project: landed.commit}, {*self.landed, landed.project})


def cut(them: Sequence[object]) -> str:
    """The first ones of a list as a text."""
    return ", ".join(map(str, them[:3])) + (f" and {len(them) - 3} more" if len(them) > 3 else "")
