"""A queue's landings as its repositories have them: the landing commits of the protected branches, and a note at each.

The branches alone tell all landings, in their order. A note has what no commit has: the gate's file, the order, and the
evidence. Nothing of a branch is ever set back: whatever becomes of the gate's file, these are the landings that stand.
"""
from __future__ import annotations

import re
from collections.abc import Callable, Iterable, Mapping
from dataclasses import dataclass, field

from companions.gate import Order
from companions.repository import FIRST_HEADS, LANDING, PAGE, Commit, GitFault, Repository

NUMBER = "[1-9][0-9]{0,14}"
# The form of now: docs/CONNECTING.md ("The landing commit").
FORM = re.compile(rf"Land change {NUMBER}(?:: [^\n]*)?\n\nGate-Queue: (?P<queue>\S+)\nGate-Place: (?P<place>{NUMBER})\n"
                  rf"Gate-Change: (?P<change>{NUMBER})\nGate-Revision: (?P<revision>{NUMBER})\n"
                  r"(?:Gate-With: \S+ [0-9a-f]{40,64}\n)*")
# The last paragraph of a change that landed as one commit: what people wrote stands above, whatever it looks like.
SQUASHED = re.compile(rf"\n\nGate-Queue: (?P<queue>\S+)\nGate-Place: (?P<place>{NUMBER})\n"
                      rf"Gate-Change: (?P<change>{NUMBER})\nGate-Revision: (?P<revision>{NUMBER})\n"
                      r"Gate-Commit: (?P<commit>[0-9a-f]{40,64})\n(?:Gate-With: \S+ [0-9a-f]{40,64}\n)*")
# The form before, whose place its note's name has, and whose commit has what is in the note by now.
EARLIER = re.compile(rf"Land change {NUMBER}: [^\n]*\n\nGate-File: (?P<first>\S+)\nGate-Queue: (?P<queue>\S+)\n"
                     rf"Gate-Order: {NUMBER}\nGate-Change: (?P<change>{NUMBER})\n"
                     rf"Gate-Revision: (?P<revision>{NUMBER})\n?")
# The most bytes that a note has.
NOTE = 65_536
TRAILER = re.compile(r"^Gate-(\w+): ([^\n]+)$", re.MULTILINE)


@dataclass(frozen=True)
class Landing:
    """What a commit of a branch says that it lands.

    One of the form before has no place, and the gate's file, by the id of its first accepted delivery. One that was
    squashed names the commit of its revision.
    """
    queue: str
    change: int
    revision: int
    place: int | None
    first: str | None = None
    commit: str | None = None

    @staticmethod
    def read(message: str) -> Landing | None:
        """The landing that a message names, or none: the commit is none of a lander's."""
        last = message.rfind("\n\n")
        named = (FORM.fullmatch(message) or EARLIER.fullmatch(message)
                 or (SQUASHED.fullmatch(message, last) if last > 0 else None))
        if named is None:
            return None
        has = named.groupdict()
        return Landing(has["queue"], int(has["change"]), int(has["revision"]),
                       int(has["place"]) if "place" in has else None, has.get("first"), has.get("commit"))


@dataclass(frozen=True)
class Landed:
    """A landing that a branch has: its place in the queue, its commit, and the one before."""
    place: int
    project: str
    commit: str
    parent: str
    change: int
    revision: int

    def is_of(self, order: Order) -> bool:
        """Whether an order is to land this change at this revision; orders are numbered anew by a restored gate."""
        return (self.project, self.change, self.revision) == (order.project, order.change, order.revision)


@dataclass
class Line:
    """A project's branch: the commit below its first landing, if it is known, and its landings, the first one first."""
    base: str | None
    landings: list[Landed] = field(default_factory=list)

    def head(self, place: int) -> str | None:
        """What the branch was at once the queue had so many landings."""
        return next((it.commit for it in reversed(self.landings) if it.place <= place), self.base)


# The places of landings in the form before, by their commits, as the notes have them; none where they don't matter.
Places = Callable[[], Mapping[str, int] | None]


@dataclass(frozen=True)
class Branch:
    """A project's branch that is read: its tip, and the commit that its first note names, if there is one.

    With `file` only landings by this file of the gate are read, as far as their form says it.
    """
    project: str
    repository: Repository
    queue: str
    tip: str
    first: str | None
    places: Places
    file: str | None = None

    def down(self) -> Line:
        """The landings of a branch, read from its tip down to the first note, or as far as their places fall.

        What stands on top of them was pushed past the gate. Below the landings of this file of the gate there may be
        those of another one.
        """
        run: list[tuple[Commit, Landing]] = []
        above, at = 0, self.tip
        while at:
            page = self.repository.line(at)
            for commit in page:
                landing = self.landing(commit)
                if commit.hash == self.first or run and (landing is None or not follows(landing, run[-1][1])):
                    return self.line(run, commit.hash)
                if landing is None:
                    above += 1
                else:
                    run.append((commit, landing))
                if above > PAGE:
                    return Line(None)
            at = page[-1].parents[0] if page and page[-1].parents else ""
        return self.line(run, None)

    def up(self, head: str) -> list[Landed] | None:
        """The landings right above a commit, or none where the branch doesn't have it."""
        commits: list[Commit] = []
        at = self.tip
        while at != head:
            page = self.repository.line(at, head)
            commits += page
            if not page or not page[-1].parents:
                return None
            at = page[-1].parents[0]
            if len(page) < PAGE and at != head:
                return None
        run: list[tuple[Commit, Landing]] = []
        for commit in reversed(commits):
            landing = self.landing(commit)
            if landing is None:
                break
            run.append((commit, landing))
        return self.line(run[::-1], head).landings

    def landing(self, commit: Commit) -> Landing | None:
        """What a commit lands in this queue; a landing has the one before and a revision's commit as its parents, or,
        if it was squashed, the one before alone."""
        landing = Landing.read(commit.message)
        if landing is None or len(commit.parents) != (1 if landing.commit else 2):
            return None
        if landing.queue != self.queue or self.file and landing.first not in (None, self.file):
            return None
        return landing

    def line(self, run: list[tuple[Commit, Landing]], base: str | None) -> Line:
        """A line of landings that were found from the last one on."""
        found = Line(base)
        for commit, it in reversed(run):
            place = it.place
            if place is None:
                places = self.places()
                place = 0 if places is None else places.get(commit.hash)
            if place is None:
                raise GitFault(f"no note of {self.queue} is at {commit.hash}, a landing in {self.project} in the form"
                               " of an earlier version: set the note of its place to it")
            found.landings.append(Landed(place, self.project, commit.hash, commit.parents[0], it.change, it.revision))
        return found


def follows(below: Landing, above: Landing) -> bool:
    """Whether two landings, one right below the other, may be of one file of the gate."""
    if below.place is None:
        return above.place is not None or below.first == above.first
    return above.place is not None and below.place < above.place


def places_of(names: Mapping[str, str], queue: str) -> dict[str, int]:
    """The places that notes give to objects."""
    begin = f"refs/landings/{queue}/"
    return {it: int(name[len(begin):]) for name, it in names.items()
            if name.startswith(begin) and re.fullmatch("[0-9]{6,}", name[len(begin):])}


def lines_of(branches: Iterable[Branch], upto: int | None = None) -> dict[str, Line]:
    """The lines of a queue's branches, by project.

    A first note that leaves a place out isn't believed: then all are read as far as their landings go.
    """
    branches = list(branches)
    lines = {it.project: it.down() for it in branches}
    if is_whole(lines.values(), upto):
        return lines
    others = {it.project: Branch(it.project, it.repository, it.queue, it.tip, None, it.places).down()
              for it in branches}
    for it in branches:
        # Without a landing only the first note tells what a project begins with.
        if not others[it.project].landings:
            others[it.project] = lines[it.project]
    return others if is_whole(others.values(), upto) else lines


def in_order(lines: Iterable[Line]) -> list[Landed]:
    return sorted((it for line in lines for it in line.landings), key=lambda it: it.place)


def is_whole(lines: Iterable[Line], upto: int | None = None) -> bool:
    """Whether each place is there once, up to this one."""
    places = [it.place for it in in_order(lines) if upto is None or it.place <= upto]
    return places == list(range(1, (len(places) if upto is None else upto) + 1))


def first_name(queue: str) -> str:
    return FIRST_HEADS.format(queue=queue)


def note_name(queue: str, place: int) -> str:
    return LANDING.format(queue=queue, place=place)


@dataclass(frozen=True)
class Proof:
    """What a voting job of a landing was asked to show: a live successful build, and its accepted delivery's id."""
    job: str
    build: int
    id: str


@dataclass(frozen=True)
class Note:
    """What a landing's commit doesn't say: by which file of the gate and which order it landed, on which evidence.

    No proofs where none were asked. A note that was made anew from the branch has nothing.
    """
    first: str | None
    order: int | None
    proofs: tuple[Proof, ...] | None = None

    @property
    def text(self) -> str:
        if self.first is None:
            return "Gate-Note: made anew from the branch\n"
        lines = [f"Gate-File: {self.first}", f"Gate-Order: {self.order}"]
        if self.proofs is None:
            lines.append("Gate-Evidence: not asked")
        else:
            lines.append("Gate-Evidence: asked")
            lines += [f"Gate-Job: {it.job} {it.build} {it.id}" for it in self.proofs]
        return "\n".join(lines) + "\n"

    @staticmethod
    def read(text: str) -> Note:
        named = TRAILER.findall(text)
        has = dict(named)
        first, order = has.get("File"), has.get("Order", "")
        if first is None or not re.fullmatch(NUMBER, order):
            return Note(None, None)
        jobs = [value.split(" ") for name, value in named if name == "Job"]
        proofs = tuple(Proof(it[0], int(it[1]), it[2]) for it in jobs if len(it) == 3 and it[1].isdigit())
        return Note(first, int(order), proofs if has.get("Evidence") == "asked" else None)


def tag(commit: str, name: str, who: str, seconds: int, text: str) -> bytes:
    """The content of an annotated tag at a commit."""
    return f"object {commit}\ntype commit\ntag {name}\ntagger {who} {seconds} +0000\n\n{text}".encode()


def first_text(author: str, git: str) -> str:
    """What a queue's first notes say: with which author and by which git its lander merges."""
    return f"Gate-Author: {author}\nGate-Git: {git}\n"


def author_of(text: str) -> str | None:
    """The author that a first note names; those of an earlier version name none."""
    return dict(TRAILER.findall(text)).get("Author")


def text_of(repository: Repository, it: str) -> str:
    """What a note's object says. One that is a commit, as those of an earlier version are, says nothing, and neither
    does one that is too large to be the lander's."""
    kind, size = repository.kind(it)
    if kind != "tag" or size > NOTE:
        return ""
    return repository.content(it, "tag").partition(b"\n\n")[2].decode("utf-8", "replace")
