"""What the gate says of a change, in the form in which people are told of it, and the words for it."""
from __future__ import annotations

import re
from collections.abc import Callable, Iterable, Mapping, Sequence
from dataclasses import dataclass
from typing import Any

from companions.conflicts import Cause
from companions.forges import Place
from companions.requests import State

# The most characters that GitHub takes in a status.
LONGEST = 140
SLOTS = {"failure": "failed", "running": "running", "waiting": "waiting", "success": "passed", "skipped": "skipped"}


@dataclass(frozen=True)
class Subject:
    """A change whose request's people are told.

    `commits` are those of its revisions, from the first. `lines` are those of its text that name no request, `votes`
    say why approvals of it don't count, `refused` is the gate's code where it didn't take the last revision, or `ahead`
    where it isn't told of it, and `is_gated` whether its target branch is a project's. `is_squashed`: its last revision
    lands as one commit, so no forge shows it as merged; `earlier` are the lines of its message, but for blank
    ones, where the request has another title or text by now.
    """
    change: int
    place: Place
    commits: tuple[str, ...]
    state: State = State.OPEN
    lines: tuple[str, ...] = ()
    votes: tuple[str, ...] = ()
    refused: str | None = None
    is_gated: bool = True
    is_squashed: bool = False
    earlier: tuple[str, ...] = ()

    @property
    def revision(self) -> int:
        return len(self.commits)


@dataclass(frozen=True)
class Item:
    """An item as the status shows it: its place among the items of its queue, and whether its order is shown."""
    queue: str
    place: int
    items: int
    window: int
    order: int
    revision: int
    ahead: int | None
    how: str
    slots: tuple[tuple[str, str], ...]
    lands: bool


@dataclass(frozen=True)
class Report:
    """How the last item of a change left its queue."""
    queue: str
    order: int
    revision: int
    verdict: str
    n: int | None


@dataclass(frozen=True)
class Seen:
    """What the gate says of a change.

    `known` is its answer about the change, if it was asked, `builds` those of its item, and `voting` the jobs of it
    that vote, where they are known. By `circle`, a part of its needs, it needs itself; those of `failing` neither have
    landed nor do they stand and are `ok`. The lander says why it has `stopped` its queue, if it has, and why it has
    `refused` its last order, if that was of this revision. `jobs` are those of its project that workers know, if they
    are known here, and `cause` is why it can't be merged, where that is why it failed. `landing` is the commit by which
    a squashed one has landed.
    """
    item: Item | None = None
    known: Mapping[str, Any] | None = None
    report: Report | None = None
    builds: Sequence[Mapping[str, Any]] = ()
    voting: frozenset[str] | None = None
    circle: frozenset[int] = frozenset()
    failing: frozenset[int] = frozenset()
    stopped: str | None = None
    refused: str | None = None
    jobs: frozenset[str] | None = None
    cause: Cause | None = None
    landing: str | None = None


@dataclass(frozen=True)
class Words:
    """How requests and builds are named to who reads a repository's requests."""
    places: Callable[[int], Place | None]
    mark: str
    logs: str | None
    repository: str

    def request(self, change: int) -> str:
        place = self.places(change)
        if place is None:
            return f"change {change}"
        return f"{'' if place.repository == self.repository else place.repository}{self.mark}{place.number}"

    def plain(self, text: str) -> str:
        """A text of the lander, with requests in the place of their changes."""
        return re.sub(r"\bchange ([1-9][0-9]{0,8})\b", lambda it: self.request(int(it[1])), text)

    def conflict(self, cause: Cause) -> str:
        """What a change conflicts with."""
        return "its branch" if cause.other is None else self.request(cause.other)

    def build(self, number: int, link: str | None = None) -> str:
        """A build with its log: the one that a CI has named, or else the one of the settings."""
        there = link or (self.logs.replace("{build}", str(number)) if self.logs else None)
        return f"[build {number}]({there})" if there else f"build {number}"


@dataclass(frozen=True)
class Text:
    """A status and a comment. Texts of one kind differ in how far it is. `is_news`: worth the first comment.

    `landed` is an earlier commit, where that has landed, with its status.
    """
    kind: str
    state: str
    status: str
    comment: tuple[str, ...]
    is_news: bool = True
    landed: tuple[str, str] | None = None


def plain(line: str) -> str:
    """A line of somebody's text, fit to be shown as it is."""
    return cut("".join(it if it.isprintable() else " " for it in line), 200)


def cut(text: str, longest: int = LONGEST) -> str:
    return text if len(text) <= longest else text[:longest - 3] + "..."


def listed(names: Sequence[str], most: int = 2) -> str:
    """Some names, and how many more there are."""
    if len(names) <= most:
        return " and ".join(names)
    return f"{', '.join(names[:most])} and {len(names) - most} more"


def short_jobs(item: Item) -> str:
    """How its jobs stand, for a status: each, or how many of each kind where there are many."""
    if len(item.slots) <= 3:
        return ", ".join(f"{job} {SLOTS.get(slot, slot)}" for job, slot in item.slots)
    slots = [slot for _, slot in item.slots]
    return ", ".join(f"{slots.count(slot)} {word}" for slot, word in SLOTS.items() if slot in slots)


def marked_jobs(item: Item, voting: frozenset[str] | None) -> str:
    """How each job stands, for a comment."""
    return ", ".join(f"`{job}` {SLOTS.get(slot, slot)}"
                     + (" (doesn't vote)" if voting is not None and job not in voting else "")
                     for job, slot in item.slots)


@dataclass(frozen=True)
class Failure:
    """A job that failed: by a build, or by three that were lost, as where no worker knows the job. `links` are the logs
    of its builds that a CI has run."""
    job: str
    builds: tuple[int, ...]
    is_lost: bool
    is_unknown: bool = False
    links: tuple[tuple[int, str], ...] = ()

    def line(self, words: Words) -> str:
        numbers = ", ".join(words.build(it, dict(self.links).get(it)) for it in self.builds)
        how = ("is known to no worker" if self.is_unknown else
               "was lost each time, its workers being gone" if self.is_lost else "failed")
        return f"`{self.job}` {how}: {numbers}"

    def __str__(self) -> str:
        if self.is_unknown:
            return f"no worker knows job {self.job}"
        return f"{self.job} {'was lost' if self.is_lost else 'failed'} (build {self.builds[-1]})"


def failures_of(builds: Iterable[Mapping[str, Any]], jobs: frozenset[str] | None = None) -> list[Failure]:
    """The jobs that failed by the builds that count: docs/RULES.md ("What an item is tested on") has the rule. `jobs`
    are those that workers know, if they are known: they report builds of others as lost."""
    of_job: dict[str, dict[str, list[int]]] = {}
    links: dict[int, str] = {}
    for it in builds:
        if it["live"]:
            of_job.setdefault(it["job"], {}).setdefault(it["outcome"], []).append(it["build"])
            links |= {it["build"]: it["link"]} if it.get("link") else {}
    found = []
    for job, by in of_job.items():
        lost = by.get("lost", [])
        if "success" not in by and ("failure" in by or len(lost) >= 3):
            is_lost = "failure" not in by
            numbers = tuple(by.get("failure") or lost)
            found.append(Failure(job, numbers, is_lost, is_lost and jobs is not None and job not in jobs,
                                 tuple((it, links[it]) for it in numbers if it in links)))
    return found
