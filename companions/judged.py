"""What the word of a CI means for a build: a function of what the forge says of the build's run, and of nothing else.

Only `success` is a success. docs/CONNECTING.md ("With the CI that you have") has the table.
"""
from __future__ import annotations

import enum
from collections.abc import Iterable, Sequence
from dataclasses import dataclass

# So many names are listed in a line, and so much of each.
NAMES, LONGEST = 5, 60
# So long after a push a run without jobs says nothing: that of another workflow may not be listed yet.
LISTED = 60.0


class Kind(enum.Enum):
    """What a word means."""
    SUCCESS = "success"
    FAILURE = "failure"
    LOST = "lost"
    RUNS = "runs"
    WAITS = "waits"


LEFT_OUT = "which is no success: a path filter or a condition (`if:`, `rules:`, `only:`) has left it out"
# The words of all forms, with what is said of them beside the word. GitHub's conclusions and states of jobs and of
# statuses, Gitea's states, GitLab's states, and of its failures those that are no job's.
WORDS: dict[str, tuple[Kind, str]] = {
    "success": (Kind.SUCCESS, ""),
    "failure": (Kind.FAILURE, ""), "failed": (Kind.FAILURE, ""), "error": (Kind.FAILURE, ""),
    "warning": (Kind.FAILURE, "which is no success"), "neutral": (Kind.FAILURE, "which is no success"),
    "skipped": (Kind.FAILURE, LEFT_OUT),
    "action_required": (Kind.FAILURE, "which is no success: somebody has to let it run"),
    "manual": (Kind.FAILURE, "which is no success: somebody has to let it run"),
    "cancelled": (Kind.FAILURE, ""), "canceled": (Kind.FAILURE, ""), "timed_out": (Kind.FAILURE, ""),
    "stale": (Kind.LOST, "the forge has given it up"),
    "startup_failure": (Kind.LOST, "it didn't start"),
    "runner_system_failure": (Kind.LOST, "its runner has failed"),
    "stuck_or_timeout_failure": (Kind.LOST, "no runner took it, or its runner is gone"),
    "no_matching_runner": (Kind.LOST, "no runner may take it"),
    "scheduler_failure": (Kind.LOST, "the forge couldn't begin it"),
    "stale_schedule": (Kind.LOST, "the forge couldn't begin it"),
    "api_failure": (Kind.LOST, "the forge couldn't begin it"),
    "data_integrity_failure": (Kind.LOST, "the forge couldn't begin it"),
    "running": (Kind.RUNS, ""), "in_progress": (Kind.RUNS, ""), "canceling": (Kind.RUNS, ""),
    "pending": (Kind.WAITS, ""), "queued": (Kind.WAITS, ""), "waiting": (Kind.WAITS, ""),
    "requested": (Kind.WAITS, ""), "created": (Kind.WAITS, ""), "preparing": (Kind.WAITS, ""),
    "blocked": (Kind.WAITS, ""), "scheduled": (Kind.WAITS, ""), "waiting_for_resource": (Kind.WAITS, ""),
}
ENDED = (Kind.SUCCESS, Kind.FAILURE, Kind.LOST)


@dataclass(frozen=True)
class Report:
    """What a forge says of a job, by a job of the run or by what knows the commit alone (`is_bare`): a status, or a
    check run of an App. Of two statuses of one name, or check runs of one App, that with the larger number is the later
    one. Without a name it is of a whole run that has no jobs."""
    name: str | None
    number: int
    word: str
    link: str = ""
    is_bare: bool = False
    app: int = 0

    @property
    def kind(self) -> Kind:
        """What its word means. Of a word that isn't known nobody knows that the job has ended."""
        return WORDS.get(self.word, (Kind.RUNS, ""))[0]

    def __str__(self) -> str:
        more = WORDS.get(self.word, (Kind.RUNS, ""))[1]
        return f"{self.word.replace('_', ' ')}{f', {more}' if more else ''}"


@dataclass(frozen=True)
class Wanted:
    """What is waited for: the status of this name. `is_known`: one of this name has come for the project before."""
    name: str
    limit: float
    begins: float
    is_known: bool


@dataclass(frozen=True)
class Verdict:
    """How a build ended, if it has: why, and the link to its log. `is_held`: its job can't be told from a wrong
    setting, so nothing is told of it."""
    outcome: str | None
    why: str = ""
    link: str = ""
    is_held: bool = False
    is_over_limit: bool = False


NOTHING_YET = Verdict(None)


def judge(wanted: Wanted, reports: Sequence[Report], uncounted: Sequence[str], age: float, came: float | None,
          goes_on: bool = False) -> Verdict:
    """What became of a build whose run was pushed `age` seconds ago. `came` are the seconds since a report of its name
    was first seen, and `uncounted` what doesn't count, each with its reason. `goes_on`: the CI still runs something of
    the branch, which may bring the name."""
    mine = of_name(wanted.name, reports)
    if not mine and not goes_on and age >= min(LISTED, wanted.begins):
        # What ran no job, or whose jobs can't be had, went well for no job.
        whole = [it for it in reports if it.name is None and it.kind is not Kind.SUCCESS]
        mine = [it for it in whole if wanted.is_known or it.kind is Kind.FAILURE]
    if not mine:
        return without_name(wanted, reports, uncounted) if age >= wanted.begins else NOTHING_YET
    for kind in (Kind.FAILURE, Kind.RUNS, Kind.WAITS, Kind.LOST):
        found = [it for it in mine if it.kind is kind]
        if found and kind not in ENDED:
            return over_limit(wanted, found[0]) if (came or 0.0) >= wanted.limit else NOTHING_YET
        if found:
            return Verdict(kind.value, f"the CI says of {shown(wanted.name)}: {found[0]}", found[0].link)
    return Verdict("success", f"the CI says of {shown(wanted.name)}: success", mine[0].link)


def of_name(name: str, reports: Sequence[Report]) -> list[Report]:
    """The reports of a name that count: each job of the run; and of the statuses, as of the check runs of each App, the
    last one that says an end, or, without one, the last. A CI may send that a job waits behind that it has ended."""
    found = [it for it in reports if it.name == name and not it.is_bare]
    bare = sorted((it for it in reports if it.name == name and it.is_bare), key=lambda it: it.number)
    for app in sorted({it.app for it in bare}):
        alike = [it for it in bare if it.app == app]
        ended = [it for it in alike if it.kind in ENDED]
        found += ended[-1:] or alike[-1:]
    return found


def over_limit(wanted: Wanted, last: Report) -> Verdict:
    """A job that runs for too long is a failure, as one that hangs. That a job of the run waits for a runner is none of
    its own; of a status nobody knows whether it does."""
    said = f"the CI says of {shown(wanted.name)}: {last}, {wanted.limit:g} s after it came"
    if last.kind is Kind.WAITS and not last.is_bare:
        return Verdict("lost", f"{said}: no runner has taken it", last.link, is_over_limit=True)
    return Verdict("failure", f"{said}: over its limit", last.link, is_over_limit=True)


def without_name(wanted: Wanted, reports: Sequence[Report], uncounted: Sequence[str]) -> Verdict:
    """No report of the name came in time. One that never came for the project is a wrong setting."""
    came = listed(it.name for it in reports if it.name is not None)
    not_counted = f"; not counted: {listed(uncounted)}" if uncounted else ""
    said = f"no status {shown(wanted.name)} came within {wanted.begins:g} s; what came: {came}{not_counted}"
    if wanted.is_known:
        return Verdict("lost", said)
    return Verdict(None, f"{said}. None of this name ever came for the project: correct project.job.status, or let the"
                         " CI test the branches gate/**", is_held=True)


def listed(names: Iterable[str]) -> str:
    """Some names, and how many more there are."""
    every = sorted(set(names))
    more = f" and {len(every) - NAMES} more" if len(every) > NAMES else ""
    return ", ".join(map(shown, every[:NAMES])) + more if every else "nothing"


def shown(name: str) -> str:
    """Somebody's text, fit to be shown in a line."""
    plain = "".join(it if it.isprintable() else " " for it in name)
    return plain if len(plain) <= LONGEST else plain[:LONGEST - 3] + "..."
