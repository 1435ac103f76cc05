"""What a forge says of a run of a CI: the jobs of what it has run on the run's branch, and statuses of the commit.

A job counts if the forge says that what ran it is of this branch, this commit and a push, and came after the run was
pushed: a workflow on somebody's own branch has the names that it likes, and says of any commit what it likes. A status
knows nothing but the commit, so it counts only from an account that the settings trust, and by its number; and so does
a check run of an App. The calls are from the documentation of the forges, and were never made to a real one.
"""
from __future__ import annotations

import itertools
import threading
import urllib.parse
from collections.abc import Iterator, Mapping
from dataclasses import dataclass, field
from typing import Any

from companions.api import PAGE, ForgeFault, TooLarge, Unread, expected
from companions.ci_settings import Ci
from companions.forges import Forge
from companions.forms import CLIENTS
from companions.gate import say
from companions.judged import WORDS, Kind, Report, shown
from companions.outbox import Notes

# So many statuses of a commit are read, the newest ones; so many runs of a branch, and so many jobs of each; so many
# check runs of an App; and so many pages of a list. A page of check runs has few: each may have two texts of 65,535
# characters.
STATUSES, RUNS, JOBS, CHECKS, PAGES, CHECKS_PAGE = 2000, 50, 500, 300, 50, 10
# So many of those that don't count are kept, to be named.
UNCOUNTED = 100
# So much of an address is kept, and what of it is written as it is.
LINK, PLAIN = 2000, "/:?&=#%+,;@!$*~-._"
# By what a forge says that it has no such commit, branch or feature.
NONE = (404, 409, 422)
ACCOUNTS = "trusted"
# How GitHub calls the App of Actions, whose number is another one at each server.
ACTIONS = "github-actions"


@dataclass(frozen=True)
class Mark:
    """The highest numbers that were there before a run was pushed: of the commit's statuses, of what the CI had run on
    this branch, and of the commit's check runs of each App. What comes later has larger ones."""
    status: int = 0
    run: int = 0
    checks: Mapping[str, int] = field(default_factory=dict)


@dataclass(frozen=True)
class Seen:
    """What was seen of a run: what counts, what doesn't, each with its reason, and what may be cancelled. `is_cut`:
    there are more statuses or check runs than are read."""
    reports: tuple[Report, ...] = ()
    uncounted: tuple[str, ...] = ()
    running: tuple[int, ...] = ()
    is_cut: bool = False


class Statuses:
    """A forge, asked about runs: one call at a time, within its limits. `forge` has the form, and `api` its calls."""

    def __init__(self, forge: Any, ci: Ci, notes: Notes) -> None:
        self.forge, self.api = forge, forge.api
        self.trusted, self.apps = Trusted(ci.trusted, forge, notes), sorted(ci.trusted_apps)
        self.lock = threading.Lock()

    def mark(self, repository: str, branch: str, commit: str) -> Mark:
        """What is there of a commit before it is pushed as a branch."""
        with self.lock, expected(repository):
            self.trusted.look_up()
            statuses = self.newest(repository, commit, PAGE)
            runs = self.runs(repository, branch, commit)
            return Mark(max((int(it["id"]) for it in statuses), default=0),
                        max((int(it["id"]) for it in runs), default=0), self.checks_before(repository, commit))

    def look(self, repository: str, branch: str, commit: str, mark: Mark) -> Seen:
        """What there is of a run by now."""
        with self.lock, expected(repository):
            self.trusted.look_up()
            reports, running = list[Report](), list[int]()
            for run in self.runs(repository, branch, commit):
                if int(run["id"]) > mark.run:
                    found = list(self.jobs(repository, run))
                    reports += found or self.whole(run)
                    running += [] if self.has_ended(run) else [int(run["id"])]
            counted, uncounted, is_cut = self.bare(repository, commit, mark)
            of_apps = self.of_apps(repository, commit, mark)
            return Seen((*reports, *counted, *of_apps.reports), (*uncounted, *of_apps.uncounted), tuple(running),
                        is_cut or of_apps.is_cut)

    def cancel(self, repository: str, number: int) -> None:
        """Cancels what the CI runs. One that has ended meanwhile, or that this forge can't cancel, stays as it is."""
        with self.lock:
            self.api.find("POST", self.cancelled(repository, number), {}, (403, 405, *NONE))

    def delete(self, repository: str, branch: str) -> None:
        """Takes a branch away where git may not: most forges leave that to git."""

    def bare(self, repository: str, commit: str, mark: Mark) -> tuple[list[Report], tuple[str, ...], bool]:
        """The statuses of the commit since the push: those that count, those that don't, and whether there are more.
        They come the newest first, so behind a page of earlier ones there are only earlier ones."""
        counted, uncounted, read, earlier = list[Report](), dict[str, None](), 0, 0
        for row in self.newest(repository, commit, STATUSES + 1):
            read += 1
            earlier += int(row["id"]) <= mark.status
            if earlier >= PAGE or read > STATUSES:
                break
            if int(row["id"]) <= mark.status:
                continue
            report = self.status(row)
            why = self.trusted.why_not(self.writer(row))
            if why is None:
                counted.append(report)
            else:
                uncounted[f"{shown(report.name or '')} {why}"] = None
        return counted, tuple(itertools.islice(uncounted, UNCOUNTED)), read > STATUSES

    def checks_before(self, repository: str, commit: str) -> dict[str, int]:
        """The highest number of the check runs of each App, if the forge has such: without one none of it counts."""
        return {}

    def of_apps(self, repository: str, commit: str, mark: Mark) -> Seen:
        """The commit's check runs since the push, if the forge has such."""
        return Seen()

    def newest(self, repository: str, commit: str, most: int) -> Iterator[Any]:
        """The newest statuses of a commit, none where the forge doesn't know it. Whoever may write to the repository
        may set some, with long texts: what can't be read is left out."""
        rows = self.forge.rows(self.statuses_of(repository, commit), Unread())
        try:
            yield from itertools.islice(rows, most)
        except ForgeFault as fault:
            if fault.status not in NONE:
                raise

    def listed(self, path: str, member: str, many: int = PAGE) -> Iterator[Any]:
        """A list that comes by pages as a member of an object, which says how many there are in all. A page may be
        smaller than asked for."""
        size, read = self.page_size, 0
        for page in range(1, PAGES + 1):
            where = f"{path}{'&' if '?' in path else '?'}{size}={many}&page={page}"
            said = self.api.find("GET", where, none=NONE)
            rows = said[member] if said is not None else []
            yield from rows
            read += len(rows)
            if not rows or read >= said["total_count"]:
                return

    page_size = "per_page"

    def runs(self, repository: str, branch: str, commit: str) -> list[Any]:
        """What the CI has run of this branch and this commit, for a push and for nothing else."""
        raise NotImplementedError

    def jobs(self, repository: str, run: Any) -> Iterator[Report]:
        raise NotImplementedError

    def whole(self, run: Any) -> list[Report]:
        """A run without jobs, if that has ended."""
        raise NotImplementedError

    def has_ended(self, run: Any) -> bool:
        raise NotImplementedError

    def cancelled(self, repository: str, number: int) -> str:
        """The path by which a run is cancelled."""
        raise NotImplementedError

    def statuses_of(self, repository: str, commit: str) -> str:
        """The path of a commit's statuses, the newest first."""
        raise NotImplementedError

    def status(self, row: Any) -> Report:
        raise NotImplementedError

    def writer(self, row: Any) -> int | None:
        """The account that has set a status."""
        raise NotImplementedError


class OfGitHub(Statuses):
    """GitHub: workflow runs with their jobs, statuses, and check runs of the Apps that the settings trust. Those of
    Actions aren't read: a token of a workflow makes them in the name of all workflows, of any commit."""

    def checks(self, repository: str, commit: str, app: int) -> list[Any] | None:
        """An App's check runs of a commit; none where they are more than are read, since their order isn't documented.
        All are asked for: GitHub's `latest` goes by the time of their ends, which a new one doesn't have yet."""
        query = urllib.parse.urlencode({"app_id": app, "filter": "all"})
        path = f"{self.forge.repository(repository)}/commits/{commit}/check-runs?{query}"
        found = list(itertools.islice(self.listed(path, "check_runs", CHECKS_PAGE), CHECKS + 1))
        return None if len(found) > CHECKS else [
            it for it in found if (app_of(it).get("id"), it["head_sha"]) == (app, commit) and not self.why_not(it)]

    def checks_before(self, repository: str, commit: str) -> dict[str, int]:
        found = {app: self.checks(repository, commit, app) for app in self.apps}
        return {str(app): max((int(it["id"]) for it in rows), default=0)
                for app, rows in found.items() if rows is not None}

    def of_apps(self, repository: str, commit: str, mark: Mark) -> Seen:
        """One check suite is made of an App and a commit, with the branch that was pushed first: so a check run knows
        nothing but the commit, as a status does."""
        reports, uncounted, is_cut = list[Report](), dict[str, None](), False
        for app in self.apps:
            rows, before = self.checks(repository, commit, app), mark.checks.get(str(app))
            is_cut = is_cut or rows is None
            for it in rows or ():
                if before is None:
                    uncounted[f"{shown(str(it['name']))} (of App {app}, not asked for before the push)"] = None
                elif int(it["id"]) > before:
                    reports.append(Report(str(it["name"]), int(it["id"]), word_of(it), link_of(it.get("details_url")),
                                          True, app))
        if self.apps and not reports:
            uncounted.update(self.of_other_apps(repository, commit))
        return Seen(tuple(reports), tuple(itertools.islice(uncounted, UNCOUNTED)), (), is_cut)

    def of_other_apps(self, repository: str, commit: str) -> dict[str, None]:
        """Check runs that don't count whenever they came, as many as stand on a page, if it can be read: they are only
        named."""
        path = f"{self.forge.repository(repository)}/commits/{commit}/check-runs?filter=all"
        try:
            found = list(itertools.islice(self.listed(path, "check_runs", CHECKS_PAGE), CHECKS_PAGE))
        except TooLarge:
            return {}
        return dict.fromkeys(f"{shown(str(it['name']))} {why}" for it in found if (why := self.why_not(it)))

    def why_not(self, check: Any) -> str | None:
        """Why no check run of an App counts, if that is so."""
        app = app_of(check)
        if app.get("slug") == ACTIONS:
            return "(of Actions, whose jobs count by their runs)"
        return None if app.get("id") in self.apps else f"(of App {app.get('id')}, which isn't in ci.trusted_apps)"

    def runs(self, repository: str, branch: str, commit: str) -> list[Any]:
        query = urllib.parse.urlencode({"branch": branch, "head_sha": commit, "event": "push"})
        found = self.listed(f"{self.forge.repository(repository)}/actions/runs?{query}", "workflow_runs")
        return [it for it in itertools.islice(found, RUNS)
                if (it["head_branch"], it["head_sha"], it["event"]) == (branch, commit, "push")]

    def jobs(self, repository: str, run: Any) -> Iterator[Report]:
        path = f"{self.forge.repository(repository)}/actions/runs/{int(run['id'])}/jobs?filter=latest"
        for it in itertools.islice(self.listed(path, "jobs"), JOBS):
            yield Report(str(it["name"]), int(it["id"]), word_of(it), link_of(it.get("html_url")))

    def whole(self, run: Any) -> list[Report]:
        if not self.has_ended(run):
            return []
        return [Report(None, int(run["id"]), word_of(run), link_of(run.get("html_url")))]

    def has_ended(self, run: Any) -> bool:
        return bool(run["status"] == "completed")

    def cancelled(self, repository: str, number: int) -> str:
        return f"{self.forge.repository(repository)}/actions/runs/{number}/cancel"

    def statuses_of(self, repository: str, commit: str) -> str:
        return f"{self.forge.repository(repository)}/commits/{commit}/statuses"

    def status(self, row: Any) -> Report:
        return Report(str(row["context"]), int(row["id"]), str(row["state"]), link_of(row.get("target_url")), True)

    def writer(self, row: Any) -> int | None:
        return (row.get("creator") or {}).get("id")


class OfGitea(OfGitHub):
    """Gitea, whose API of workflow runs is GitHub's, in the versions that have one."""

    page_size = "limit"

    def statuses_of(self, repository: str, commit: str) -> str:
        return f"{super().statuses_of(repository, commit)}?sort=highestindex"

    def status(self, row: Any) -> Report:
        return Report(str(row["context"]), int(row["id"]), str(row["status"]), link_of(row.get("target_url")), True)


class OfGitLab(Statuses):
    """GitLab: pipelines of a push with their jobs, and statuses that others have set."""

    def runs(self, repository: str, branch: str, commit: str) -> list[Any]:
        query = urllib.parse.urlencode({"ref": branch, "sha": commit, "source": "push", "order_by": "id",
                                        "sort": "desc"})
        found = self.forge.rows(f"{self.forge.project(repository)}/pipelines?{query}")
        return [it for it in itertools.islice(found, RUNS)
                if (it["ref"], it["sha"], it["source"]) == (branch, commit, "push")]

    def jobs(self, repository: str, run: Any) -> Iterator[Report]:
        path = f"{self.forge.project(repository)}/pipelines/{int(run['id'])}/jobs"
        for it in itertools.islice(self.forge.rows(path), JOBS):
            yield Report(str(it["name"]), int(it["id"]), word_of_gitlab(it), link_of(it.get("web_url")))

    def whole(self, run: Any) -> list[Report]:
        if not self.has_ended(run):
            return []
        return [Report(None, int(run["id"]), str(run["status"]), link_of(run.get("web_url")))]

    def has_ended(self, run: Any) -> bool:
        return run["status"] in ("success", "failed", "canceled", "skipped", "manual")

    def cancelled(self, repository: str, number: int) -> str:
        return f"{self.forge.project(repository)}/pipelines/{number}/cancel"

    def delete(self, repository: str, branch: str) -> None:
        """A branch that is protected is deleted by the API alone."""
        with self.lock:
            path = f"{self.forge.project(repository)}/repository/branches/{urllib.parse.quote(branch, safe='')}"
            self.api.find("DELETE", path, none=(403, *NONE))

    def statuses_of(self, repository: str, commit: str) -> str:
        return f"{self.forge.project(repository)}/repository/commits/{commit}/statuses?all=true&order_by=id&sort=desc"

    def status(self, row: Any) -> Report:
        return Report(str(row["name"]), int(row["id"]), str(row["status"]), link_of(row.get("target_url")), True)

    def writer(self, row: Any) -> int | None:
        return (row.get("author") or {}).get("id")


OF_FORM: dict[str, type[Statuses]] = {"github": OfGitHub, "gitea": OfGitea, "gitlab": OfGitLab}


def statuses_of(ci: Ci, notes: Notes) -> Statuses:
    """The forge of the settings, asked by their token."""
    return OF_FORM[ci.form](CLIENTS[ci.form](ci.url, ci.token, ci.secret or "-"), ci, notes)


class Trusted:
    """The accounts whose statuses count. A login can be given up, and then somebody else may take it: so the number of
    its account is asked for once, when the settings name it first, and is kept."""

    def __init__(self, named: frozenset[str], forge: Forge, notes: Notes) -> None:
        self.names = {it.casefold(): it for it in named}
        self.forge, self.notes = forge, notes
        kept = notes.get(ACCOUNTS) or {}
        self.accounts: dict[str, int] = {name: kept[name] for name in self.names if name in kept}
        self.without = set[str]()

    def look_up(self) -> None:
        """Asks for the accounts that aren't known yet. One that the forge doesn't have is asked for again by the next
        start."""
        for name, login in self.names.items():
            if name in self.accounts or name in self.without:
                continue
            account = self.forge.account_of(login)
            if account is None:
                self.without.add(name)
                say("ci", f"ci.trusted: the forge has no account {login}: no status counts by this name")
                continue
            self.accounts[name] = account
            self.notes.put(ACCOUNTS, self.accounts)

    def why_not(self, account: int | None) -> str | None:
        """Why a status of an account doesn't count, if it doesn't."""
        if account is not None and account in self.accounts.values():
            return None
        return f"(of account {account}, which isn't in ci.trusted)"


def app_of(check: Any) -> Any:
    """The App of a check run."""
    return check.get("app") or {}


def word_of(it: Any) -> str:
    """The conclusion of a job or run that is completed, or else its state."""
    return str((it.get("conclusion") if it["status"] == "completed" else it["status"]) or "unknown")


def word_of_gitlab(job: Any) -> str:
    """The state of a job; of one that has failed the cause, where that is none of the job's."""
    cause = str(job.get("failure_reason") or "")
    is_lost = WORDS.get(cause, (Kind.FAILURE, ""))[0] is Kind.LOST
    return cause if job["status"] == "failed" and is_lost else str(job["status"])


def link_of(said: Any) -> str:
    """An address over HTTP, fit to stand in a comment and on a page; empty where it isn't one."""
    text = said if isinstance(said, str) else ""
    if len(text) > LINK or not text.startswith(("http://", "https://")):
        return ""
    return urllib.parse.quote(text, safe=PLAIN)
