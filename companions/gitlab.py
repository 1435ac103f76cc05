"""GitLab: merge requests, notes and statuses over its REST API.

docs/CONNECTING.md ("What is asked of a forge") lists the calls and hooks, each with its form, and says how GitLab's
approvals and statuses differ from those of others.
"""
from __future__ import annotations

import itertools
import re
import urllib.parse
from collections.abc import Callable, Iterator
from dataclasses import replace
from datetime import datetime
from operator import itemgetter
from typing import Any

from companions.api import Api, ForgeFault, Unread, expected
from companions.forges import (PENDING, Headers, Limits, Listed, Opinion, Owned, Place, Seal, Word, approves, as_hook,
                               at_target, check_seal, flawed, hash_of, is_by, login_of, mark_of, marked, place_at,
                               secret_of, shown_in_list, time_of, vote_of, votes_of)
from companions.requests import Request, State, Vote

STATES = {"opened": State.OPEN, "locked": State.OPEN, "closed": State.CLOSED, "merged": State.MERGED}
WORDS = {"pending": "pending", "success": "success", "failure": "failed"}
# All pending statuses of a commit have one text. There is no comment before the first approval.
UNDECIDED = "Waits for approval, or see the comment of the gate"

# The notes that GitLab itself writes of approvals.
APPROVED, UNAPPROVED = "approved this merge request", "unapproved this merge request"
# And of another target branch, also where the branch that it had was deleted.
RETARGETED = re.compile("changed target branch from `|deleted the `.*` branch. This merge request now targets the `")
# Why a comment is no vote where others can't be read.
UNSURE = "approved by a comment, while others of it are too long to be read"
# And why nothing is that names no commit, where nobody knows which head the request had then.
UNLISTED = "approved, while it has had more heads than can be read"
# Who may write to a project has this access level at least.
DEVELOPER = 30


class Versions:
    """The heads that a request had, the oldest first, and since when each: they are asked for once, if at all. Its
    author makes as many as he likes, so not all may be read."""

    def __init__(self, rows: Callable[[Unread], Iterator[Any]]) -> None:
        self.rows, self.unread, self.read = rows, Unread(), list[tuple[datetime, str]]()
        self.is_asked = False

    def all(self) -> list[tuple[datetime, str]]:
        if not self.is_asked:
            rows = sorted(self.rows(self.unread), key=itemgetter("id"))
            self.read = [(time_of(it["created_at"]), hash_of(it["head_commit_sha"])) for it in rows]
            self.is_asked = True
        return self.read


class GitLab:
    """GitLab, by an access token and the secret of its hooks."""

    mark, requests_at = "!", "/-/merge_requests/"
    limits = Limits()
    leaves_open = False

    def __init__(self, url: str, token: str, secret: str, timeout: float = 30.0) -> None:
        self.api = Api(url, {"PRIVATE-TOKEN": token}, timeout)
        self.secret = secret_of(secret)
        self.owned = Owned()

    def seal_of(self, headers: Headers) -> Seal:
        return Word(self.secret, headers.get("X-Gitlab-Token"))

    def place_of(self, headers: Headers, body: bytes) -> Place | None:
        check_seal(self.seal_of(headers), body)
        said = as_hook(body)
        # Issues and pipelines have numbers too.
        of = {"merge_request": "object_attributes", "note": "merge_request"}.get(str(said.get("object_kind")))
        try:
            place = place_at(said["project"]["path_with_namespace"], said[of]["iid"]) if of else None
        except (KeyError, TypeError):
            return None
        return None if place is not None and self.is_own(place, said) else place

    def is_own(self, place: Place, said: dict[str, Any]) -> bool:
        """Whether a hook is about the gate's note."""
        it = said.get("object_attributes")
        note = {"id": it.get("id"), "body": it.get("note"), "author": {"id": it.get("author_id")}
                } if said["object_kind"] == "note" and isinstance(it, dict) else {}
        return any(marked([note], mark_of(self.secret, place), "author", self.api.own))

    def project(self, repository: str) -> str:
        return f"/projects/{urllib.parse.quote(repository, safe='')}"

    def path(self, place: Place) -> str:
        return f"{self.project(place.repository)}/merge_requests/{place.number}"

    def rows(self, path: str, unread: Unread | None = None) -> Iterator[Any]:
        return self.api.pages(path, "per_page", True, unread)

    def request(self, place: Place) -> Request | None:
        so, unread, path = self.outline(place), Unread(), self.path(place)
        versions = Versions(lambda cut: self.rows(f"{path}/versions", cut))
        with expected(path):
            return so and replace(so, votes=votes_of(self.opinions(place, unread, versions)), is_cut=unread.is_any,
                                  moved=moved_at(versions.read))

    def outline(self, place: Place) -> Request | None:
        said = self.api.find("GET", self.path(place))
        if said is None:
            return None
        with expected(self.path(place)):
            return Request(place.repository, place.number, STATES[said["state"]], hash_of(said["sha"]),
                           said["target_branch"], said["title"] or "", said.get("description") or "",
                           is_draft=bool(said.get("draft", said.get("work_in_progress"))),
                           author=login_of(said.get("author"), "username"))

    def opinions(self, place: Place, unread: Unread, versions: Versions) -> list[Opinion]:
        """Approvals by their notes, while GitLab still counts them, comments, and what takes approvals back. Where some
        notes can't be read, one of them may take back what a person approved by a comment."""
        changed = list[datetime]()
        found = list(self.of_notes(place, unread, changed, versions))
        if versions.unread.is_any:
            # A comment may name its commit itself.
            found = [(it if is_comment and it.vote.said is None else flawed(it, UNLISTED), is_comment)
                     for it, is_comment in found]
        if unread.is_any:
            # Neither can it be read whether the target branch was changed behind an approval.
            found = [(flawed(it, UNSURE) if is_comment else replace(it, vote=replace(it.vote, is_unplaced=True)),
                      is_comment) for it, is_comment in found]
        return at_target((it for it, _ in found), changed)

    def of_notes(self, place: Place, unread: Unread, changed: list[datetime], versions: Versions
                 ) -> Iterator[tuple[Opinion, bool]]:
        """What notes say, each with whether it is a comment, and into `changed` when the target branch was changed."""
        said = self.api.call("GET", self.path(place) + "/approvals")
        approving, mark = {it["user"]["username"] for it in said["approved_by"]}, mark_of(self.secret, place)
        for it in self.rows(self.path(place) + "/notes?sort=asc&order_by=created_at", unread):
            person, at, body = it["author"]["username"], time_of(it["created_at"]), (it.get("body") or "").strip()
            account = int(it["author"]["id"])
            if it["system"] and RETARGETED.match(body):
                changed.append(at)
            elif it["system"] and body == UNAPPROVED:
                yield Opinion(at, Vote(f"note {it['id']}", person, None, None, account=account)), False
            elif body == APPROVED and person in approving if it["system"] else approves(body, mark):
                name, commit = f"note {it['id']}", commit_at(versions.all(), at)
                yield Opinion(at, Vote(name, person, True, commit, account=account) if it["system"] else
                              vote_of(it, name, person, account, commit)), not it["system"]

    def open_requests(self, repository: str) -> dict[int, Listed]:
        unread = Unread()
        with expected(self.project(repository)):
            found = {int(it["iid"]): Listed(str(it["target_branch"]), shown_in_list(
                         it.get("updated_at"), it.get("sha"), self.api.time))
                     for it in self.rows(f"{self.project(repository)}/merge_requests?state=opened", unread)}
        self.api.tell_unlisted(repository, unread)
        return found

    def may_write(self, repository: str, person: str) -> bool:
        path = f"{self.project(repository)}/members/all"
        with expected(path):
            # Anybody may take a login that is a part of many others.
            found = self.rows(f"{path}?{urllib.parse.urlencode({'query': person})}", Unread())
            return any(it["username"] == person and it["access_level"] >= DEVELOPER for it in found)

    def account_of(self, login: str) -> int | None:
        path = f"/users?{urllib.parse.urlencode({'username': login})}"
        said = self.api.call("GET", path)
        with expected(path):
            return next((int(it["id"]) for it in said if it["username"].casefold() == login.casefold()), None)

    def time(self) -> datetime | None:
        return self.api.time

    def set_status(self, repository: str, commit: str, state: str, text: str) -> bool:
        description = UNDECIDED if state == PENDING else text[:255]
        try:
            self.api.call("POST", f"{self.project(repository)}/statuses/{commit}",
                          {"name": "gate", "state": WORDS[state], "description": description})
        except ForgeFault as fault:
            is_pending = fault.status == 400 and state == PENDING and "Cannot transition status" in fault.said
            is_elsewhere = fault.status == 404 and "References for commit" in fault.said
            if not (is_pending or is_elsewhere):
                raise
            return is_pending
        return True

    def comment(self, place: Place, comment: int | None, text: str) -> int:
        notes, mark = self.path(place) + "/notes", mark_of(self.secret, place)
        body = {"body": f"{text}\n\n{mark}"}
        with expected(notes):
            for number in itertools.chain(self.kept_note(notes, comment), self.own_notes(notes, mark)):
                if self.api.find("PUT", f"{notes}/{number}", body, (403, 404)) is not None:
                    self.owned.add(number)
                    return number
            number = int(self.api.call("POST", notes, body)["id"])
            self.owned.add(number)
            return number

    def kept_note(self, notes: str, note: int | None) -> Iterator[int]:
        """The note whose number was kept, if it is this account's. A maintainer edits what others wrote, and an earlier
        version may have kept the number of somebody's copy of the mark."""
        if note is not None and note not in self.owned:
            found = self.api.find("GET", f"{notes}/{note}")
            if found and is_by(found, "author", self.api.account()):
                self.owned.add(note)
        if note is not None and note in self.owned:
            yield note

    def own_notes(self, path: str, mark: str) -> Iterator[int]:
        rows = self.rows(path + "?sort=asc&order_by=created_at", Unread())
        yield from marked(rows, mark, "author", self.api.account())

    def close(self, place: Place, head: str) -> bool:
        so = self.outline(place)
        if so is None or so.state is not State.OPEN or so.head != head:
            return False
        return self.api.find("PUT", self.path(place), {"state_event": "close"}) is not None

    def head_ref(self, number: int) -> str:
        return f"refs/merge-requests/{number}/head"


def moved_at(versions: list[tuple[datetime, str]]) -> datetime | None:
    """When a request got the head that it has, given its versions. One may have the head of that before it, as where
    the target branch was changed."""
    since = [at for place, (at, commit) in enumerate(versions) if place == 0 or versions[place - 1][1] != commit]
    return since[-1] if since else None


def commit_at(versions: list[tuple[datetime, str]], at: datetime) -> str | None:
    """The head that a request had at a time; before the first version is written, that of the first."""
    before = [commit for since, commit in versions if since <= at]
    return before[-1] if before else versions[0][1] if versions else None
