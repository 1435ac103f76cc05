"""GitHub, and what Gitea has alike: pull requests, reviews, comments and statuses over REST.

docs/CONNECTING.md ("What is asked of a forge") lists the calls and hooks, each with its form. What `Gitea` doesn't say
otherwise is the same for both.
"""
from __future__ import annotations

import itertools
import urllib.parse
from collections.abc import Iterator
from dataclasses import replace
from datetime import datetime
from typing import Any

from companions.api import Api, ForgeFault, Full, Unread, expected
from companions.forges import (APPROVES, Headers, Limits, Listed, Opinion, Owned, Place, Seal, Signature, approves,
                               as_hook, at_head, at_target, check_seal, flawed, hash_of, is_by, login_of, mark_of,
                               marked, place_at, secret_of, shown_in_list, time_of, vote_of, votes_of)
from companions.requests import GONE, Request, State, Vote

__all__ = ["APPROVES", "GitHub", "Gitea"]

# The states of a review that says nothing but its text, and why its text is no approval.
WORDS_ALONE = ("COMMENTED", "COMMENT")
# GitHub's words where a commit has 1,000 statuses.
FULL = "maximum number of statuses"
IN_REVIEW = f"wrote {APPROVES} in a review and not in a comment"
# Why nothing approves a request of which not all reviews can be read: one of these may be against it.
UNREVIEWED = "approved, while reviews of it are too long to be read"


class GitHub:
    """GitHub, by an access token and the secret of its hooks."""

    mark, requests_at = "#", "/pull/"
    # GitHub refuses above 500 an hour, and answers 5,000 calls. The comments of all requests have so many of smaller
    # pages, and their reviews too.
    limits, smaller = Limits(60, 400, 1000), 600
    leaves_open = False
    page_size = "per_page"
    has_links = True
    # Whether each page of a request's comments has all of them.
    has_whole_comments = False
    # The list of what was done to a request, the member that says what it was, what changes its target branch, and what
    # its head. GitHub lists only pushes that are forced.
    events, event = "events", "event"
    target_events: tuple[str, ...] = ("base_ref_changed", "automatic_base_change_succeeded")
    push_events: tuple[str, ...] = ("head_ref_force_pushed", "head_ref_deleted", "head_ref_restored")
    signature = "X-Hub-Signature-256"
    context = "gate"

    def __init__(self, url: str, token: str, secret: str, timeout: float = 30.0) -> None:
        self.api = Api(url, self.api_headers(token), timeout, self.smaller)
        self.secret = secret_of(secret)
        self.owned = Owned()

    def api_headers(self, token: str) -> dict[str, str]:
        return {"Authorization": f"Bearer {token}", "Accept": "application/vnd.github+json",
                "X-GitHub-Api-Version": "2022-11-28"}

    def seal_of(self, headers: Headers) -> Seal:
        return Signature(self.secret, (headers.get(self.signature) or "").removeprefix("sha256="))

    def place_of(self, headers: Headers, body: bytes) -> Place | None:
        check_seal(self.seal_of(headers), body)
        said = as_hook(body)
        try:
            place = place_at(said["repository"]["full_name"], (said.get("pull_request") or said["issue"])["number"])
        except (KeyError, TypeError):
            return None
        return None if place is not None and self.is_own(place, said.get("comment")) else place

    def is_own(self, place: Place, comment: Any) -> bool:
        """Whether a hook's comment is the gate's."""
        return isinstance(comment, dict) and any(marked([comment], mark_of(self.secret, place), "user", self.api.own))

    def repository(self, name: str) -> str:
        return f"/repos/{urllib.parse.quote(name)}"

    def path(self, place: Place, kind: str = "pulls") -> str:
        return f"{self.repository(place.repository)}/{kind}/{place.number}"

    def rows(self, path: str, unread: Unread | None = None) -> Iterator[Any]:
        return self.api.pages(path, self.page_size, self.has_links, unread)

    def request(self, place: Place) -> Request | None:
        so = self.outline(place)
        if so is None:
            return None
        with expected(self.path(place)):
            # Reviews are read first: the calls of smaller pages that a look has are used up by nobody's comments.
            reviews = Unread(kind="reviews")
            given = list(self.reviews(place, reviews))
            said = self.comments_read(reviews.calls)
            comments = list(self.comments(place, said))
            if said.calls and not reviews.calls:
                # That took a while, and somebody may be against it by now.
                reviews = Unread(kind="reviews", before=said.calls)
                given = list(self.reviews(place, reviews))
            # At one and the same second a review counts as the later one: it may be against.
            found, pushed = [*comments, *given], list[datetime]()
            if reviews.is_any:
                found = [flawed(it, UNREVIEWED) for it in found]
            if any(it.vote.approves and it.vote.flaw is None for it in found):
                done = Unread(before=reviews.calls + said.calls)
                changes = list(self.changes(place, done))
                pushed = [at for what, at in changes if what in self.push_events]
                found = at_target(found, [at for what, at in changes if what in self.target_events])
                found = at_head(found, pushed)
                if done.is_any:
                    found = [replace(it, vote=replace(it.vote, is_unplaced=True)) for it in found]
            return replace(so, votes=votes_of(found), is_cut=said.is_any, moved=max(pushed, default=None))

    def comments_read(self, before: int = 0) -> Unread:
        """A reading of a request's comments, behind so many calls of smaller pages in the same look."""
        return Unread(self.has_whole_comments, "comments", before)

    def outline(self, place: Place) -> Request | None:
        said = self.api.find("GET", self.path(place))
        if said is None:
            return None
        with expected(self.path(place)):
            state = State.MERGED if said["merged"] else State(said["state"])
            return Request(place.repository, place.number, state, hash_of(said["head"]["sha"]), said["base"]["ref"],
                           said["title"] or "", said.get("body") or "", is_draft=bool(said.get("draft")),
                           author=login_of(said.get("user"), "login"))

    def reviews(self, place: Place, unread: Unread) -> Iterator[Opinion]:
        mark = mark_of(self.secret, place)
        for it in self.rows(self.path(place) + "/reviews", unread):
            says = self.verdict(it)
            if says is None and it["state"] in WORDS_ALONE and it.get("user") and approves(it.get("body"), mark):
                vote = Vote(f"review {it['id']}", it["user"]["login"], True, None, IN_REVIEW,
                            account=int(it["user"]["id"]))
                yield Opinion(time_of(it["submitted_at"]), vote)
            # Nobody is named where the account was deleted.
            if says is None or not it.get("user"):
                continue
            approves_it = None if says == "dismissed" else says == "approves"
            vote = Vote(f"review {it['id']}", it["user"]["login"], approves_it, it.get("commit_id") or GONE,
                        account=int(it["user"]["id"]))
            yield Opinion(time_of(self.submitted(it)), vote)

    def comments(self, place: Place, unread: Unread) -> Iterator[Opinion]:
        for it in self.rows(self.path(place, "issues") + "/comments", unread):
            if approves(it.get("body"), mark_of(self.secret, place)) and it.get("user"):
                vote = vote_of(it, f"comment {it['id']}", it["user"]["login"], int(it["user"]["id"]))
                yield Opinion(time_of(it["created_at"]), vote)

    def submitted(self, review: dict[str, Any]) -> str:
        """When a review was given."""
        at: str = review["submitted_at"]
        return at

    def changes(self, place: Place, unread: Unread) -> Iterator[tuple[str, datetime]]:
        """When the request got another target branch, or another head."""
        for it in self.rows(f"{self.path(place, 'issues')}/{self.events}", unread):
            if it[self.event] in self.target_events + self.push_events:
                yield it[self.event], time_of(it["created_at"])

    def verdict(self, review: dict[str, Any]) -> str | None:
        """What a review says: approves, rejects, or dismissed; none where it says nothing of these."""
        return {"APPROVED": "approves", "CHANGES_REQUESTED": "rejects", "DISMISSED": "dismissed"}.get(review["state"])

    def open_requests(self, repository: str) -> dict[int, Listed]:
        unread = Unread()
        with expected(self.repository(repository)):
            found = {int(it["number"]): Listed(str(it["base"]["ref"]), shown_in_list(
                         it.get("updated_at"), it["head"]["sha"], self.api.time))
                     for it in self.rows(f"{self.repository(repository)}/pulls?state=open", unread)}
        self.api.tell_unlisted(repository, unread)
        return found

    def may_write(self, repository: str, person: str) -> bool:
        path = f"{self.repository(repository)}/collaborators/{urllib.parse.quote(person, safe='')}/permission"
        said = self.api.find("GET", path)
        with expected(path):
            return said is not None and said["permission"] in ("owner", "admin", "write")

    def account_of(self, login: str) -> int | None:
        path = f"/users/{urllib.parse.quote(login, safe='')}"
        said = self.api.find("GET", path)
        with expected(path):
            return None if said is None else int(said["id"])

    def set_status(self, repository: str, commit: str, state: str, text: str) -> bool:
        try:
            self.api.call("POST", f"{self.repository(repository)}/statuses/{commit}",
                          {"context": self.context, "state": state, "description": text[:140]})
        except ForgeFault as fault:
            if fault.status == 422 and FULL in fault.said:
                raise Full(str(fault), fault.status, fault.said) from fault
            raise
        return True

    def time(self) -> datetime | None:
        return self.api.time

    def comment(self, place: Place, comment: int | None, text: str) -> int:
        of_request, mark = self.path(place, "issues") + "/comments", mark_of(self.secret, place)
        body = {"body": f"{text}\n\n{mark}"}
        written = f"{self.repository(place.repository)}/issues/comments"
        with expected(of_request):
            for number in itertools.chain(self.kept_comment(written, comment), self.own_comments(of_request, mark)):
                if self.api.find("PATCH", f"{written}/{number}", body, (403, 404)) is not None:
                    self.owned.add(number)
                    return number
            number = int(self.api.call("POST", of_request, body)["id"])
            self.owned.add(number)
            return number

    def kept_comment(self, written: str, comment: int | None) -> Iterator[int]:
        """The comment whose number was kept, if it is this account's. Whoever may write to a repository edits what
        others wrote there, and an earlier version may have kept the number of somebody's copy of the mark."""
        if comment is not None and comment not in self.owned:
            found = self.api.find("GET", f"{written}/{comment}")
            if found and is_by(found, "user", self.api.account()):
                self.owned.add(comment)
        if comment is not None and comment in self.owned:
            yield comment

    def own_comments(self, path: str, mark: str) -> Iterator[int]:
        rows = self.rows(path, self.comments_read())
        yield from marked(rows, mark, "user", self.api.account())

    def close(self, place: Place, head: str) -> bool:
        so = self.outline(place)
        if so is None or so.state is not State.OPEN or so.head != head:
            return False
        # Gitea answers 412 where it has seen the merge meanwhile.
        return self.api.find("PATCH", self.path(place), {"state": "closed"}, (404, 412)) is not None

    def head_ref(self, number: int) -> str:
        return f"refs/pull/{number}/head"


class Gitea(GitHub):
    """Gitea: its own words for reviews, another signature, and lists that don't link their pages."""

    limits, requests_at = Limits(), "/pulls/"
    # Unless "Autodetect manual merge" is on.
    leaves_open = True
    page_size = "limit"
    has_links = False
    has_whole_comments = True
    events, event = "timeline", "type"
    target_events = ("change_target_branch",)
    push_events = ("pull_push", "delete_branch")
    signature = "X-Gitea-Signature"

    def api_headers(self, token: str) -> dict[str, str]:
        return {"Authorization": f"token {token}"}

    def verdict(self, review: dict[str, Any]) -> str | None:
        # Whether Gitea calls it stale doesn't matter: its commit says that, and a stale rejection holds.
        says = {"APPROVED": "approves", "REQUEST_CHANGES": "rejects"}.get(review["state"])
        return "dismissed" if says and review.get("dismissed") else says

    def submitted(self, review: dict[str, Any]) -> str:
        """Gitea's time of a review is that at which it was begun, and between that and the end of it its person may
        approve by a comment. So an objection is of the time at which it was changed last: it isn't before its end."""
        is_against = self.verdict(review) == "rejects"
        at: str = is_against and review.get("updated_at") or review["submitted_at"]
        return at
