"""How GitHub shows what is in a stand-in forge: its objects and its hooks, as recorded answers have them."""
from __future__ import annotations

import hashlib
import hmac
import json
import uuid
from datetime import datetime
from typing import Any

from companions.forges import Place
from companions.tests.forges.form import Form, Reply
from companions.tests.forges.hooks import Hook
from companions.tests.forges.model import Entry, Pull, Status, Webhook

ACTIONS = {"opened": "opened", "pushed": "synchronize", "edited": "edited", "closed": "closed", "merged": "closed",
           "reopened": "reopened", "drafted": "converted_to_draft", "readied": "ready_for_review"}
COMMENT_ACTIONS = {"commented": "created", "comment edited": "edited", "comment deleted": "deleted"}
REVIEWS = ("approved", "rejected", "reviewed", "begun", "asked")


def signature(secret: str, body: bytes) -> str:
    return hmac.new(secret.encode(), body, hashlib.sha256).hexdigest()


class GitHubShown(Form):
    """The objects of GitHub's API. Whose account is gone is nobody."""

    pull_path = "pull"
    review_states = {"approved": "APPROVED", "rejected": "CHANGES_REQUESTED", "reviewed": "COMMENTED",
                     "begun": "PENDING"}

    def time(self, at: datetime) -> str:
        return at.strftime("%Y-%m-%dT%H:%M:%SZ")

    def user(self, name: str | None) -> dict[str, Any] | None:
        """None where the account was deleted."""
        return {"id": self.model.account(name), "login": name, "type": "User", "site_admin": False,
                "url": f"{self.api}/users/{name}", "html_url": f"{self.web}/{name}"} if name else None

    def address(self, place: Place) -> str:
        return f"{self.web}/{place.repository}/{self.pull_path}/{place.number}"

    def url(self, repository: str) -> str:
        return f"{self.api}/repos/{repository}"

    def base(self, name: str) -> dict[str, Any]:
        """A repository."""
        owner, _, short = name.partition("/")
        return {"id": self.model.repositories[name], "name": short, "full_name": name, "owner": self.user(owner),
                "url": self.url(name), "html_url": f"{self.web}/{name}", "default_branch": "main", "private": False}

    def pull(self, it: Pull) -> dict[str, Any]:
        """A pull request as a list and a hook have it."""
        base = self.base(it.place.repository)
        # The repository of a fork may be gone.
        head = {"label": f"{it.author}:topic", "ref": "topic", "sha": it.head, "repo": None if it.is_fork else base}
        closed = self.time(it.changed) if it.state != "open" else None
        return {"id": it.id, "number": it.place.number, "state": "open" if it.state == "open" else "closed",
                "title": it.title, "body": it.text or None, "user": self.user(it.author), "draft": it.is_draft,
                "html_url": self.address(it.place), "created_at": self.time(it.at),
                "updated_at": self.time(it.changed), "closed_at": closed, "head": head,
                "merged_at": self.time(it.at) if it.merged_by else None,
                "base": {"label": f"acme:{it.target}", "ref": it.target, "sha": "0" * 40, "repo": base},
                **self.links(it)}

    def links(self, it: Pull) -> dict[str, Any]:
        url, number = self.url(it.place.repository), it.place.number
        pull, issue = f"{url}/pulls/{number}", f"{url}/issues/{number}"
        links = {"self": pull, "html": self.address(it.place), "issue": issue, "comments": f"{issue}/comments",
                 "review_comments": f"{pull}/comments", "commits": f"{pull}/commits",
                 "statuses": f"{url}/statuses/{it.head}"}
        return {"url": pull, "issue_url": issue, "comments_url": links["comments"], "statuses_url": links["statuses"],
                "_links": {name: {"href": there} for name, there in links.items()}}

    def whole(self, it: Pull) -> dict[str, Any]:
        return {**self.pull(it), "merged": it.state == "merged", "merged_by": self.user(it.merged_by),
                "comments": len(it.of("commented"))}

    def issue(self, it: Pull) -> dict[str, Any]:
        """A pull request as the issue that it is too."""
        pull = self.pull(it)
        kept = ("id", "number", "state", "title", "body", "user", "created_at", "updated_at", "closed_at", "html_url",
                "comments_url")
        return {**{name: pull[name] for name in kept}, "url": pull["issue_url"],
                "events_url": f"{pull['issue_url']}/events",
                "pull_request": {"url": pull["url"], "html_url": pull["html_url"]}}

    def review(self, place: Place, it: Entry) -> dict[str, Any]:
        """A review. One that its person hasn't given yet has no time, and nobody else sees it."""
        address = f"{self.address(place)}#pullrequestreview-{it.id}"
        shown = {"id": it.id, "user": self.user(it.person), "body": it.text, "commit_id": it.commit or None,
                 "state": "DISMISSED" if it.is_dismissed else self.review_states[it.kind],
                 "html_url": address, "author_association": "MEMBER",
                 "pull_request_url": f"{self.url(place.repository)}/pulls/{place.number}",
                 "_links": {"html": {"href": address}}}
        return shown if it.kind == "begun" else {**shown, "submitted_at": self.time(it.at)}

    def said(self, place: Place, it: Entry) -> dict[str, Any]:
        url = self.url(place.repository)
        return {"id": it.id, "user": self.user(it.person), "body": it.text, "created_at": self.time(it.at),
                "updated_at": self.time(it.edited or it.at), "author_association": "NONE",
                "url": f"{url}/issues/comments/{it.id}", "issue_url": f"{url}/issues/{place.number}",
                "html_url": f"{self.address(place)}#issuecomment-{it.id}"}

    def status(self, it: Status) -> dict[str, Any]:
        return {"id": it.number, "state": it.state, "description": it.text, "context": it.context,
                "target_url": it.link,
                "creator": self.user(it.by), "created_at": self.time(it.at), "updated_at": self.time(it.at),
                "url": f"{self.url(it.repository)}/statuses/{it.commit}"}

    def webhook(self, it: Webhook) -> dict[str, Any]:
        """A webhook, whose secret nobody reads."""
        return {"id": it.id, "type": "Repository", "name": "web", "active": True, "events": ["pull_request"],
                "config": {"content_type": "json", "insecure_ssl": "0", "secret": "********", "url": it.url},
                "url": f"{self.url(it.repository)}/hooks/{it.id}", "created_at": self.time(self.model.now),
                "updated_at": self.time(self.model.now)}

    def wrong(self, **error: str) -> Reply:
        """What was sent can't be taken."""
        return Reply(422, {"message": "Validation Failed", "errors": [error]})

    def hook(self, what: str, pull: Pull, entry: Entry | None) -> Hook | None:
        said: dict[str, Any] = {"repository": self.base(pull.place.repository), "sender": self.user("ann")}
        if what in ACTIONS:
            event = "pull_request"
            said |= {"action": ACTIONS[what], "number": pull.place.number, "pull_request": self.whole(pull)}
        elif what in COMMENT_ACTIONS and entry:
            event = "issue_comment"
            said |= {"action": COMMENT_ACTIONS[what], "issue": self.issue(pull),
                     "comment": self.said(pull.place, entry)}
        elif entry:
            event, more = self.of_review(what, pull, entry)
            said |= {**more, "pull_request": self.pull(pull)}
        else:
            return None
        return self.signed(what, event, pull, said)

    def of_review(self, what: str, pull: Pull, entry: Entry) -> tuple[str, dict[str, Any]]:
        review = self.review(pull.place, entry)
        return "pull_request_review", {"action": "dismissed" if what == "dismissed" else "submitted",
                                       "review": {**review, "state": review["state"].lower()}}

    def signed(self, what: str, event: str, pull: Pull, said: dict[str, Any]) -> Hook:
        body = json.dumps(said).encode()
        return Hook(what, pull.place, {"Content-Type": "application/json", "X-GitHub-Event": event,
                                       "X-GitHub-Delivery": str(uuid.uuid4()),
                                       "X-Hub-Signature-256": f"sha256={signature(self.secret, body)}"}, body)
