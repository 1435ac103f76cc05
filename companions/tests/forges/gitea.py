"""Gitea's API and hooks, over the model of a stand-in forge: what it doesn't have as GitHub has it."""
from __future__ import annotations

from datetime import datetime, timedelta, timezone
from typing import Any

from companions.forges import Place
from companions.tests.forges.form import Question, Reply, Route
from companions.tests.forges.github import REPOSITORY, GitHubForm
from companions.tests.forges.github_shown import signature
from companions.tests.forges.hooks import Hook
from companions.tests.forges.model import Entry, Pull, Status

# Which review an event of its API is.
EVENTS = {"APPROVED": "approved", "REQUEST_CHANGES": "rejected", "COMMENT": "reviewed", "PENDING": "begun", "": "begun"}


class GiteaForm(GitHubForm):
    """Gitea, which says what was dismissed by a member, has comments whole, and links pull requests' pages alone."""

    prefix, page_name, largest_page, pull_path, description_limit = "/api/v1", "limit", 50, "pulls", 10**6
    has_tags, content_type, limits_name = False, "application/json;charset=utf-8", ""
    review_states = {"approved": "APPROVED", "rejected": "REQUEST_CHANGES", "reviewed": "COMMENT", "begun": "PENDING",
                     "asked": "REQUEST_REVIEW"}
    schemes, events, comment_limit = ("token", "Bearer"), EVENTS, 10**6
    zone = timezone(timedelta(hours=2))

    def unknown(self) -> Reply:
        return Reply(401, {"message": "invalid username, password or token", "url": f"{self.web}/api/swagger"})

    def missing(self) -> Reply:
        return Reply(404, {"message": "The target couldn't be found.", "url": f"{self.web}/api/swagger", "errors": []})

    def linked(self, path: str) -> str:
        return path

    def moved(self, method: str, repository: str, rest: str) -> Reply:
        return Reply(307, None, {"Location": f"{self.prefix}/repos/{repository}{rest}"})

    def routes(self) -> list[Route]:
        undismiss = REPOSITORY + r"/pulls/(\d+)/reviews/(\d+)/dismissals"
        return [("POST", undismiss, self.dismiss),
                *(it for it in super().routes() if not (it[0] == "PUT" and it[1] == undismiss)
                  and not it[1].endswith("/check-runs"))]

    def time(self, at: datetime) -> str:
        return at.astimezone(self.zone).replace(microsecond=0).isoformat()

    def review(self, place: Place, it: Entry) -> dict[str, Any]:
        begun = self.time(it.begun or it.at)
        return {**super().review(place, it), "state": self.review_states[it.kind], "dismissed": it.is_dismissed,
                "submitted_at": begun, "updated_at": self.time(it.at), "stale": False,
                "commit_id": "" if it.kind == "asked" else it.commit, "official": it.kind != "reviewed"}

    def status(self, it: Status) -> dict[str, Any]:
        """Gitea calls the state a status."""
        shown = super().status(it)
        return {**shown, "status": shown.pop("state"), "target_url": it.link or ""}

    def reviews(self, question: Question) -> Reply:
        reply = super().reviews(question)
        return Reply(reply.status, reply.said)

    def comments(self, question: Question) -> Reply:
        pull = self.find(question)
        return Reply(200, [self.said(pull.place, it) for it in pull.of("commented")]) if pull else self.missing()

    def hook(self, what: str, pull: Pull, entry: Entry | None) -> Hook | None:
        # Gitea sends none of what is dismissed.
        return None if what == "dismissed" else super().hook(what, pull, entry)

    def of_review(self, what: str, pull: Pull, entry: Entry) -> tuple[str, dict[str, Any]]:
        event = f"pull_request_{what}"
        return event, {"action": "reviewed", "review": {"type": f"pull_request_review_{what}", "content": entry.text}}

    def signed(self, what: str, event: str, pull: Pull, said: dict[str, Any]) -> Hook:
        hook = super().signed(what, event, pull, said)
        more = {"X-Gitea-Event": event, "X-Gitea-Signature": signature(self.secret, hook.body)}
        return Hook(what, pull.place, {**hook.headers, **more}, hook.body)
