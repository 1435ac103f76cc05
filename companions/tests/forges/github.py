"""GitHub's API over the model of a stand-in forge, after recorded answers and its documentation."""
from __future__ import annotations

import re
import urllib.parse
from typing import Any

from companions.forges import Place
from companions.tests.forges.form import Question, Reply, Route
from companions.tests.forges.github_shown import REVIEWS, GitHubShown, signature
from companions.tests.forges.model import Entry, Pull, Status
from companions.tests.forges.ran_shown import GitHubChecks, GitHubRuns

__all__ = ["GitHubForm", "signature"]

REPOSITORY = r"/repos/([^/]+)/([^/]+)"
BY_NUMBER = re.compile(r"/repositories/(\d+)((?:/.*)?)")
BY_NAME = re.compile(r"/repos/([^/]+/[^/]+)((?:/.*)?)")
# Which review an event of GitHub's API is. Without one it is begun.
EVENTS = {"APPROVE": "approved", "REQUEST_CHANGES": "rejected", "COMMENT": "reviewed", "": "begun"}
DOCUMENTATION = "https://docs.github.com/rest"


class GitHubForm(GitHubShown):
    """GitHub, whose lists come by pages with links."""

    description_limit, title_limit, has_tags = 140, 256, True
    content_type, limits_name = "application/json; charset=utf-8", "X-RateLimit"
    schemes, events = ("Bearer", "token"), EVENTS

    def who(self, headers: dict[str, str]) -> str | None:
        scheme, _, token = headers.get("Authorization", "").partition(" ")
        return self.tokens.get(token) if scheme in self.schemes else None

    def unknown(self) -> Reply:
        return Reply(401, {"message": "Bad credentials", "documentation_url": DOCUMENTATION})

    def place_of(self, path: str) -> tuple[str, str, str] | None:
        found = BY_NUMBER.fullmatch(path) or BY_NAME.fullmatch(path)
        return ("", urllib.parse.unquote(found[1]), found[2]) if found is not None else None

    def path_of(self, repository: str, rest: str) -> str:
        return f"/repos/{urllib.parse.quote(repository)}{rest}"

    def linked(self, path: str) -> str:
        """Links name a repository by its number."""
        found = self.place_of(path)
        number = self.model.repositories.get(found[1]) if found else None
        return path if found is None or number is None else f"/repositories/{number}{found[2]}"

    def moved(self, method: str, repository: str, rest: str) -> Reply:
        there = f"{self.api}/repositories/{self.model.repositories[repository]}{rest}"
        said = {"message": "Moved Permanently", "url": there, "documentation_url": f"{DOCUMENTATION}/#http-redirects"}
        return Reply(301 if method == "GET" else 307, said, {"Location": there})

    def routes(self) -> list[Route]:
        pull, issue = REPOSITORY + r"/pulls/(\d+)", REPOSITORY + r"/issues/(\d+)"
        said, hooks = REPOSITORY + r"/issues/comments/(\d+)", REPOSITORY + "/hooks"
        return [("GET", REPOSITORY, self.repository_shown), ("GET", REPOSITORY + "/pulls", self.pulls),
                ("GET", pull, self.one), ("PATCH", pull, self.edit), ("GET", pull + "/reviews", self.reviews),
                ("POST", pull + "/reviews", self.add_review),
                ("PUT", pull + r"/reviews/(\d+)/dismissals", self.dismiss),
                ("GET", issue, self.one_issue), ("PATCH", issue, self.edit),
                ("GET", issue + "/comments", self.comments), ("POST", issue + "/comments", self.add_comment),
                ("GET", issue + "/events", self.list_events), ("GET", issue + "/timeline", self.timeline),
                ("GET", "/user", lambda it: Reply(200, self.user(it.who))), ("GET", "/users/([^/]+)", self.person),
                ("GET", said, self.one_comment), ("PATCH", said, self.edit_comment),
                ("DELETE", said, self.delete_comment),
                ("GET", REPOSITORY + "/collaborators/([^/]+)/permission", self.permission),
                ("POST", REPOSITORY + "/statuses/([0-9a-f]+)", self.add_status),
                ("GET", REPOSITORY + "/commits/([0-9a-f]+)", self.one_commit),
                ("GET", REPOSITORY + "/commits/([0-9a-f]+)/statuses", self.statuses),
                ("GET", REPOSITORY + "/statuses/([0-9a-f]+)", self.statuses),
                ("GET", hooks, self.hooks), ("POST", hooks, self.add_hook),
                ("DELETE", hooks + r"/(\d+)", self.delete_hook), *GitHubRuns(self, REPOSITORY).routes(),
                *GitHubChecks(self, REPOSITORY).routes()]

    def repository(self, question: Question) -> str:
        return "/".join(question.parts[:2])

    def find(self, question: Question) -> Pull | None:
        return self.model.pulls.get(Place(self.repository(question), int(question.parts[2])))

    def may_write(self, question: Question) -> bool:
        return self.model.may_write(self.repository(question), question.who)

    def repository_shown(self, question: Question) -> Reply:
        name = self.repository(question)
        return Reply(200, self.base(name)) if name in self.model.writers else self.missing()

    def pulls(self, question: Question) -> Reply:
        repository, state = self.repository(question), question.query.get("state", "open")
        if repository not in self.model.writers:
            return self.missing()
        rows = [self.pull(it) for it in reversed(self.model.of(repository))]
        return self.listed([it for it in rows if state in ("all", it["state"])], question)

    def one(self, question: Question) -> Reply:
        pull = self.find(question)
        return Reply(200, self.whole(pull)) if pull else self.missing()

    def one_issue(self, question: Question) -> Reply:
        pull = self.find(question)
        return Reply(200, self.issue(pull)) if pull else self.missing()

    def edit(self, question: Question) -> Reply:
        """Whoever may write, or has opened it, closes a request, opens it again, or gives it other texts."""
        pull, said = self.find(question), question.said
        if pull is None:
            return self.missing()
        if not self.may_write(question) and question.who != pull.author:
            return Reply(403, {"message": "Must have admin rights to Repository."})
        if said.get("state") not in (None, "open", "closed") or len(said.get("title", "")) > self.title_limit:
            return self.wrong(resource="PullRequest", code="invalid")
        if "title" in said or "body" in said:
            self.model.edit(pull.place, said.get("title"), said.get("body"))
        if "state" in said and said["state"] != pull.state and pull.state != "merged":
            (self.model.close if said["state"] == "closed" else self.model.reopen)(pull.place)
        return Reply(200, self.issue(pull) if "/issues/" in question.path else self.whole(pull))

    def reviews(self, question: Question) -> Reply:
        pull = self.find(question)
        rows = [self.review(pull.place, it) for it in self.seen(pull, question.who)] if pull else []
        return self.listed(rows, question) if pull else self.missing()

    def seen(self, pull: Pull, who: str) -> list[Entry]:
        """The reviews that somebody sees."""
        return [it for it in pull.of(*REVIEWS) if it.kind in self.review_states
                and (it.kind != "begun" or it.person == who)]

    def add_review(self, question: Question) -> Reply:
        pull, kind = self.find(question), self.events.get(str(question.said.get("event", "")))
        if pull is None or kind is None:
            return self.missing() if pull is None else self.wrong(resource="PullRequestReview", field="event")
        if question.who == pull.author and kind in ("approved", "rejected"):
            what = "approve" if kind == "approved" else "request changes on"
            return Reply(422, {"message": "Unprocessable Entity", "errors": [f"Can not {what} your own pull request"]})
        text = question.said.get("body") or ""
        entry = (self.model.begin_review(pull.place, question.who) if kind == "begun" else
                 self.model.say(kind, pull.place, question.who, text))
        return Reply(200, self.review(pull.place, entry))

    def dismiss(self, question: Question) -> Reply:
        pull = self.find(question)
        found = [it for it in pull.of("approved", "rejected") if it.id == int(question.parts[3])] if pull else []
        if pull is None or not found:
            return self.missing()
        if not self.may_write(question):
            return Reply(403, {"message": "Must have admin rights to Repository."})
        self.model.dismiss(pull.place, found[0].person)
        return Reply(200, self.review(pull.place, found[0]))

    def comments(self, question: Question) -> Reply:
        pull = self.find(question)
        rows = [self.said(pull.place, it) for it in pull.of("commented")] if pull else []
        return self.listed(rows, question) if pull else self.missing()

    def list_events(self, question: Question) -> Reply:
        """What was done to a request since it was opened, of which pushes and changes of its target are shown here. Its
        pushes are forced ones."""
        names = {"retargeted": "base_ref_changed", "pushed": "head_ref_force_pushed"}
        pull = self.find(question)
        url = f"{self.url(self.repository(question))}/issues/events"
        rows = [{"id": it.note, "event": names[it.kind], "actor": self.user(it.person), "created_at": self.time(it.at),
                 "url": f"{url}/{it.note}", "commit_id": None}
                for it in (pull.of(*names)[1:] if pull else [])]
        return self.listed(rows, question) if pull else self.missing()

    def timeline(self, question: Question) -> Reply:
        """Gitea's list of all that was said and done."""
        names = {"retargeted": "change_target_branch", "pushed": "pull_push", "commented": "comment"}
        pull = self.find(question)
        rows = [{"id": it.note, "type": names[it.kind], "user": self.user(it.person), "created_at": self.time(it.at),
                 "body": it.text} for it in (pull.of(*names)[1:] if pull else [])]
        return self.listed(rows, question) if pull else self.missing()

    def add_comment(self, question: Question) -> Reply:
        pull, text = self.find(question), question.said.get("body", "")
        if pull is None:
            return self.missing()
        if not text or len(text) > self.comment_limit:
            return self.too_long()
        return Reply(201, self.said(pull.place, self.model.comment(pull.place, question.who, text)))

    def too_long(self) -> Reply:
        said = f"Body is too long (maximum is {self.comment_limit} characters)"
        return self.wrong(resource="IssueComment", code="unprocessable", field="data", message=said)

    def found_comment(self, question: Question) -> tuple[Place, Entry] | None:
        return self.model.find_comment(self.repository(question), int(question.parts[2]))

    def one_comment(self, question: Question) -> Reply:
        found = self.found_comment(question)
        return Reply(200, self.said(*found)) if found else self.missing()

    def edit_comment(self, question: Question) -> Reply:
        """Whoever may write to the repository edits what others wrote."""
        found, text = self.found_comment(question), question.said.get("body", "")
        refused = self.refused(question, found)
        if refused is not None or found is None:
            return refused or self.missing()
        if len(text) > self.comment_limit:
            return self.too_long()
        self.model.edit_comment(*found, text)
        return Reply(200, self.said(*found))

    def delete_comment(self, question: Question) -> Reply:
        found = self.found_comment(question)
        refused = self.refused(question, found)
        if refused is not None or found is None:
            return refused or self.missing()
        self.model.delete_comment(*found)
        return Reply(204, None)

    def refused(self, question: Question, found: tuple[Place, Entry] | None) -> Reply | None:
        """Why somebody may not change a comment, if that is so."""
        if found and question.who != found[1].person and not self.may_write(question):
            return Reply(403, {"message": "Must have admin rights to Repository."})
        return None

    def permission(self, question: Question) -> Reply:
        writers, person = self.model.writers.get(self.repository(question)), question.parts[2]
        if writers is None or person == "nobody":
            return self.missing()
        says = "write" if person in writers else "read"
        return Reply(200, {"permission": says, "role_name": says, "user": self.user(person)})

    def person(self, question: Question) -> Reply:
        name = question.parts[0].casefold()
        return self.missing() if name == "nobody" else Reply(200, self.user(name))

    def add_status(self, question: Question) -> Reply:
        repository, commit, said = self.repository(question), question.parts[2], question.said
        if not self.model.has(repository, commit):
            return Reply(422, {"message": f"No commit found for SHA: {commit}"})
        is_known = said["state"] in ("error", "failure", "pending", "success") and len(said["context"]) <= 255
        if not is_known or len(said.get("description") or "") > self.description_limit:
            return self.wrong(resource="Status", code="custom", field="description")
        if said["context"] == "gate" and self.model.is_full(repository, commit):
            return self.wrong(resource="Status", code="custom", message="This SHA and context has reached the maximum"
                                                                        " number of statuses.")
        self.model.set_status(Status(repository, commit, said["state"], said.get("description") or "", question.who,
                                     context=said["context"], link=said.get("target_url")))
        return Reply(201, self.status(self.model.statuses[-1]))

    def one_commit(self, question: Question) -> Reply:
        repository, commit = self.repository(question), question.parts[2]
        if not self.model.has(repository, commit):
            return Reply(422, {"message": f"No commit found for SHA: {commit}"})
        return Reply(200, {"sha": commit, "url": f"{self.url(repository)}/commits/{commit}", "parents": []})

    def statuses(self, question: Question) -> Reply:
        reply = self.listed(self.model.statuses_of(self.repository(question), question.parts[2]), question)
        return Reply(reply.status, [self.status(it) for it in reply.said], reply.headers)

    def hooks(self, question: Question) -> Reply:
        rows = [self.webhook(it) for it in self.model.webhooks if it.repository == self.repository(question)]
        return self.listed(rows, question) if self.may_write(question) else self.missing()

    def add_hook(self, question: Question) -> Reply:
        config: dict[str, Any] = question.said.get("config") or {}
        if not self.may_write(question):
            return self.missing()
        if not config.get("url") or config.get("content_type", "form") not in ("json", "form"):
            return self.wrong(resource="Hook", code="custom")
        hook = self.model.hook(self.repository(question), config["url"], config.get("secret", ""))
        self.when_hooked(hook)
        return Reply(201, self.webhook(hook))

    def delete_hook(self, question: Question) -> Reply:
        is_there = self.may_write(question) and self.model.unhook(self.repository(question), int(question.parts[2]))
        return Reply(204, None) if is_there else self.missing()
