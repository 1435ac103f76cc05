"""GitLab's API over the model of a stand-in forge, after recorded answers and its documentation."""
from __future__ import annotations

import re
import urllib.parse
from typing import Any

from companions.forges import Place
from companions.tests.forges.form import Question, Reply, Route
from companions.tests.forges.gitlab_shown import GitLabShown
from companions.tests.forges.model import Entry, Pull, Status
from companions.tests.forges.ran_shown import GitLabPipelines

PROJECT = r"/projects/([^/]+)"
NAMED = re.compile(PROJECT + "((?:/.*)?)")
STATUS_STATES = ("pending", "running", "success", "failed", "canceled")


class GitLabForm(GitLabShown):
    """GitLab. It has no reviews that are against a request."""

    prefix, comment_limit, description_limit, title_limit = "/api/v4", 10**6, 255, 255
    hourly, limits_name, default_page = 2000, "RateLimit", 20

    def who(self, headers: dict[str, str]) -> str | None:
        scheme, _, bearer = headers.get("Authorization", "").partition(" ")
        return self.tokens.get(headers.get("Private-Token", bearer if scheme == "Bearer" else ""))

    def unknown(self) -> Reply:
        return Reply(401, {"message": "401 Unauthorized"})

    def place_of(self, path: str) -> tuple[str, str, str] | None:
        found = NAMED.fullmatch(path)
        return ("", urllib.parse.unquote(found[1]), found[2]) if found is not None else None

    def path_of(self, repository: str, rest: str) -> str:
        return f"/projects/{urllib.parse.quote(repository, safe='')}{rest}"

    def moved(self, method: str, repository: str, rest: str) -> Reply:
        """Only questions are referred."""
        if method != "GET":
            said = "405 Method Not Allowed - Non GET methods are not allowed for moved projects"
            return Reply(405, {"message": said})
        return Reply(302, {"message": "302 Found"},
                     {"Location": f"{self.api}/projects/{self.model.repositories[repository]}{rest}"})

    def routes(self) -> list[Route]:
        request, hooks = PROJECT + r"/merge_requests/(\d+)", PROJECT + "/hooks"
        note = request + r"/notes/(\d+)"
        return [("GET", PROJECT, self.project_shown), ("GET", PROJECT + "/merge_requests", self.requests),
                ("GET", request, self.one), ("PUT", request, self.edit),
                ("GET", request + "/approvals", self.approvals),
                ("POST", request + "/approve", self.approve), ("POST", request + "/unapprove", self.unapprove),
                ("GET", request + "/notes", self.notes), ("POST", request + "/notes", self.add_note),
                ("GET", request + "/versions", self.versions), ("GET", note, self.one_note),
                ("PUT", note, self.edit_note), ("DELETE", note, self.delete_note),
                ("GET", PROJECT + "/members/all", self.members),
                ("GET", "/user", lambda it: Reply(200, self.user(it.who))), ("GET", "/users", self.persons),
                ("POST", PROJECT + "/statuses/([0-9a-f]+)", self.add_status),
                ("GET", PROJECT + "/repository/commits/([0-9a-f]+)/statuses", self.statuses),
                ("GET", hooks, self.hooks), ("POST", hooks, self.add_hook),
                ("DELETE", hooks + r"/(\d+)", self.delete_hook), *GitLabPipelines(self, PROJECT).routes()]

    def missing(self) -> Reply:
        return Reply(404, {"message": "404 Not found"})

    def forbidden(self) -> Reply:
        return Reply(403, {"message": "403 Forbidden"})

    def find(self, question: Question) -> Pull | None:
        return self.model.pulls.get(Place(question.parts[0], int(question.parts[1])))

    def may_write(self, question: Question) -> bool:
        return self.model.may_write(question.parts[0], question.who)

    def listed(self, rows: list[Any], question: Question) -> Reply:
        """A page; headers say too which one it is, and of how many."""
        reply = super().listed(rows, question)
        page, size = self.page_of(question)
        pages = max(1, -(-len(rows) // size))
        of_page = {"Page": page, "Per-Page": size, "Total": len(rows), "Total-Pages": pages,
                   "Next-Page": page + 1 if page < pages else "", "Prev-Page": page - 1 or ""}
        return Reply(reply.status, reply.said, {**reply.headers, **{f"X-{it}": str(n) for it, n in of_page.items()}})

    def project_shown(self, question: Question) -> Reply:
        name = question.parts[0]
        return Reply(200, self.project(name)) if name in self.model.writers else self.no_project()

    def no_project(self) -> Reply:
        return Reply(404, {"message": "404 Project Not Found"})

    def requests(self, question: Question) -> Reply:
        if question.parts[0] not in self.model.writers:
            return self.no_project()
        state = question.query.get("state", "all")
        rows = [self.request(it) for it in reversed(self.model.of(question.parts[0]))]
        return self.listed([it for it in rows if state in ("all", it["state"])], question)

    def one(self, question: Question) -> Reply:
        it = self.find(question)
        return Reply(200, self.request(it)) if it else self.missing()

    def edit(self, question: Question) -> Reply:
        """Whoever may write, or has opened it, closes a request, opens it again, or gives it other texts."""
        it, said = self.find(question), question.said
        if it is None:
            return self.missing()
        if not self.may_write(question) and question.who != it.author:
            return self.forbidden()
        if len(said.get("title", "")) > self.title_limit:
            return Reply(400, {"message": {"title": [f"is too long (maximum is {self.title_limit} characters)"]}})
        if "title" in said or "description" in said:
            self.model.edit(it.place, said.get("title"), said.get("description"))
        if said.get("state_event") == "close" and it.state == "open":
            self.model.close(it.place)
        if said.get("state_event") == "reopen" and it.state == "closed":
            self.model.reopen(it.place)
        return Reply(200, self.request(it))

    def approvals(self, question: Question) -> Reply:
        it = self.find(question)
        return Reply(200, self.approving(it, question.who)) if it else self.missing()

    def approve(self, question: Question) -> Reply:
        """Nobody approves twice who hasn't taken that back, nor another commit than the one that is named."""
        it = self.find(question)
        if it is None:
            return self.missing()
        if question.said.get("sha", it.head) != it.head:
            return Reply(409, {"message": f"SHA does not match HEAD of source branch: {it.head}"})
        if question.who in it.approving():
            return self.unknown()
        self.model.approve(it.place, question.who)
        return Reply(201, self.approving(it, question.who))

    def unapprove(self, question: Question) -> Reply:
        it = self.find(question)
        if it is None or question.who not in it.approving():
            return self.missing()
        self.model.dismiss(it.place, question.who)
        return Reply(201, self.approving(it, question.who))

    def notes(self, question: Question) -> Reply:
        it = self.find(question)
        if it is None:
            return self.missing()
        rows = [self.note(entry) for entry in it.entries if entry.kind not in ("rejected", "begun", "asked")]
        is_ascending = question.query.get("sort") == "asc"
        return self.listed(rows if is_ascending else rows[::-1], question)

    def versions(self, question: Question) -> Reply:
        """The heads that were looked at."""
        it = self.find(question)
        if it is None:
            return self.missing()
        rows = [{"id": entry.note, "head_commit_sha": entry.commit, "base_commit_sha": "0" * 40, "state": "collected",
                 "start_commit_sha": "0" * 40, "created_at": self.time(entry.at)} for entry in it.of("pushed")]
        return self.listed(rows[::-1] if it.is_prepared else rows[-2::-1], question)

    def members(self, question: Question) -> Reply:
        """Who is asked for is looked for in parts of names."""
        writers = self.model.writers.get(question.parts[0], set())
        named = [*sorted(writers), "guest-of-ann", "cy"]
        rows: list[dict[str, Any]] = [{**self.user(it), "access_level": 30 if it in writers else 10} for it in named]
        return self.listed([it for it in rows if question.query.get("query", "") in it["username"]], question)

    def persons(self, question: Question) -> Reply:
        name = question.query["username"].casefold()
        return Reply(200, [] if name == "nobody" else [self.user(name)])

    def found_note(self, question: Question) -> tuple[Place, Entry] | None:
        return self.model.find_comment(question.parts[0], int(question.parts[2]), by_note=True)

    def refused(self, question: Question) -> Reply | None:
        """Why a note can't be changed, if it can't: who may write changes those of others too."""
        found, text = self.found_note(question), question.said.get("body", "")
        if found is None:
            return Reply(404, {"message": "404 Note Not Found"})
        if question.who != found[1].person and not self.may_write(question):
            return self.forbidden()
        return self.too_long() if len(text) > self.comment_limit else None

    def too_long(self) -> Reply:
        return Reply(400, {"message": {"note": [f"is too long (maximum is {self.comment_limit} characters)"]}})

    def one_note(self, question: Question) -> Reply:
        found = self.found_note(question)
        return Reply(200, self.note(found[1])) if found else Reply(404, {"message": "404 Note Not Found"})

    def add_note(self, question: Question) -> Reply:
        it, text = self.find(question), question.said.get("body", "")
        if it is None:
            return self.missing()
        if len(text) > self.comment_limit:
            return self.too_long()
        return Reply(201, self.note(self.model.comment(it.place, question.who, text)))

    def edit_note(self, question: Question) -> Reply:
        refused, found = self.refused(question), self.found_note(question)
        if refused is not None or found is None:
            return refused or self.missing()
        self.model.edit_comment(*found, question.said["body"])
        return Reply(200, self.note(found[1]))

    def delete_note(self, question: Question) -> Reply:
        refused, found = self.refused(question), self.found_note(question)
        if refused is not None or found is None:
            return refused or self.missing()
        self.model.delete_comment(*found)
        return Reply(204, None)

    def add_status(self, question: Question) -> Reply:
        (repository, commit), said = question.parts, question.said
        if not self.model.has(repository, commit):
            return Reply(404, {"message": "404 Commit Not Found"})
        if any(it.is_fork for it in self.model.of(repository) if it.head == commit):
            return Reply(404, {"message": "404 References for commit Not Found"})
        name, text = said.get("name") or said.get("context") or "default", said.get("description") or ""
        found = [it for it in self.model.statuses_of(repository, commit) if it.context == name]
        last = found[0] if found else None
        if said["state"] == "pending" and last and last.state == "pending":
            return Reply(400, {"message": "Cannot transition status via :enqueue from :pending (Reason(s): "
                                          'Status cannot transition via "enqueue")'})
        if said["state"] not in STATUS_STATES:
            return Reply(400, {"error": "state does not have a valid value"})
        if len(text) > self.description_limit:
            return Reply(400, {"message": {"description": ["is too long (maximum is 255 characters)"]}})
        state = {"failed": "failure"}.get(said["state"], said["state"])
        self.model.set_status(Status(repository, commit, state, text, question.who, context=name,
                                     link=said.get("target_url")))
        return Reply(201, self.status(self.model.statuses[-1]))

    def statuses(self, question: Question) -> Reply:
        reply = self.listed(self.model.statuses_of(*question.parts), question)
        return Reply(reply.status, [self.status(it) for it in reply.said], reply.headers)

    def hooks(self, question: Question) -> Reply:
        rows = [self.webhook(it) for it in self.model.webhooks if it.repository == question.parts[0]]
        return self.listed(rows, question) if self.may_write(question) else self.forbidden()

    def add_hook(self, question: Question) -> Reply:
        if not self.may_write(question):
            return self.forbidden()
        if not question.said.get("url"):
            return Reply(400, {"error": "url is missing"})
        hook = self.model.hook(question.parts[0], question.said["url"], question.said.get("token", ""))
        self.when_hooked(hook)
        return Reply(201, self.webhook(hook))

    def delete_hook(self, question: Question) -> Reply:
        is_there = self.may_write(question) and self.model.unhook(question.parts[0], int(question.parts[1]))
        return Reply(204, None) if is_there else self.missing()
