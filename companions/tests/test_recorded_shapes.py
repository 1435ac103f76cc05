"""Recorded objects against the stand-in forge: it shows nothing that the forges don't, nor as something else. And merge
requests of GitLab, and what the libraries' own tests let it answer, read by the adapter."""
from __future__ import annotations

import json
import re
import unittest
from typing import Any, cast

from companions.forges import Place
from companions.requests import State
from companions.tests.forges import StandInForge
from companions.tests.forges.model import GATE, Status
from companions.tests.recorded.case import RecordedCase
from companions.tests.recorded.readers import (buildbot_hooks, github_answers, gitlab_hooks, gitlab_requests,
                                               go_answers, go_members)
from companions.tests.recorded.replay import Answer
from companions.tests.recorded.sources import files

ONE, LIB = "1" * 40, "acme/lib"
# What came to the objects of GitHub behind what is recorded.
LATER = {"comment": ("author_association",), "webhook": ("type",)}
STATES = {"opened": State.OPEN, "closed": State.CLOSED, "merged": State.MERGED}
CLIENT_GO, GO_GITLAB = "golang-gitlab-gitlab-org-api-client-go", "golang-github-xanzy-go-gitlab"
SDK = "golang-code-gitea-sdk"


class Shown:
    """What a stand-in forge shows of a request with a review, a comment, a status and a webhook."""

    def __init__(self, kind: str, test: unittest.TestCase) -> None:
        forge = test.enterContext(StandInForge(kind))
        # Each form has what it shows by names of its own.
        model, form = forge.model, cast(Any, forge.form)
        model.add(LIB, "ann")
        place = model.open(LIB, ONE, "main", "Add one", "Words")
        review, said = model.approve(place, "ann"), model.comment(place, "ann", "Well")
        model.set_status(Status(LIB, ONE, "success", "landed"))
        model.merge(place, "ann")
        pull, status = model.pulls[place], form.status(model.statuses[0])
        hook = json.loads(forge.hooks.waiting[2].body)
        webhook = form.webhook(model.hook(LIB, "http://127.0.0.1:8090/hook", "secret"))
        if kind == "gitlab":
            self.of = {"request": form.request(pull), "approvals": form.approving(pull, GATE), "note": form.note(said),
                       "status": status, "webhook": webhook, "user": form.user("ann"), "hook": hook,
                       "project": form.project(LIB)}
        else:
            self.of = {"pull": form.whole(pull), "review": form.review(place, review), "status": status,
                       "comment": form.said(place, said), "webhook": webhook, "user": form.user("ann"), "hook": hook,
                       "repository": form.base(LIB), "issue": form.issue(pull)}


def kinds(value: Any) -> str:
    """What a value of JSON is, as far as clients tell it apart."""
    return {bool: "bool", int: "number", float: "number", str: "text", list: "list", dict: "object"}[type(value)]


class AsRecordedCase(RecordedCase):
    def compare(self, name: str, shown: dict[str, Any], recorded: list[dict[str, Any]],
                more: tuple[str, ...] = ()) -> None:
        """Each member that is shown is recorded somewhere, and what it is then; `more` are those of later versions."""
        self.assertTrue(recorded, name)
        for member, value in shown.items():
            found = [it[member] for it in recorded if member in it]
            self.assertTrue(found or member in more, f"{name} has {member}, which isn't recorded")
            there = {kinds(it) for it in found if it is not None}
            if value is not None and there:
                self.assertIn(kinds(value), there, f"{name}.{member}")


class GitHubShownTest(AsRecordedCase):
    packages = ("pygithub", "buildbot")

    def rows(self, pattern: str) -> list[dict[str, Any]]:
        """The objects that were answered to paths of a pattern, alone or in lists."""
        texts = [it.content for it in github_answers() if it.status in (200, 201)
                 and re.fullmatch(pattern, it.path.partition("?")[0])]
        return [row for text in texts for row in (lambda it: it if isinstance(it, list) else [it])(json.loads(text))]

    def test_each_object(self) -> None:
        shown, at = Shown("github", self).of, r"(?:/api/v3)?/repos/[^/]+/[^/]+"
        for name, pattern in (("pull", r"/pulls/\d+"), ("review", r"/pulls/\d+/reviews(?:/\d+)?"),
                              ("comment", r"/issues/(?:\d+/comments|comments/\d+)"), ("status", r"/statuses/\w+"),
                              ("webhook", r"/hooks(?:/\d+)?"), ("repository", ""), ("issue", r"/issues/\d+")):
            rows = self.rows(at + pattern)
            self.compare(name, shown[name], rows, LATER.get(name, ()))
        self.compare("user", shown["user"], [row["user"] for row in self.rows(at + r"/pulls/\d+")])
        links = [row["_links"] for row in self.rows(at + r"/pulls/\d+")]
        self.compare("links", shown["pull"]["_links"], links)

    def test_a_hook(self) -> None:
        [text] = [it.content for it in buildbot_hooks("github") if "PullRequest" in it.name]
        with StandInForge("github") as forge:
            forge.model.add(LIB, "ann")
            forge.model.open(LIB, ONE, "main", "Add one")
            self.compare("hook", json.loads(forge.hooks.waiting[0].body), [json.loads(text)])


class GitLabShownTest(AsRecordedCase):
    packages = (GO_GITLAB, CLIENT_GO, "glab")

    def test_each_object(self) -> None:
        shown, requests = Shown("gitlab", self).of, [it for _, it in gitlab_requests()]
        self.compare("request", shown["request"], requests, ("prepared_at",))
        self.compare("user", shown["user"], [it["author"] for it in requests])
        hooks = [json.loads(it.content) for it in gitlab_hooks()]
        notes = [it["object_attributes"] for it in hooks if it.get("object_kind") == "note"]
        self.compare("the hook's note", shown["hook"]["object_attributes"], notes, ("action",))
        self.compare("the hook's project", {name: shown["hook"]["project"][name] for name in ("id", "web_url", "name",
                     "path_with_namespace", "default_branch")}, [it["project"] for it in hooks if it.get("project")])

    def test_names_of_what_is_shown(self) -> None:
        """A library reads the rest by these names."""
        shown = Shown("gitlab", self).of
        cases: list[tuple[str, str, str, set[str]]] = [
            ("approvals", "merge_request_approvals.go", "MergeRequestApprovals", {"approved", "user_has_approved"}),
            ("note", "notes.go", "Note", set()), ("status", "commits.go", "CommitStatus", set()),
            ("webhook", "projects.go", "ProjectHook", set())]
        for name, file, structure, more in cases:
            self.assertLessEqual(set(shown[name]) - more, go_members(CLIENT_GO, file, structure), name)


class GiteaShownTest(RecordedCase):
    packages = (SDK,)

    def test_names_of_what_is_read(self) -> None:
        """Gitea's own library reads what the adapter does, by the names by which it does."""
        for file, structure, names in (
                ("pull.go", "PullRequest", {"number", "state", "merged", "title", "body", "head", "base"}),
                ("pull.go", "PRBranchInfo", {"ref", "sha"}), ("user.go", "User", {"id", "login"}),
                ("pull_review.go", "PullReview", {"id", "user", "state", "commit_id", "submitted_at", "dismissed"}),
                ("issue_comment.go", "Comment", {"id", "user", "body", "created_at", "updated_at"}),
                ("status.go", "CreateStatusOption", {"state", "description", "context"}),
                ("repo_collaborator.go", "CollaboratorPermissionResult", {"permission"})):
            self.assertLessEqual(names, go_members(SDK, f"gitea/{file}", structure), structure)
        [text] = files(SDK, r"gitea/pull_review\.go").values()
        self.assertEqual({*re.findall(r'ReviewState\w+ +(?:ReviewStateType )?= "(\w+)"', text)},
                         {"APPROVED", "PENDING", "COMMENT", "REQUEST_CHANGES", "REQUEST_REVIEW"})


class GitLabRequestsTest(RecordedCase):
    packages = (GO_GITLAB, CLIENT_GO, "glab", "python-gitlab")

    def test_merge_requests(self) -> None:
        for file, said in gitlab_requests():
            path = f"/api/v4/projects/acme/lib/merge_requests/{said['iid']}"
            with self.subTest(file, number=said["iid"]):
                so = self.gitlab(Answer(file, "GET", path, 200, json.dumps(said))).outline(Place(LIB, said["iid"]))
                self.assertEqual((so.state, so.head, so.target, so.title, so.text, so.is_draft),
                                 (STATES[said["state"]], (said.get("diff_refs") or {}).get("head_sha") or said["sha"],
                                  said["target_branch"], said["title"], said["description"] or "",
                                  said.get("draft", said["title"].startswith("Draft: "))))
        self.assertEqual(len(gitlab_requests()), 12)

    def test_members_and_users(self) -> None:
        for package in (GO_GITLAB, CLIENT_GO):
            [members] = [it for it in go_answers(package) if it.path == "/api/v4/projects/1/members/all"]
            self.assertEqual(members.method, "GET")
            rows = json.loads(members.content)
            answer = Answer("", "GET", "/api/v4/projects/acme/lib/members/all", 200, members.content)
            for row in rows:
                may = self.gitlab(answer).may_write(LIB, row["username"])
                self.assertEqual(may, row["access_level"] >= 30, row)

    def test_names_of_what_is_sent(self) -> None:
        """python-gitlab knows what may be sent to set a status, and to write a note."""
        for file, manager, names in (("commits", "ProjectCommitStatusManager", ("state", "name", "description")),
                                     ("notes", "ProjectMergeRequestNoteManager", ("body",)),
                                     ("hooks", "ProjectHookManager", ("url", "merge_requests_events", "token"))):
            [text] = files("python-gitlab", rf"gitlab/v4/objects/{file}\.py").values()
            found = re.search(rf"class {manager}\(.*?_create_attrs = RequiredOptional\((.*?)\n    \)|"
                              rf"class {manager}\(.*?_create_attrs = RequiredOptional\((.*?)\)\n", text, re.DOTALL)
            assert found is not None, manager
            self.assertLessEqual(set(names), set(re.findall(r'"(\w+)"', found[1] or found[2])), manager)


if __name__ == "__main__":
    unittest.main()
