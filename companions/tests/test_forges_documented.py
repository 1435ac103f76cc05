"""The forms of forges before answers and hooks written after the forges' documentation, and before wrong ones."""
from __future__ import annotations

import json
import unittest
import urllib.parse
from dataclasses import replace
from datetime import datetime
from typing import Any

from companions.api import LARGEST, Api, ForgeFault
from companions.forges import Place, Signature, check_seal, mark_of, time_of
from companions.github import Gitea, GitHub
from companions.gitlab import GitLab, commit_at
from companions.requests import Request, State, Vote
from companions.tests.forges.github import signature
from companions.tests.standin import StandIn

HEAD = "6dcb09b5b57875f334f61aebed695e2e4193db5e"
OTHER = "ecdd80bb57125d7ba9641ffaa4d7d2c19d3f3091"
USER: dict[str, Any] = {"login": "octocat", "id": 1, "node_id": "MDQ6VXNlcjE=", "type": "User", "site_admin": False}

GITHUB_PULL: dict[str, Any] = {
    "url": "https://api.github.com/repos/octocat/Hello-World/pulls/1347", "id": 1, "node_id": "MDExOlB1bGw=",
    "number": 1347, "state": "open", "locked": True, "active_lock_reason": "too heated", "title": "Amazing new feature",
    "user": USER, "body": "Please pull these awesome changes in!", "labels": [], "milestone": None, "draft": False,
    "created_at": "2011-01-26T19:01:12Z", "merged_at": None, "merge_commit_sha": OTHER,
    "head": {"label": "octocat:new-topic", "ref": "new-topic", "sha": HEAD, "user": USER, "repo": None},
    "base": {"label": "octocat:master", "ref": "master", "sha": OTHER, "user": USER, "repo": {"id": 1296269}},
    "author_association": "OWNER", "auto_merge": None, "merged": False, "mergeable": True, "rebaseable": True,
    "merged_by": None, "comments": 10, "review_comments": 0, "maintainer_can_modify": True, "commits": 3}
GITHUB_REVIEWS: list[dict[str, Any]] = [
    {"id": 80, "user": USER, "body": "Here is the body.", "state": "APPROVED", "commit_id": HEAD,
     "submitted_at": "2019-11-17T17:43:43Z", "author_association": "COLLABORATOR"},
    {"id": 81, "user": None, "body": "", "state": "APPROVED", "commit_id": HEAD,
     "submitted_at": "2019-11-17T17:44:00Z"},
    {"id": 82, "user": {**USER, "login": "monalisa"}, "body": "No.", "state": "CHANGES_REQUESTED", "commit_id": OTHER,
     "submitted_at": "2019-11-17T17:45:00Z"},
    {"id": 83, "user": {**USER, "login": "monalisa"}, "body": "", "state": "COMMENTED", "commit_id": HEAD,
     "submitted_at": "2019-11-17T17:46:00Z"},
    {"id": 84, "user": USER, "body": "", "state": "PENDING", "commit_id": HEAD}]
GITHUB_COMMENTS: list[dict[str, Any]] = [
    {"id": 1, "user": {**USER, "login": "hubot"}, "body": "/gate approve\r\n", "created_at":
     "2019-11-17T17:43:00Z", "updated_at": "2019-11-17T17:43:00Z", "author_association": "COLLABORATOR"}]
GITHUB_EVENTS: list[dict[str, Any]] = [
    {"id": 11, "event": "base_ref_changed", "actor": USER, "commit_id": None, "created_at": "2019-11-17T17:40:00Z"},
    {"id": 13, "event": "head_ref_force_pushed", "actor": USER, "commit_id": None,
     "created_at": "2019-11-17T17:41:00Z"},
    {"id": 12, "event": "labeled", "actor": USER, "commit_id": None, "created_at": "2019-11-17T17:50:00Z"}]
GITHUB_COMMENT_HOOK: dict[str, Any] = {
    "action": "created", "comment": GITHUB_COMMENTS[0], "sender": USER,
    "issue": {"id": 444500041, "number": 1, "title": "Spelling", "state": "open",
              "pull_request": {"url": "https://api.github.com/repos/Codertocat/Hello-World/pulls/1"}},
    "repository": {"id": 186853002, "name": "Hello-World", "full_name": "Codertocat/Hello-World", "private": False}}
GITHUB_PING: dict[str, Any] = {
    "zen": "Keep it logically awesome.", "hook_id": 30, "hook": {"type": "Repository", "id": 30},
    "repository": {"id": 186853002, "full_name": "Codertocat/Hello-World"}, "sender": USER}

GITEA_PULL: dict[str, Any] = {
    "id": 21, "url": "https://gitea.example/acme/lib/pulls/7", "number": 7, "user": {"id": 2, "login": "ann"},
    "title": "Add one", "body": "", "labels": [], "state": "closed", "is_locked": False, "draft": False, "comments": 1,
    "html_url": "https://gitea.example/acme/lib/pulls/7", "mergeable": False, "merged": True, "merged_at":
    "2024-05-01T12:00:00+02:00", "merge_commit_sha": OTHER, "merged_by": {"id": 3, "login": "lander"},
    "base": {"label": "main", "ref": "main", "sha": OTHER, "repo_id": 4, "repo": {"full_name": "acme/lib"}},
    "head": {"label": "topic", "ref": "refs/pull/7/head", "sha": HEAD, "repo_id": 4, "repo": None}}
GITEA_REVIEWS: list[dict[str, Any]] = [
    {"id": 5, "user": None, "team": {"id": 1, "name": "core"}, "state": "REQUEST_REVIEW", "body": "", "commit_id": "",
     "stale": False, "official": False, "dismissed": False, "submitted_at": "2024-05-01T11:50:00+02:00"},
    {"id": 6, "user": {"id": 2, "login": "ann"}, "team": None, "state": "REQUEST_CHANGES", "body": "No",
     "commit_id": OTHER, "stale": True, "official": True, "dismissed": False,
     "submitted_at": "2024-05-01T11:51:00+02:00"},
    {"id": 7, "user": {"id": 3, "login": "ben"}, "team": None, "state": "APPROVED", "body": "", "commit_id": HEAD,
     "stale": False, "official": True, "dismissed": True, "submitted_at": "2024-05-01T11:52:00+02:00"},
    {"id": 8, "user": {"id": 4, "login": "cy"}, "team": None, "state": "APPROVED", "body": "", "commit_id": HEAD,
     "stale": False, "official": False, "dismissed": False, "submitted_at": "2024-05-01T11:53:00+02:00"},
    {"id": 9, "user": {"id": 4, "login": "cy"}, "team": None, "state": "COMMENT", "body": "Well", "commit_id": HEAD,
     "stale": False, "official": False, "dismissed": False, "submitted_at": "2024-05-01T11:54:00+02:00"}]
GITEA_COMMENTS: list[dict[str, Any]] = [
    {"id": 8, "user": {"id": 3, "login": "ben"}, "body": "/gate approve",
     "created_at": "2024-05-01T09:55:00Z", "updated_at": "2024-05-01T09:55:00Z", "assets": []}]
GITEA_TIMELINE: list[dict[str, Any]] = [
    {"id": 20, "type": "change_target_branch", "old_ref": "a", "new_ref": "main", "body": "",
     "user": {"id": 2, "login": "ann"}, "created_at": "2024-05-01T11:30:00+02:00"}]
GITEA_REVIEW_HOOK: dict[str, Any] = {
    "action": "reviewed", "number": 7, "pull_request": GITEA_PULL, "requested_reviewer": None,
    "repository": {"id": 4, "full_name": "acme/lib"}, "sender": {"id": 2, "login": "ann"},
    "commit_id": "", "review": {"type": "pull_request_review_approved", "content": ""}}

GITLAB_REQUEST: dict[str, Any] = {
    "id": 155016530, "iid": 133, "project_id": 15513260, "title": "Manual job rules", "description": None,
    "state": "opened", "created_at": "2022-05-13T07:26:38.402Z", "merged_by": None, "merged_at": None, "target_branch":
    "master", "source_branch": "manual-job-rules", "author": {"id": 4155490, "username": "marcel.amirault"}, "draft":
    False, "merge_status": "can_be_merged", "detailed_merge_status": "mergeable", "sha": HEAD, "merge_commit_sha": None,
    "reference": "!133", "web_url": "https://gitlab.com/marcel.amirault/test-project/-/merge_requests/133"}
GITLAB_APPROVALS: dict[str, Any] = {
    "id": 5, "iid": 133, "project_id": 1, "state": "opened", "approvals_required": 2,
    "approvals_left": 1, "approved_by": [{"user": {"username": "root", "id": 1}}]}
GITLAB_VERSIONS: list[dict[str, Any]] = [
    {"id": 110, "head_commit_sha": HEAD, "base_commit_sha": OTHER, "start_commit_sha": OTHER, "created_at":
     "2016-07-26T14:44:48.926Z", "merge_request_id": 105, "state": "collected", "real_size": "1"},
    {"id": 108, "head_commit_sha": OTHER, "base_commit_sha": OTHER, "start_commit_sha": OTHER, "created_at":
     "2016-07-25T14:21:33.028Z", "merge_request_id": 105, "state": "collected", "real_size": "1"}]
ROOT, PIPIN = {"id": 1, "username": "root", "name": "Administrator"}, {"id": 2, "username": "pipin", "name": "Pip"}
GITLAB_NOTES: list[dict[str, Any]] = [
    {"id": 301, "body": "added 1 commit\n\n<ul><li>...</li></ul>", "author": PIPIN, "system": True,
     "created_at": "2016-07-26T14:44:49.000Z", "noteable_type": "MergeRequest"},
    {"id": 302, "body": "/gate approve", "author": PIPIN, "system": False, "created_at": "2016-07-26T14:44:00.000Z",
     "updated_at": "2016-07-26T14:44:00.000Z"},
    {"id": 303, "body": "approved this merge request", "author": ROOT, "system": True,
     "created_at": "2016-07-26T14:50:00.000Z"},
    {"id": 304, "body": "approved this merge request", "author": PIPIN, "system": True,
     "created_at": "2016-07-26T14:51:00.000Z"}]
GITLAB_HOOK: dict[str, Any] = {
    "object_kind": "merge_request", "event_type": "merge_request", "user": ROOT,
    "project": {"id": 1, "name": "Gitlab Test", "path_with_namespace": "gitlabhq/gitlab-test"},
    "object_attributes": {"id": 99, "iid": 1, "target_branch": "master", "source_branch": "ms-viewport",
                          "action": "open", "state": "opened", "title": "MS-Viewport", "last_commit": {"id": HEAD}}}
GITLAB_NOTE_HOOK: dict[str, Any] = {
    "object_kind": "note", "event_type": "note", "user": ROOT, "project": GITLAB_HOOK["project"],
    "object_attributes": {"id": 1244, "note": "This MR needs work.", "noteable_type": "MergeRequest", "system": False},
    "merge_request": {"id": 7, "iid": 2, "target_branch": "markdown", "state": "opened"}}
# None of these is of a merge request, though some have a number at the same place.
GITLAB_OTHERS: list[Any] = [
    {**GITLAB_HOOK, "object_kind": "issue"}, {**GITLAB_HOOK, "object_kind": "pipeline", "merge_request": None},
    {**GITLAB_HOOK, "object_kind": "pipeline", "merge_request": {"id": 1, "iid": 9}},
    {**GITLAB_NOTE_HOOK, "merge_request": None}, {"object_kind": "push", "project": GITLAB_HOOK["project"]},
    {"object_kind": ["note"]}, {"object_kind": "note"}, [], None, 7]


def created(method: str, path: str, _: bytes) -> tuple[int, Any]:
    """Takes all, and has nothing but an account."""
    return (201, {"id": 9}) if method != "GET" else (200, USER if path.endswith("/user") else [])


class DocumentedCase(unittest.TestCase):
    def serve(self, **answers: Any) -> str:
        """The address of a server that answers by the last word of the path, and else that there is nothing."""
        def answer(method: str, target: str, body: bytes) -> tuple[int, Any]:
            word = urllib.parse.urlsplit(target).path.rpartition("/")[2]
            said = answers.get(word if not word.isdigit() else "one")
            return (404, {"message": "Not Found"}) if said is None else (200, said)
        return self.enterContext(StandIn(answer)).url


def said_at(vote: Vote, time: str) -> Vote:
    """A comment that names no commit, made at a time."""
    return replace(vote, said=datetime.fromisoformat(time))


class GitHubTest(DocumentedCase):
    def test_a_pull_request(self) -> None:
        form = GitHub(self.serve(one=GITHUB_PULL, reviews=GITHUB_REVIEWS, comments=GITHUB_COMMENTS,
                                 events=GITHUB_EVENTS), "token", "secret")
        place = Place("octocat/Hello-World", 1347)
        self.assertEqual(form.request(place), Request(
            "octocat/Hello-World", 1347, State.OPEN, HEAD, "master", "Amazing new feature",
            "Please pull these awesome changes in!", (said_at(Vote("comment 1", "hubot", True, None),
                                                              "2019-11-17T17:43:00+00:00"),
                                                      Vote("review 80", "octocat", True, HEAD),
                                                      Vote("review 82", "monalisa", False, OTHER))))

    def test_what_isnt_one(self) -> None:
        for wrong in ([], "words", 7, {}, {**GITHUB_PULL, "state": "asleep"}, {**GITHUB_PULL, "head": None},
                      {**GITHUB_PULL, "head": {"sha": "main"}}, {**GITHUB_PULL, "head": {"sha": None}},
                      {**GITHUB_PULL, "head": {"sha": "6dcb09b"}},
                      b"<html>Unicorn!</html>", b"", b"[" * 100000, b" " * (LARGEST + 1)):
            with self.subTest(wrong=str(wrong)[:80]), self.assertRaises(ForgeFault):
                GitHub(self.serve(one=wrong, reviews=[], comments=[]), "token", "secret").request(Place("a/b", 1))
        nameless = {"id": 1, "state": "APPROVED", "user": {"id": 1}}
        for reviews in ({}, {"message": "sorry"}, [7], [{"id": 1}], [nameless]):
            with self.subTest(reviews=reviews), self.assertRaises(ForgeFault):
                GitHub(self.serve(one=GITHUB_PULL, reviews=reviews, comments=[]), "t", "s").request(Place("a/b", 1))
        with self.assertRaises(ForgeFault):
            list(GitHub(self.serve(pulls=[{"id": 1}]), "token", "secret").open_requests("a/b"))
        with self.assertRaises(ForgeFault):
            GitHub(self.serve(comments={"message": "Created"}), "t", "s").comment(Place("a/b", 1), None, "text")
        with self.assertRaises(ForgeFault):
            GitHub(self.serve(permission={}), "token", "secret").may_write("a/b", "ann")

    def test_what_is_sent(self) -> None:
        with StandIn(created) as server:
            form = GitHub(server.url + "/api/v3/", "token", "secret")
            form.set_status("a/b", HEAD, "success", "landed as 7")
            self.assertEqual(form.comment(Place("a/b", 4), None, "words"), 9)
        mark = mark_of("secret", Place("a/b", 4))
        self.assertEqual([(path, json.loads(body)) for method, path, body in server.asked if method == "POST"], [
            (f"/api/v3/repos/a/b/statuses/{HEAD}",
             {"context": "gate", "state": "success", "description": "landed as 7"}),
            ("/api/v3/repos/a/b/issues/4/comments", {"body": f"words\n\n{mark}"})])
        self.assertEqual({it["Authorization"] for it in server.heads}, {"Bearer token"})
        self.assertEqual({it["Accept"] for it in server.heads}, {"application/vnd.github+json"})

    def test_hooks(self) -> None:
        form = GitHub("https://api.github.com", "token", "It's a Secret to Everybody")
        form_encoded = urllib.parse.urlencode({"payload": json.dumps(GITHUB_COMMENT_HOOK)}).encode()
        there = Place("Codertocat/Hello-World", 1)
        for body, place in ((json.dumps(GITHUB_COMMENT_HOOK).encode(), there), (form_encoded, there),
                            (json.dumps(GITHUB_PING).encode(), None), (b"", None), (b"payload=", None),
                            (b"payload=%ff", None), (b"\xff", None), (b"[" * 99999, None),
                            (b'{"pull_request": 7, "repository": {"full_name": "a/b"}}', None),
                            (b'{"pull_request": {"number": "1"}, "repository": {"full_name": "a/b"}}', None),
                            (b'{"pull_request": {"number": -1}, "repository": {"full_name": "a/b"}}', None),
                            (b'{"pull_request": {"number": 1}, "repository": {"full_name": ["a"]}}', None)):
            signed = {"X-Hub-Signature-256": "sha256=" + signature("It's a Secret to Everybody", body)}
            self.assertEqual(form.place_of(signed, body), place, body[:80])
            with self.assertRaises(PermissionError):
                form.place_of(signed, body + b" ")

    def test_a_signature_that_is_documented(self) -> None:
        """GitHub's page "Validating webhook deliveries" has these values to try a signature with."""
        wanted = "757107ea0eb2509fc211221cce984b8a37570b6d7586c22c46f4379c8b043e17"
        check_seal(Signature("It's a Secret to Everybody", wanted), b"Hello, World!")


class GiteaTest(DocumentedCase):
    def test_a_pull_request(self) -> None:
        form = Gitea(self.serve(one=GITEA_PULL, reviews=GITEA_REVIEWS, comments=GITEA_COMMENTS,
                                timeline=GITEA_TIMELINE), "token", "secret")
        self.assertEqual(form.request(Place("acme/lib", 7)), Request(
            "acme/lib", 7, State.MERGED, HEAD, "main", "Add one", "", (
                Vote("review 6", "ann", False, OTHER), Vote("review 7", "ben", None, HEAD),
                Vote("review 8", "cy", True, HEAD),
                said_at(Vote("comment 8", "ben", True, None), "2024-05-01T09:55:00+00:00"))))

    def test_hooks(self) -> None:
        form, body = Gitea("https://gitea.example/api/v1", "token", "secret"), json.dumps(GITEA_REVIEW_HOOK).encode()
        self.assertEqual(form.place_of({"X-Gitea-Signature": signature("secret", body)}, body), Place("acme/lib", 7))
        with self.assertRaises(PermissionError):
            form.place_of({"X-Hub-Signature": signature("secret", body)}, body)

    def test_lists_that_come_whole(self) -> None:
        """All comments come whichever page is asked for, also where they are more than a page could have."""
        many = [{**GITEA_COMMENTS[0], "id": n} for n in range(120)]
        url = self.serve(one=GITEA_PULL, reviews=[], comments=many, timeline=[])
        votes = Gitea(url, "token", "secret").request(Place("acme/lib", 7)).votes
        self.assertEqual([it.object for it in votes], [f"comment {n}" for n in range(120)])


class GitLabTest(DocumentedCase):
    def form(self, **other: Any) -> GitLab:
        answers = {"one": GITLAB_REQUEST, "approvals": GITLAB_APPROVALS, "notes": GITLAB_NOTES,
                   "versions": GITLAB_VERSIONS}
        return GitLab(self.serve(**{**answers, **other}), "token", "secret")

    def test_a_merge_request(self) -> None:
        self.assertEqual(self.form().request(Place("acme/core/lib", 133)), Request(
            "acme/core/lib", 133, State.OPEN, HEAD, "master", "Manual job rules", "",
            (said_at(Vote("note 302", "pipin", True, OTHER), "2016-07-26T14:44:00+00:00"),
             Vote("note 303", "root", True, HEAD))))

    def test_states(self) -> None:
        for word, state in (("locked", State.OPEN), ("closed", State.CLOSED), ("merged", State.MERGED)):
            request = self.form(one={**GITLAB_REQUEST, "state": word}).request(Place("a/b", 133))
            self.assertEqual(request.state, state)

    def test_a_draft_of_an_earlier_version(self) -> None:
        earlier = {name: value for name, value in GITLAB_REQUEST.items() if name != "draft"}
        for is_draft in (True, False):
            request = self.form(one={**earlier, "work_in_progress": is_draft}).request(Place("a/b", 133))
            self.assertIs(request.is_draft, is_draft)

    def test_what_isnt_one(self) -> None:
        """A merge request that was just opened has no head yet."""
        cases: list[dict[str, Any]] = [
            {"one": {**GITLAB_REQUEST, "sha": None}}, {"one": {**GITLAB_REQUEST, "state": "asleep"}},
            {"approvals": None}, {"approvals": []}, {"notes": None}, {"notes": {"message": "sorry"}},
            {"versions": [{"id": 1, "created_at": "2016-07-26T14:44:48.926Z"}]}, {"versions": None}]
        for wrong in cases:
            with self.subTest(wrong=wrong), self.assertRaises(ForgeFault):
                self.form(**wrong).request(Place("a/b", 133))

    def test_hooks(self) -> None:
        form, signed = GitLab("https://gitlab.com/api/v4", "token", "secret"), {"X-Gitlab-Token": "secret"}
        of_requests = [(GITLAB_HOOK, Place("gitlabhq/gitlab-test", 1)),
                       (GITLAB_NOTE_HOOK, Place("gitlabhq/gitlab-test", 2))]
        for said, place in [*of_requests, *((it, None) for it in GITLAB_OTHERS)]:
            self.assertEqual(form.place_of(signed, json.dumps(said).encode()), place, said)
        others: list[dict[str, str]] = [{}, {"X-Gitlab-Token": "secret "}, {"X-Gitlab-Token": "\u017fecret"}]
        for headers in others:
            with self.assertRaises(PermissionError):
                form.place_of(headers, json.dumps(GITLAB_HOOK).encode())

    def test_what_is_sent(self) -> None:
        with StandIn(created) as server:
            form = GitLab(server.url + "/api/v4", "token", "secret")
            form.set_status("a/core/b", HEAD, "failure", "unit failed")
            self.assertEqual(form.comment(Place("a/core/b", 4), None, "words"), 9)
        mark = mark_of("secret", Place("a/core/b", 4))
        self.assertEqual([(path, json.loads(body)) for method, path, body in server.asked if method == "POST"], [
            (f"/api/v4/projects/a%2Fcore%2Fb/statuses/{HEAD}",
             {"name": "gate", "state": "failed", "description": "unit failed"}),
            ("/api/v4/projects/a%2Fcore%2Fb/merge_requests/4/notes", {"body": f"words\n\n{mark}"})])
        self.assertEqual({it["PRIVATE-TOKEN"] for it in server.heads}, {"token"})

    def test_which_head_it_had(self) -> None:
        one, two = time_of("2024-05-01T10:00:00.000Z"), time_of("2024-05-01T10:00:05.000Z")
        versions = [(one, HEAD), (two, OTHER)]
        for at, commit in (("2024-05-01T09:59:59.000Z", HEAD), ("2024-05-01T10:00:04.999Z", HEAD),
                           ("2024-05-01T12:00:05.000+02:00", OTHER), ("2024-05-01T10:00:06", OTHER)):
            self.assertEqual(commit_at(versions, time_of(at)), commit)
        self.assertIsNone(commit_at([], one))


class ApiTest(DocumentedCase):
    def test_an_address_that_isnt_the_forges(self) -> None:
        for url in ("http://", "", "http://127.0.0.1:9", "http://no host", "http://\u00e4\x00"):
            with self.subTest(url=url), self.assertRaises(ForgeFault):
                Api(url, {}, timeout=1).call("GET", "/repos/a/b/pulls/1")

    def test_an_answer_that_is_too_long(self) -> None:
        with StandIn(lambda *_: (200, b"7" + b" " * LARGEST)) as server:
            with self.assertRaisesRegex(ForgeFault, f"GET /x: more than {LARGEST} bytes"):
                Api(server.url, {}).call("GET", "/x")

    def test_a_redirect_is_no_answer(self) -> None:
        with StandIn(lambda *_: (301, {"url": "https://elsewhere.example"})) as server:
            with self.assertRaisesRegex(ForgeFault, "GET /x: status 301"):
                Api(server.url, {}).find("GET", "/x")


if __name__ == "__main__":
    unittest.main()
