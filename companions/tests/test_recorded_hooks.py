"""Hooks that others have recorded, read by the adapter; and how they are signed, by the libraries' own examples. What
is expected is read of the same texts another way."""
from __future__ import annotations

import json
import re
import unittest

from companions.forges import Place, Signature, check_seal
from companions.github import GitHub
from companions.gitlab import GitLab
from companions.tests.forges.github_shown import signature
from companions.tests.recorded.case import RecordedCase
from companions.tests.recorded.readers import Hook, buildbot_hooks, gitlab_hooks
from companions.tests.recorded.sources import files

# In this file the number of the merge request isn't recorded, which GitLab sends.
NUMBERLESS = "webhooks/group_merge_request.json"


class GitLabHooksTest(RecordedCase):
    packages = ("golang-github-xanzy-go-gitlab", "golang-gitlab-gitlab-org-api-client-go")

    def read(self, it: Hook) -> Place | None:
        return GitLab("https://gitlab.com/api/v4", "token", "secret").place_of({"X-Gitlab-Token": "secret"},
                                                                               it.content.encode())

    def wanted(self, it: Hook) -> int | None:
        """The address of a merge request, or of a note on one, ends with the number; a hook of the whole forge has no
        address, and the number is the only one of its kind."""
        said = json.loads(it.content)
        if said.get("object_kind") not in ("merge_request", "note") or NUMBERLESS in it.file:
            return None
        url = said["object_attributes"].get("url")
        found = (re.search(r"/merge_requests/(\d+)(?:#.*)?$", url) if url else
                 re.search(r'"iid": *(\d+)', it.content))
        return int(found[1]) if found else None

    def test_each(self) -> None:
        found, seen = gitlab_hooks(), list[Place]()
        for it in found:
            with self.subTest(it.file):
                place = self.read(it)
                self.assertEqual(place and place.number, self.wanted(it))
                if place is not None:
                    self.assertIn(f'"{place.repository}"', it.content)
                    seen.append(place)
        self.assertEqual((len(found), len(seen)), (90, 8))


class BuildbotHooksTest(RecordedCase):
    packages = ("buildbot",)

    def test_those_of_gitlab(self) -> None:
        found = buildbot_hooks("gitlab")
        form = GitLab("https://gitlab.com/api/v4", "token", "secret")
        # Where somebody is named otherwise than he was, a project has lost the part of its path that named him.
        texts = {it.name: re.sub(r'("path_with_namespace" *: *")([^"/]*")', r"\1name/\2", it.content) for it in found}
        places = {name: form.place_of({"X-Gitlab-Token": "secret"}, text.encode()) for name, text in texts.items()}
        for name, place in places.items():
            # What is none of a merge request has no number of one in its text.
            number = re.search(r'"iid" *: *(\d+)', texts[name])
            self.assertEqual(place and place.number, number and int(number[1]), name)
        self.assertEqual((len(found), len(list(filter(None, places.values())))), (9, 7))

    def test_those_of_github(self) -> None:
        found, form = buildbot_hooks("github"), GitHub("https://api.github.com", "token", "secret")
        places = {}
        for it in found:
            body = it.content.encode()
            headers = {"X-Hub-Signature-256": f"sha256={signature('secret', body)}"}
            places[it.name] = form.place_of(headers, body)
            with self.assertRaises(PermissionError):
                form.place_of(headers, body + b" ")
        [text] = [it.content for it in found if "PullRequest" in it.name]
        number, name = re.search(r'"number": *(\d+)', text), re.search(r'"full_name": *"([^"]+)"', text)
        assert number is not None and name is not None
        self.assertEqual({it for it in places.values() if it}, {Place(name[1], int(number[1]))})
        self.assertEqual(len(found), 7)


class SignaturesTest(RecordedCase):
    packages = ("golang-github-google-go-github", "golang-code-gitea-sdk")

    def test_that_of_go_github(self) -> None:
        [text] = files("golang-github-google-go-github", r"github/messages_test\.go").values()
        body, secret, signed = (re.search(it, text) for it in (
            r'defaultBody = `([^`]*)`', r'secretKey := \[\]byte\("([^"]*)"\)', r'signature: +"sha256=([0-9a-f]{64})"'))
        assert body and secret and signed
        check_seal(Signature(secret[1], signed[1]), body[1].encode())
        with self.assertRaises(PermissionError):
            check_seal(Signature(secret[1], signed[1]), body[1].encode() + b" ")

    def test_those_of_the_sdk_of_gitea(self) -> None:
        """Its table says by which secret and of which text a signature is found to be right."""
        [text] = files("golang-code-gitea-sdk", r"gitea/hook_validate_test\.go").values()
        secret, payload = (re.search(it, text) for it in (r'secret := "([^"]*)"', r'payload := \[\]byte\(`([^`]*)`\)'))
        rows = re.findall(r'Secret: +"([^"]*)",\s+Payload: +(?:`([^`]*)`|"([^"]*)"),\s+Succeed: +(true|false)', text)
        assert secret and payload
        signed = signature(secret[1], payload[1].encode())
        for own, quoted, plain, is_right in rows:
            body, answers = (quoted or plain).encode(), list[bool]()
            try:
                check_seal(Signature(own, signed), body)
                answers.append(True)
            except PermissionError:
                answers.append(False)
            self.assertEqual(answers, [is_right == "true"], (own, body))
        self.assertGreaterEqual(len(rows), 3)


if __name__ == "__main__":
    unittest.main()
