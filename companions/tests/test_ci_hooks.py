"""Hooks of a CI: they say only at which commit to look."""
from __future__ import annotations

import contextlib
import http.client
import io
import json
import tempfile
import unittest
from pathlib import Path
from typing import Any
from unittest import mock

from companions import ci_queue, settings
from companions.ci_hooks import commits_of, serve_hooks
from companions.tests.ci_case import CiCase
from companions.tests.forges import CLIENTS
from companions.tests.forges.github_shown import signature

ONE, TWO = "1" * 40, "2" * 64


class Commits(unittest.TestCase):
    def test_each_kind_of_hook_names_its_commit(self) -> None:
        """As the forges document them."""
        hooks: list[dict[str, Any]] = [
            {"sha": ONE, "context": "ci/unit", "state": "success", "commit": {"sha": ONE}},
            {"action": "completed", "check_run": {"id": 4, "head_sha": ONE}},
            {"action": "completed", "workflow_run": {"id": 4, "head_sha": ONE, "head_branch": "gate/core/x"}},
            {"action": "completed", "workflow_job": {"id": 4, "head_sha": ONE}},
            {"object_kind": "pipeline", "object_attributes": {"id": 31, "sha": ONE}, "commit": {"id": ONE}},
            {"object_kind": "build", "sha": ONE, "build_id": 7, "commit": {"id": 7, "sha": ONE}}]
        for said in hooks:
            self.assertEqual(commits_of(said), {ONE})
        self.assertEqual(commits_of({"sha": TWO}), {TWO})

    def test_what_names_none_says_nothing(self) -> None:
        hooks: list[dict[str, Any]] = [
            {}, {"sha": None}, {"sha": "A" * 40}, {"sha": "x" * 40}, {"sha": [ONE]}, {"commit": ONE},
            {"sha": ONE + "\n"}, {"workflow_run": [ONE]}, {"sha": "1" * 10**6}]
        for said in hooks:
            self.assertEqual(commits_of(said), set())


class Served(unittest.TestCase):
    def setUp(self) -> None:
        temporary = tempfile.TemporaryDirectory()
        self.addCleanup(temporary.cleanup)
        self.folder, self.seen = Path(temporary.name), list[str]()
        self.errors = self.enterContext(contextlib.redirect_stderr(io.StringIO()))

    def serve(self, kind: str) -> int:
        file = self.folder / "companions.toml"
        file.write_text(f'folder = "{self.folder}"\n[gate]\nurl = "http://127.0.0.1:1"\n[ci]\nform = "{kind}"\n'
                        'url = "http://127.0.0.1:1"\ntoken = "t"\nsecret = "s"\nlisten = "127.0.0.1:0"\n'
                        '[[project]]\nname = "lib"\nqueue = "core"\nrepository = "/lib"\n')
        known = settings.read(file)
        end = serve_hooks(known, CLIENTS[kind]("http://127.0.0.1:1", "t", "s", 1.0), self.seen.append, "ci ci1",
                          self.folder)
        assert end is not None
        self.addCleanup(end)
        return int(self.errors.getvalue().rpartition(":")[2].split("/")[0])

    def post(self, port: int, body: bytes, headers: dict[str, str]) -> tuple[int, str]:
        connection = http.client.HTTPConnection("127.0.0.1", port, timeout=20)
        with contextlib.closing(connection):
            connection.request("POST", "/hook", body, headers)
            answer = connection.getresponse()
            return answer.status, answer.read().decode()

    def signed(self, kind: str, body: bytes, secret: str) -> dict[str, str]:
        return {"github": {"X-Hub-Signature-256": f"sha256={signature(secret, body)}"},
                "gitea": {"X-Gitea-Signature": signature(secret, body)}, "gitlab": {"X-Gitlab-Token": secret}}[kind]

    def test_a_signed_hook_has_its_commit_looked_at_and_no_other(self) -> None:
        for kind in ("github", "gitea", "gitlab"):
            port, body = self.serve(kind), json.dumps({"sha": ONE}).encode()
            large = json.dumps({"sha": ONE, "more": "x" * 10**5}).encode()
            for what, secret, answer in ((body, "s", (200, "noted\n")), (large, "s", (200, "noted\n")),
                                         (body, "t", (403, "the hook isn't signed by the secret\n")),
                                         (large, "t", (403, "the hook isn't signed by the secret\n")),
                                         (b"[]", "s", (200, "this hook is about no commit\n")),
                                         (b"\0", "s", (200, "this hook is about no commit\n"))):
                self.seen.clear()
                self.assertEqual(self.post(port, what, self.signed(kind, what, secret)), answer, kind)
                self.assertEqual(self.seen, [ONE] if answer[1] == "noted\n" else [])
            self.assertEqual(self.post(port, body, {})[0], 403)
        self.assertIn("ci ci1: a hook was refused: the hook isn't signed by the secret\n", self.errors.getvalue())


class Looks(CiCase):
    asks = 3600.0

    def test_a_hook_has_a_run_looked_at_at_once(self) -> None:
        """It is asked for once an hour otherwise."""
        self.assertEqual(self.ci.settings.ci.look, 3600.0)
        self.give(self.reply(7, 103))
        run = self.run_of(7)
        self.turn(3)
        run.set("ci/unit", "success")
        self.turn(5)
        self.assertEqual(self.outcomes(), [])
        self.ci.look_at(self.heads["lib"])
        self.turn(5)
        self.assertEqual(self.outcomes(), [])
        self.assertFalse(self.ci.came.wait(0) and self.ci.came.clear())
        self.ci.look_at(run.commit)
        self.assertTrue(self.ci.came.is_set())
        self.assertEqual(self.ended(7), "success")

    def test_very_many_hooks_cost_few_calls(self) -> None:
        """As of somebody who sets a status of the commit again and again. No news is lost by that."""
        with mock.patch.object(ci_queue, "AT_ONCE", 3):
            self.again()
        self.give(self.reply(7, 103))
        run = self.run_of(7)
        self.turn(3)
        self.assertEqual([self.looked(run.commit) for _ in range(8)], 3 * [True] + 5 * [False])
        paces = self.ci.queues["core"].paces
        self.assertEqual(paces.gap, 30.0)
        paces.gap = 0.0
        run.set("ci/unit", "success")
        self.ci.look_at(run.commit)
        self.assertEqual(self.ended(7), "success")

    def looked(self, commit: str) -> bool:
        """Whether the forge is asked after a hook."""
        asked = len(self.forge.server.asked)
        self.ci.look_at(commit)
        self.turn(2)
        return len(self.forge.server.asked) > asked


if __name__ == "__main__":
    unittest.main()
