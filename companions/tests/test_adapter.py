"""The adapter of bare repositories, over real ones, and a gate that says what a scene has it say."""
from __future__ import annotations

import contextlib
import importlib.util
import io
import re
import subprocess
import tempfile
import time
import unittest
from pathlib import Path
from typing import Any

from companions import compared
from companions.compared import Compared, Repository
from companions.gate import Answer, NoAnswer
from companions.ids import revision_id
from companions.settings import Project, Settings
from companions.tests.forge import message_of

TOP = Path(__file__).resolve().parents[2]
SPEC = importlib.util.spec_from_file_location("forge_adapter", TOP / "examples" / "forge" / "adapter.py")
assert SPEC is not None and SPEC.loader is not None
adapter = importlib.util.module_from_spec(SPEC)
SPEC.loader.exec_module(adapter)


class GateOfAScene:
    """Takes everything, keeps its replies, and can lose what it took."""

    def __init__(self) -> None:
        self.taken: dict[str, dict[str, Any]] = {}
        self.silent = False
        self.shown: set[int] = set()

    def first(self) -> str | None:
        if self.silent:
            raise NoAnswer("silent")
        return next(iter(self.taken), None)

    def post(self, door: str, delivery: dict[str, Any]) -> Answer:
        if self.silent:
            raise NoAnswer("silent")
        if delivery["change"] in self.shown and delivery["id"] not in self.taken:
            return Answer({"code": "E9", "error": "submitting"})
        self.taken.setdefault(delivery["id"], delivery)
        return Answer({"reply": "recorded"})

    def told(self) -> list[tuple[str, int, int]]:
        """What it was told, but for the delivery with which its file begins."""
        return [(it["kind"], it["change"], it["revision"]) for it in self.taken.values()
                if it["change"] != adapter.BEGINNING]


class AdapterTest(unittest.TestCase):
    def setUp(self) -> None:
        temporary = tempfile.TemporaryDirectory()
        self.addCleanup(temporary.cleanup)
        self.folder = Path(temporary.name)
        self.repository = self.folder / "lib.git"
        subprocess.run(["git", "init", "--quiet", "--bare", str(self.repository)], check=True)
        projects = {"lib": Project("lib", "core", str(self.repository), "main", {}, "lib")}
        folder = self.folder / "companions"
        self.settings = Settings("http://localhost", {}, folder, projects, 0.01, 1, 1, 1, "gate <g@localhost>")
        self.gate = GateOfAScene()
        self.adapter = self.start()

    def start(self) -> Any:
        """An adapter, started anew."""
        started = adapter.Adapter(self.settings)
        self.addCleanup(started.tables.close)
        self.addCleanup(started.sending.close)
        started.gate = self.gate
        return started

    def git(self, *words: str, given: str = "") -> str:
        who = ["-c", "user.name=a", "-c", "user.email=a@localhost"]
        return subprocess.run(["git", "-C", str(self.repository), *who, *words], input=given, check=True,
                              capture_output=True, text=True).stdout.strip()

    def push(self, change: int, revision: int, message: str = "") -> str:
        """A revision stands in the repository, and no hook has told."""
        commit = self.git("commit-tree", self.git("mktree"), "-m", f"Change {change}\n\n{message}")
        self.git("update-ref", f"refs/changes/{change}/{revision}", commit)
        return commit

    def left(self) -> Compared:
        it = compared.read(compared.file_in(self.settings.folder))
        assert it is not None
        return it

    def land(self, change: int, revision: int) -> None:
        """The lander has landed a change on the branch."""
        message = message_of("core", 1, change).replace("Revision: 1", f"Revision: {revision}")
        commit = self.git("commit-tree", f"refs/changes/{change}/{revision}^{{tree}}", "-m", message)
        self.git("update-ref", "refs/heads/main", commit)

    def approve(self, change: int, revision: int = 1) -> None:
        self.adapter.note("approved", change, revision)

    def send(self) -> bool:
        with contextlib.redirect_stdout(io.StringIO()):
            return bool(self.adapter.send())

    def test_tells_what_a_hook_has_lost(self) -> None:
        self.push(7, 1)
        self.push(7, 2)
        self.adapter.look()
        self.adapter.look()
        self.assertTrue(self.send())
        self.assertEqual(self.gate.told(), [("revision", 7, 1), ("revision", 7, 2)])

    def test_keeps_what_it_told_under_its_id_where_the_gate_is_silent(self) -> None:
        self.push(7, 1)
        self.gate.silent = True
        self.approve(7)
        with self.assertRaises(NoAnswer):
            self.send()
        self.gate.silent = False
        self.adapter = self.start()
        self.assertTrue(self.send())
        self.assertEqual(self.gate.told(), [("revision", 7, 1), ("approved", 7, 1)])

    def test_a_revision_is_its_commit_and_what_it_needs(self) -> None:
        commits = [self.push(7, 1), self.push(8, 1, "Depends-On: https://forge/c/7\r\nDEPENDS-ON:https://forge/c/12 \n"
                                                    " Depends-On: https://forge/c/13\nDepends-On: https://forge/c/7")]
        self.adapter.look()
        self.send()
        first, *others = self.gate.taken
        self.assertEqual(others, [revision_id(first, 7, 1, commits[0], ()),
                                  revision_id(first, 8, 1, commits[1], (7, 12))])
        self.assertEqual([set(it) for it in self.gate.taken.values()],
                         3 * [{"id", "kind", "change", "project", "revision", "message"}])

    def test_a_revision_that_is_dated_ahead_is_not_told(self) -> None:
        text = self.git("cat-file", "commit", self.push(7, 1))
        text = re.sub(r"^(committer .*> )\d+", rf"\g<1>{int(time.time()) + 90000}", text, flags=re.MULTILINE)
        self.git("update-ref", "refs/changes/7/1", self.git("hash-object", "-t", "commit", "-w", "--stdin", given=text))
        with contextlib.redirect_stdout(io.StringIO()) as said:
            self.adapter.look()
            self.adapter.look()
        self.assertEqual(said.getvalue(),
                         "gate: refs/changes/7/1 isn't told, since it is dated more than a day ahead\n")
        self.assertEqual((self.send(), self.gate.told()), (True, []))

    def test_a_revision_that_somebody_has_moved_is_set_right(self) -> None:
        commit = self.push(7, 1)
        self.adapter.look()
        self.push(7, 1, "Another one")
        self.git("update-ref", "refs/changes/7/2", commit)
        with contextlib.redirect_stdout(io.StringIO()) as said:
            self.adapter.look()
        self.assertEqual(self.git("rev-parse", "refs/changes/7/1"), commit)
        self.assertRegex(said.getvalue(), rf"^refs/changes/7/1 of lib was [0-9a-f]+: set right to {commit}\n$")
        self.git("update-ref", "-d", "refs/changes/7/1")
        with contextlib.redirect_stdout(io.StringIO()):
            self.adapter.look()
        self.assertEqual(self.git("rev-parse", "refs/changes/7/1"), commit)

    def test_leaves_word_for_the_lander(self) -> None:
        self.push(7, 1)
        self.gate.silent = True
        self.adapter.look()
        with self.assertRaises(NoAnswer):
            self.send()
        self.assertEqual((self.left().first, self.left().repositories["lib"].waiting), (None, 1))
        self.gate.silent = False
        self.send()
        first, last = self.gate.taken
        self.assertEqual((self.left().first, self.left().last, self.left().refuse), (first, last, {}))
        self.assertEqual(self.left().repositories["lib"].waiting, 0)
        self.assertIsNotNone(self.left().repositories["lib"].began)
        self.gate.shown = {7}
        self.adapter.note("closed", 7, 1)
        self.send()
        self.assertEqual((self.left().refuse, self.left().repositories["lib"].waiting),
                         ({7: "its request was closed"}, 0))
        self.gate.shown = set()
        self.adapter.tell_again()
        self.assertEqual((self.left().last, self.left().refuse, self.left().repositories["lib"]),
                         (None, {}, Repository(1, None)))
        self.adapter.look()
        self.adapter.outbox.later.clear()
        self.send()
        self.assertEqual((self.left().last, self.left().repositories["lib"].waiting), (list(self.gate.taken)[-1], 0))

    def test_gives_each_approval_an_id_of_its_own(self) -> None:
        self.push(7, 1)
        self.approve(7)
        self.send()
        self.approve(7)
        self.send()
        self.assertEqual(self.gate.told(), [("revision", 7, 1), ("approved", 7, 1), ("approved", 7, 1)])

    def test_refuses_to_approve_what_no_repository_has(self) -> None:
        with self.assertRaises(SystemExit):
            self.approve(7)
        self.assertEqual(self.gate.told(), [])

    def test_tells_a_restored_gate_the_rest_under_the_same_ids(self) -> None:
        self.push(7, 1)
        self.push(8, 1)
        self.approve(7)
        self.approve(8)
        self.adapter.note("withdrawn", 8, 1)
        self.send()
        before = dict(self.gate.taken)
        self.gate.taken = dict(list(before.items())[:2])
        self.adapter.tell_again()
        self.assertTrue(self.send())
        self.assertEqual(self.gate.taken, before)

    def test_tells_again_in_order_what_is_kept_too(self) -> None:
        self.push(7, 1)
        self.approve(7)
        self.send()
        self.gate.taken, self.gate.silent = {}, True
        self.push(7, 2)
        with self.assertRaises(NoAnswer):
            self.approve(7, 2)
            self.send()
        self.gate.silent = False
        self.adapter.tell_again()
        self.assertTrue(self.send())
        self.assertEqual(self.gate.told(), [(kind, 7, it) for it in (1, 2) for kind in ("revision", "approved")])

    def test_closes_nothing_that_the_branch_has(self) -> None:
        self.push(7, 1)
        self.approve(7)
        self.send()
        self.land(7, 1)
        self.adapter.note("closed", 7, 1)
        self.push(7, 2)
        self.adapter.look()
        self.assertTrue(self.send())
        self.gate.taken = {}
        self.adapter.tell_again()
        self.assertTrue(self.send())
        self.assertEqual(self.gate.told(), [("revision", 7, 1), ("approved", 7, 1)])

    def test_waits_with_one_change_alone_while_its_order_is_shown(self) -> None:
        self.push(7, 1)
        self.push(8, 1)
        self.adapter.look()
        self.gate.shown = {7}
        self.assertFalse(self.send())
        self.assertEqual(self.gate.told(), [("revision", 8, 1)])


if __name__ == "__main__":
    unittest.main()
