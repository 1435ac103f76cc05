from __future__ import annotations

import contextlib
import io
import os
import tempfile
import unittest
from pathlib import Path
from unittest import mock

from companions import lander
from companions.merging import Merge, Parent
from companions.repository import Declined, GitFault, Merged, Repository
from companions.tests.forge import Origin

LANDING = "refs/landings/core/000001"


class Git(unittest.TestCase):
    def setUp(self) -> None:
        temporary = tempfile.TemporaryDirectory()
        self.addCleanup(temporary.cleanup)
        self.folder = Path(temporary.name)
        self.origin = Origin(self.folder / "lib.git")
        self.head = self.origin.commit({"text": "0\n"})
        self.origin.name("refs/heads/main", self.head)
        self.repository = Repository(str(self.origin.folder), self.folder / "mirror", "gate <gate@localhost>")
        self.repository.fetch("refs/heads/main")

    def names(self) -> dict[str, str]:
        return self.repository.listed("refs/heads/main", "refs/landings/core/*")

    def change(self, name: str, files: dict[str, str], *parents: str) -> str:
        commit = self.origin.commit(files, *parents)
        self.origin.name(name, commit)
        self.repository.fetch(name)
        return commit

    def merge(self, ours: str, theirs: str) -> str | None:
        return self.repository.merge(Merge("core", 1, 2, 1, self.repository.parent(ours),
                                           self.repository.parent(theirs), {}, "gate <gate@localhost>"))

    def test_a_merge_has_both_parents_and_both_contents(self) -> None:
        ours = self.change("refs/changes/1/1", {"a": "1"}, self.head)
        theirs = self.change("refs/changes/2/1", {"b": "1"}, self.head)
        merged = self.merge(ours, theirs)
        assert merged is not None
        shown = self.repository.git("show", "--no-patch", "--format=%P|%an|%ce|%s", merged)
        self.assertEqual(shown, f"{ours} {theirs}|gate|gate@localhost|Land change 2: A commit")
        self.assertEqual(self.repository.git("ls-tree", "--name-only", merged).split(), ["a", "b", "text"])
        self.assertEqual(self.repository.git("fsck", "--strict", merged), "")

    def test_a_conflict_names_its_files_and_a_missing_commit_is_a_fault(self) -> None:
        ours = self.change("refs/changes/1/1", {"text": "1\n", "t\u00e4xt": "1"}, self.head)
        theirs = self.change("refs/changes/2/1", {"text": "2\n", "t\u00e4xt": "2"}, self.head)
        self.assertEqual(self.repository.merge_trees(ours, theirs), Merged(None, ("text", "t\u00e4xt")))
        self.assertIsNone(self.merge(ours, theirs))
        alone = self.change("refs/changes/3/1", {"c": "1"})
        self.assertEqual(self.repository.merge_trees(ours, alone), Merged(None))
        with self.assertRaises(GitFault):
            self.repository.merge_trees(ours, "0" * 39 + "1")

    def test_of_a_commit_of_any_size_a_beginning_is_read(self) -> None:
        tree = self.origin.git("rev-parse", "main^{tree}")
        large = self.origin.git("commit-tree", tree, "-p", self.head, "-F", "-", given="Subject\n\n" + "x" * (3 << 20))
        self.origin.name("refs/changes/1/1", large)
        self.repository.fetch("refs/changes/1/1")
        self.assertEqual(len(self.repository.content(large)), 1 << 20)
        self.assertEqual(self.repository.parent(large), Parent(large, 1704067200, "Subject"))
        with self.assertRaisesRegex(GitFault, "git cat-file commit 0{40}: "):
            self.repository.content("0" * 40)

    def test_an_old_git_is_refused_with_a_line(self) -> None:
        said = io.StringIO()
        with mock.patch("companions.repository.version", return_value="2.37"), contextlib.redirect_stderr(said):
            self.assertEqual(lander.run(mock.Mock()), 1)
        self.assertEqual(said.getvalue(), "lander: stops: git 2.37 is too old: it has to be 2.39\n")

    def test_a_push_names_what_was_there(self) -> None:
        new = self.change("refs/changes/1/1", {"a": "1"}, self.head)
        self.assertTrue(self.repository.push({"refs/heads/main": (self.head, new), LANDING: (None, new)}))
        self.assertEqual(self.names(), {"refs/heads/main": new, "refs/landings/core/000001": new})
        self.assertEqual(self.repository.commit("refs/landings/core/000001"), new)

    def test_names_are_taken_away(self) -> None:
        self.origin.name("refs/landings/core/000009", self.head)
        self.origin.name("refs/landings/core/000001/x", self.head)
        self.origin.name("refs/tags/refs/landings/core/000009", self.head)
        self.assertTrue(self.repository.take_away("refs/landings/core/000009", self.head))
        self.assertFalse(self.repository.take_away("refs/landings/core/000001/x", "1" * 40))
        self.assertTrue(self.repository.take_away("refs/landings/core/000001/x", self.head))
        self.assertEqual(self.names(), {"refs/heads/main": self.head})
        self.assertEqual(self.origin.git("for-each-ref", "--format=%(refname)"),
                         "refs/heads/main\nrefs/tags/refs/landings/core/000009")

    def test_a_push_is_to_these_very_names(self) -> None:
        """Others end like them: git alone would take these for what is meant, or for as many more."""
        for name in ("refs/heads/refs/heads/main", f"refs/tags/{LANDING}", f"refs/heads/{LANDING}"):
            self.origin.name(name, self.head)
        new = self.change("refs/changes/1/1", {"a": "1"}, self.head)
        self.assertTrue(self.repository.push({"refs/heads/main": (self.head, new), LANDING: (None, new)}))
        self.assertEqual(self.names(), {"refs/heads/main": new, LANDING: new})
        self.assertEqual(self.origin.git("rev-parse", f"refs/tags/{LANDING}"), self.head)

    def test_only_names_that_begin_so_are_listed(self) -> None:
        for name in ("refs/heads/refs/landings/core/000009", "refs/tags/refs/landings/core/000009",
                     "refs/landings/core/000001"):
            self.origin.name(name, self.head)
        self.assertEqual(self.names(), {"refs/heads/main": self.head, "refs/landings/core/000001": self.head})

    def test_a_push_past_it_has_all_refused(self) -> None:
        past = self.origin.commit({"past": "1"}, self.head)
        self.origin.name("refs/heads/main", past)
        new = self.change("refs/changes/1/1", {"a": "1"}, self.head)
        self.assertFalse(self.repository.push({LANDING: (None, new), "refs/heads/main": (self.head, new)}))
        self.assertEqual(self.names(), {"refs/heads/main": past})
        self.assertIsNone(self.repository.commit("refs/landings/core/000001"))

    def test_a_name_that_is_there_already_has_all_refused(self) -> None:
        self.origin.name("refs/landings/core/000001", self.head)
        new = self.change("refs/changes/1/1", {"a": "1"}, self.head)
        self.assertFalse(self.repository.push({"refs/heads/main": (self.head, new), LANDING: (None, new)}))
        self.assertEqual(self.names(), {"refs/heads/main": self.head, "refs/landings/core/000001": self.head})

    def test_a_push_that_the_forge_declines_or_that_reaches_nobody_is_a_fault(self) -> None:
        new = self.change("refs/changes/1/1", {"a": "1"}, self.head)
        hook = self.origin.folder / "hooks/pre-receive"
        hook.parent.mkdir(exist_ok=True)
        hook.write_text("#!/bin/sh\nexit 1\n")
        hook.chmod(0o755)
        with self.assertRaisesRegex(GitFault, "declined") as told:
            self.repository.push({"refs/heads/main": (self.head, new)})
        # Each try of a landing has a commit of its own, and the same trouble.
        other = self.change("refs/changes/1/2", {"a": "2"}, self.head)
        with self.assertRaises(GitFault) as told_again:
            self.repository.push({"refs/heads/main": (self.head, other)})
        self.assertEqual(str(told.exception), str(told_again.exception))
        self.origin.folder.rename(self.folder / "away.git")
        with self.assertRaises(GitFault):
            self.repository.push({"refs/heads/main": (self.head, new)})

    def test_names_are_taken_away_whatever_they_stand_for_and_no_others(self) -> None:
        name = "refs/heads/gate/core/abc-1"
        for it in (name, f"{name}2", "refs/heads/gate/core/abc", f"refs/tags/{name}", f"refs/heads/x/{name}"):
            self.origin.name(it, self.head)
        self.repository.remove(name, "refs/heads/gate/core/abc-3")
        listed = self.origin.git("for-each-ref", "--format=%(refname)", "refs/heads/gate", "refs/heads/x", "refs/tags")
        self.assertEqual(set(listed.splitlines()), {
            f"{name}2", "refs/heads/gate/core/abc", f"refs/tags/{name}", f"refs/heads/x/{name}"})
        self.repository.remove(name)
        self.repository.remove()

    def test_what_the_server_does_not_let_go_is_declined(self) -> None:
        self.origin.git("config", "receive.denyDeletes", "true")
        self.origin.name("refs/heads/gate/core/abc-1", self.head)
        with self.assertRaises(Declined) as told:
            self.repository.remove("refs/heads/gate/core/abc-1")
        self.assertEqual(told.exception.words, "error: denying ref deletion for refs/heads/gate/core/abc-1; deletion"
                                               " prohibited")
        self.origin.folder.rename(self.folder / "away.git")
        with self.assertRaises(GitFault) as away:
            self.repository.remove("refs/heads/gate/core/abc-1")
        self.assertNotIsInstance(away.exception, Declined)

    def test_names_are_found_that_are_there(self) -> None:
        self.origin.revision(1, 1, self.head)
        self.origin.revision(1, 12, self.head)
        names = ("refs/changes/1/1", "refs/changes/1/2", "refs/changes/11/1")
        self.assertEqual(self.repository.here(*names), {})
        self.assertEqual(self.repository.find(*names), {"refs/changes/1/1": self.head})
        self.assertEqual(self.repository.here(*names), {"refs/changes/1/1": self.head})
        self.origin.folder.rename(self.folder / "away.git")
        self.assertEqual(self.repository.find("refs/changes/1/1"), {"refs/changes/1/1": self.head})
        with self.assertRaises(GitFault):
            self.repository.find(*names)

    def test_finding_costs_the_same_however_many_names_are_there(self) -> None:
        self.origin.git("update-ref", "--stdin", given="".join(f"create refs/landings/core/{it:06d} {self.head}\n"
                                                               for it in range(500)))
        trace = self.folder / "trace"
        with mock.patch.dict(os.environ, {"GIT_TRACE_PACKET": str(trace)}):
            repository = Repository(str(self.origin.folder), self.folder / "other", "gate <gate@localhost>")
        self.assertEqual(list(repository.find("refs/landings/core/000123")), ["refs/landings/core/000123"])
        self.assertLess(trace.read_text().count("refs/landings"), 10)


if __name__ == "__main__":
    unittest.main()
