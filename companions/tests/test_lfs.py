"""Files that git-lfs keeps: real ones, by Debian's git-lfs, over repositories of this machine."""
from __future__ import annotations

import hashlib
import os
import shutil
import subprocess
import unittest
from pathlib import Path
from typing import Any
from unittest import mock

from companions import lfs, worker
from companions.reader import SettingsFault
from companions.tests.forge import WHO
from companions.tests.standin import StandIn
from companions.tests.worker_case import PretendClock, WorkerCase

LARGE = "large\n" * 1000
HASH = hashlib.sha256(LARGE.encode()).hexdigest()
POINTER = f"version https://git-lfs.github.com/spec/v1\noid sha256:{HASH}\nsize {len(LARGE)}\n"
ATTRIBUTES = "*.bin filter=lfs diff=lfs merge=lfs -text\n"


@unittest.skipUnless(shutil.which("git-lfs"), "git-lfs isn't installed: .ci/run does so")
class Files(WorkerCase):
    """Change 103 has a file that git-lfs keeps, pushed by git-lfs."""
    command = "cat a.bin | sha256sum; git status --short"
    room = 'filters = ["lfs"]\npatience = 2'

    def setUp(self) -> None:
        super().setUp()
        self.clock = self.pretended = PretendClock()
        self.commit = self.push({"a.bin": LARGE, ".gitattributes": ATTRIBUTES})
        self.worker = self.start()

    def push(self, files: dict[str, str]) -> str:
        """Revision 1 of change 103, as somebody pushes it who uses git-lfs."""
        clone = self.folder / "clone"
        shutil.rmtree(clone, ignore_errors=True)
        around = {**os.environ, **WHO, "HOME": str(self.folder), "GIT_CONFIG_NOSYSTEM": "1"}

        def git(*words: str) -> str:
            return subprocess.run(["git", "-C", str(clone), *words], check=True, capture_output=True, text=True,
                                  env=around).stdout.strip()

        subprocess.run(["git", "clone", "--quiet", str(self.origin.folder), str(clone)], check=True, env=around)
        git("lfs", "install", "--local")
        for name, text in sorted(files.items()):
            (clone / name).write_text(text)
            git("add", name)
        git("commit", "--quiet", "-m", "A large file")
        git("push", "--quiet", "--force", "origin", "HEAD:refs/changes/103/1")
        git("lfs", "push", "origin", "HEAD")
        return git("rev-parse", "HEAD")

    def said(self) -> list[str]:
        return self.log().partition("\n\n")[2].splitlines()[:-1]

    def store(self) -> Path:
        """Where the repository of the project has its files."""
        return self.origin.folder / "lfs/objects" / HASH[:2] / HASH[2:4] / HASH

    def test_a_job_has_the_files_and_its_commit_has_the_pointers(self) -> None:
        self.worker.turn()
        self.assertEqual(self.outcomes(), [(7, "success")], self.errors.getvalue())
        self.assertEqual(self.said(), [f"{HASH}  -"])
        [record] = self.records()
        tree = self.origin.tree("refs/changes/103/1")
        self.assertEqual((record["trees"], self.origin.text("refs/changes/103/1", "a.bin")),
                         ({"lib": tree}, POINTER.strip()))

    def test_the_commit_is_the_same_with_and_without(self) -> None:
        commits: list[str] = []
        for room in ('filters = ["lfs"]', ""):
            self.room = room
            self.worker = self.start("cat a.bin")
            self.gate.left = [self.reply(7 + len(commits), 103)]
            self.worker.turn()
            commits.append(self.records()[-1]["commit"])
        self.assertEqual(len(set(commits)), 1)
        self.assertIn(f"oid sha256:{HASH}", "\n".join(it.read_text() for it in self.worker.folder.glob("logs/*-8.log")))

    def test_what_is_here_is_not_fetched_again(self) -> None:
        self.worker.turn()
        self.store().unlink()
        self.gate.left = [self.reply(8, 103)]
        self.worker.turn()
        self.assertEqual(self.outcomes(), [(7, "success"), (8, "success")])

    def test_an_address_that_the_tree_names_is_never_asked(self) -> None:
        """Neither for what is at the project's own address, nor for what isn't."""
        asked = self.enterContext(StandIn(lambda *it: (200, {})))
        named = f"[lfs]\n\turl = {asked.url}/lfs\n\tfetchexclude = *\n[remote \"origin\"]\n\tlfsurl = {asked.url}/it\n"
        for name in ("a.bin", "b.bin"):
            self.push({name: LARGE, ".gitattributes": ATTRIBUTES})
            missing = name == "b.bin"
            commit = self.origin.commit({name: POINTER, ".gitattributes": ATTRIBUTES, ".lfsconfig": named}, self.head)
            self.origin.revision(103, 1, commit)
            if missing:
                self.store().unlink()
                shutil.rmtree(self.worker.folder / "lfs")
            self.gate.left = [self.reply(8 if missing else 7, 103)]
            self.worker.turn()
        self.assertEqual(self.outcomes(), [(7, "success"), (8, "failure")])
        self.assertEqual(asked.asked, [])

    def test_a_file_that_is_not_there_is_the_change_s_fault(self) -> None:
        self.store().unlink()
        self.worker.turn()
        self.assertEqual(self.outcomes(), [(7, "failure")], self.errors.getvalue())
        self.assertIn(f"build 7: failure, its file a.bin isn't in the git-lfs of its project, where {HASH} is"
                      " missing\n", self.errors.getvalue())

    def test_a_repository_that_is_away_is_not(self) -> None:
        fetch = self.worker.trees.ask
        away = self.origin.folder.with_suffix(".away")

        def ask(*it: Any) -> dict[str, str]:
            """It goes away right behind the fetch of the commits."""
            found = fetch(*it)
            if not away.exists():
                self.origin.folder.rename(away)
            return found

        self.pretended.meanwhile = lambda so_far: so_far > 1 and away.exists() and away.rename(self.origin.folder)
        with mock.patch.object(self.worker.trees, "ask", ask):
            self.worker.turn()
        self.assertIn("build 7: kept, since it can't be run here: git-lfs fetch ", self.errors.getvalue())

    def test_files_that_take_too_much_are_not_fetched(self) -> None:
        self.room += "\nspace = 1000"
        self.worker = self.start()
        with mock.patch.object(lfs.LargeFiles, "fetch", side_effect=AssertionError("fetched")):
            self.worker.turn()
        self.assertEqual(self.outcomes(), [(7, "failure")])
        self.assertIn(f"its files in git-lfs take {len(LARGE)} bytes, which is more than worker.space",
                      self.errors.getvalue())

    def test_a_store_that_has_grown_begins_anew(self) -> None:
        self.worker.turn()
        mirror = self.worker.trees.repositories["lib"]
        lfs.LargeFiles(mirror, len(LARGE)).begin()
        self.assertEqual(len(list(self.worker.folder.glob(f"lfs/lib/lfs/objects/*/*/{HASH}"))), 1)
        lfs.LargeFiles(mirror, len(LARGE) - 1).begin()
        self.assertEqual(len(list(self.worker.folder.glob(f"lfs/lib/lfs/objects/*/*/{HASH}"))), 0)

    def test_a_file_that_was_cut_is_fetched_again(self) -> None:
        self.worker.turn()
        [kept] = self.worker.folder.glob(f"lfs/lib/lfs/objects/*/*/{HASH}")
        # It may be the very file of the project's.
        kept.unlink()
        kept.write_text("cut")
        self.gate.left = [self.reply(8, 103)]
        self.worker.turn()
        self.assertEqual(self.outcomes(), [(7, "success"), (8, "success")], self.errors.getvalue())

    def test_only_files_that_attributes_give_to_git_lfs_are_filled(self) -> None:
        self.push({"a.bin": LARGE, ".gitattributes": ATTRIBUTES})
        commit = self.origin.commit({"a.bin": POINTER, "a.txt": POINTER, ".gitattributes": ATTRIBUTES}, self.head)
        self.origin.revision(103, 1, commit)
        self.worker = self.start("wc -c < a.bin; wc -c < a.txt")
        self.worker.turn()
        self.assertEqual(self.said(), [str(len(LARGE)), str(len(POINTER))])

    def test_neither_links_nor_names_lead_out_of_a_tree(self) -> None:
        """A link with a pointer's text is none, and a name may have any bytes."""
        outside = self.folder / "outside"
        outside.write_text(POINTER)
        files = {"a.bin": POINTER, "strange\tname\n.bin": POINTER, ".gitattributes": ATTRIBUTES}
        commit = self.origin.commit({name: text for name, text in files.items() if "\n" not in name}, self.head)
        blob = self.origin.git("hash-object", "-w", "--stdin", given=str(outside))
        pointer = self.origin.git("hash-object", "-w", "--stdin", given=POINTER)
        lines = self.origin.git("ls-tree", "-z", commit).split("\0")
        lines = [*(it for it in lines if it), f"120000 blob {blob}\tlink.bin",
                 f"100755 blob {pointer}\tstrange\tname\n.bin"]
        tree = self.origin.git("mktree", "-z", given="".join(f"{it}\0" for it in sorted(lines, key=lambda it: it[50:])))
        self.origin.revision(103, 1, self.origin.git("commit-tree", tree, "-p", self.head, "-m", "Strange"))
        self.worker = self.start("cat strange* | wc -c; test -x strange* && test -L link.bin && git status --short")
        self.worker.turn()
        self.assertEqual(self.said(), [str(len(LARGE))])
        self.assertEqual(outside.read_text(), POINTER)


class Settings(WorkerCase):
    def test_a_filter_that_is_not_known_is_told(self) -> None:
        self.room = 'filters = ["own"]'
        with self.assertRaisesRegex(SettingsFault, "worker.filters: own is none of lfs"):
            self.start()

    def test_without_git_lfs_a_worker_that_needs_it_does_not_start(self) -> None:
        self.room, self.sandbox = 'filters = ["lfs"]', False
        with mock.patch.object(worker.shutil, "which", return_value=None):
            self.assertEqual(worker.main([str(self.write_settings()), "w2"]), 1)
        self.assertEqual(self.errors.getvalue(), "worker w2: stops: git-lfs is missing: install it (apt-get install "
                                                 "git-lfs), or leave lfs out of worker.filters\n")

    def test_without_the_setting_a_job_has_pointers(self) -> None:
        commit = self.origin.commit({"a.bin": POINTER, ".gitattributes": ATTRIBUTES}, self.head)
        self.origin.revision(103, 1, commit)
        self.worker = self.start("cat a.bin")
        self.worker.turn()
        self.assertIn(POINTER, self.log())
        self.assertFalse((self.folder / "state/worker/w1/lfs").exists())


if __name__ == "__main__":
    unittest.main()
