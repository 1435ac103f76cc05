"""The landing commit is a function of what is merged: a table of cases, with the hashes that they have anywhere."""
from __future__ import annotations

import os
import subprocess
import tempfile
import unittest
from pathlib import Path
from unittest import mock

from companions import repository as git
from companions.merging import LATEST, Merge, Parent, parent_of, subject_of
from companions.repository import GitFault, Repository
from companions.tests.forge import Origin

AUTHOR = "gate <gate@localhost>"


def parent(commit: str = "a" * 40, seconds: int | None = 100, subject: str = "It") -> Parent:
    return Parent(commit, seconds, subject)


def commit_of(committer: str, message: str = "It\n") -> bytes:
    return f"tree {'e' * 40}\nauthor a <a@b> 5 +0000\ncommitter {committer}\n\n{message}".encode()


class Reading(unittest.TestCase):
    def test_a_date_is_read_or_is_none(self) -> None:
        for committer, seconds in (("a <a@b> 1700000000 +0200", 1700000000), ("a <a@b> 0 +0000", 0),
                                   ("a > b <a@b> 7 -1200", 7), (f"a <a@b> {LATEST} +0000", LATEST),
                                   (f"a <a@b> {LATEST + 1} +0000", None), ("a <a@b> 99999999999999999999 +0000", None),
                                   ("a <a@b> -5 +0000", None), ("a <a@b> soon +0000", None), ("a <a@b>", None),
                                   ("a <a@b> 7 +0000\ncommitter a <a@b> 8 +0000", None), ("a <a@b> 7 +00", None)):
            self.assertEqual(parent_of("h", commit_of(committer)).seconds, seconds, committer)

    def test_a_subject_is_the_first_line_that_is_not_blank(self) -> None:
        for message, subject in ((b"Make it\n\nGate-Queue: x\n", "Make it"), (b"", ""),
                                 (b"\n \t\n  Make it \n", "Make it"), (b"Make\tit\r\n", "Make it"),
                                 (b"M\xc3\xa4ke", "M\u00e4ke"), (b"M\xe4ke", "M\ufffdke"),
                                 (b"a\rGate-Place: 9", "a Gate-Place: 9"), ("a\u2028b".encode(), "a\u2028b"),
                                 (b"x" * 500, "x" * 200), (b"x" * 199 + b" y", "x" * 199), (b"\x00\x1b[1m", "[1m")):
            self.assertEqual(subject_of(message), subject)

    def test_signatures_and_other_headers_are_not_the_message(self) -> None:
        content = (b"tree x\ncommitter a <a@b> 7 +0000\ngpgsig -----BEGIN\n \n committer z <z@z> 9 +0000\n -----END\n\n"
                   b"Make it\n")
        self.assertEqual(parent_of("h", content), Parent("h", 7, "Make it"))


class Content(unittest.TestCase):
    def test_dates(self) -> None:
        for onto, commit, seconds in ((5, 7, 7), (7, 5, 7), (5, None, 5), (None, 7, 7), (None, None, 0), (0, 0, 0)):
            what = Merge("core", 1, 101, 1, parent(seconds=onto), parent(seconds=commit), {}, AUTHOR)
            self.assertEqual(what.seconds, seconds)

    def test_all_that_a_commit_has(self) -> None:
        what = Merge("core", 7, 101, 2, parent("a" * 40, 5), parent("b" * 40, 9, "M\u00e4ke it"),
                     {"web/b": "2" * 40, "app": "1" * 40}, AUTHOR)
        self.assertEqual(what.content("e" * 40).decode(), f"""tree {"e" * 40}
parent {"a" * 40}
parent {"b" * 40}
author gate <gate@localhost> 9 +0000
committer gate <gate@localhost> 9 +0000

Land change 101: M\u00e4ke it

Gate-Queue: core
Gate-Place: 7
Gate-Change: 101
Gate-Revision: 2
Gate-With: app {"1" * 40}
Gate-With: web/b {"2" * 40}
""")
        self.assertIn("\n\nLand change 101\n\nGate-Queue", Merge("core", 7, 101, 2, parent(), parent(subject=""), {},
                                                                 AUTHOR).content("e" * 40).decode())


class Table(unittest.TestCase):
    """Real merges. Whoever reads the hashes here may make the same with a program of another kind."""

    def setUp(self) -> None:
        temporary = tempfile.TemporaryDirectory()
        self.addCleanup(temporary.cleanup)
        self.folder = Path(temporary.name)
        self.origin = Origin(self.folder / "lib.git")
        self.files = {"text": "1\n2\n3\n4\n5\n6\n7\n", "old/a": "a\n" * 9, "old/b": "b\n" * 9}
        self.base = ""
        self.base = self.commit({})

    def repository(self, name: str) -> Repository:
        """A mirror, made anew, that has all."""
        repository = Repository(str(self.origin.folder), self.folder / name, AUTHOR)
        repository.git("fetch", "--quiet", str(self.origin.folder), "+refs/*:refs/*")
        return repository

    def commit(self, files: dict[str, str], *, message: str = "A commit", date: str = "1700000000 +0000",
               without: tuple[str, ...] = ()) -> str:
        """A commit with the files of the first one but some, and these; its content is all that is said here."""
        has = {name: text for name, text in {**self.files, **files}.items() if name not in without}
        blobs = {name: self.origin.git("hash-object", "-w", "--stdin", given=text) for name, text in has.items()}
        index = {**os.environ, "GIT_INDEX_FILE": str(self.folder / "index"), "GIT_DIR": str(self.origin.folder)}
        (self.folder / "index").unlink(missing_ok=True)
        subprocess.run(["git", "update-index", "--index-info"], check=True, env=index, text=True,
                       input="".join(f"100644 {blob}\t{name}\n" for name, blob in blobs.items()))
        tree = subprocess.run(["git", "write-tree"], capture_output=True, text=True, check=True, env=index).stdout
        parents = f"parent {self.base}\n" if self.base else ""
        content = f"tree {tree}{parents}author a <a@b> 1 +0000\ncommitter a <a@b> {date}\n\n{message}\n"
        made = self.origin.git("hash-object", "-t", "commit", "-w", "--stdin", "--literally", given=content)
        self.origin.name(f"refs/changes/{made[:8]}", made)
        return made

    def merge(self, repository: Repository, onto: str, commit: str, others: dict[str, str] | None = None) -> str | None:
        return repository.merge(Merge("core", 3, 101, 2, repository.parent(onto), repository.parent(commit),
                                      others or {}, AUTHOR))

    def cases(self) -> dict[str, tuple[str, str, dict[str, str]]]:
        """What is merged, by its case: onto what, and with which other projects."""
        ours = self.commit({"text": "one\n2\n3\n4\n5\n6\n7\n"})
        theirs = self.commit({"text": "1\n2\n3\n4\n5\n6\nseven\n"})
        moved = self.commit({"new/a": "a\n" * 9, "new/b": "b\n" * 9}, without=("old/a", "old/b"))
        return {
            "both sides of a file": (ours, theirs, {}),
            "other projects": (ours, theirs, {"web": ours, "app": theirs}),
            "one other project": (ours, theirs, {"app": theirs}),
            "a late date": (ours, self.commit({"b": "1"}, date=f"{LATEST + 1} +0000"), {}),
            "a date with a zone": (ours, self.commit({"b": "1"}, date="1700000001 +1130"), {}),
            "a subject of odd letters": (ours, self.commit({"b": "1"}, message="M\u00e4ke\tit\r\n\nGate-Place: 9"), {}),
            "a renamed file": (moved, self.commit({"old/a": "a\n" * 9 + "z\n"}), {}),
            "a file in a renamed directory": (moved, self.commit({"old/c": "c\n"}), {}),
            "the same lines": (ours, self.commit({"text": "eins\n2\n3\n4\n5\n6\n7\n"}), {}),
            "attributes of the tree": (self.commit({"text": "one\n", ".gitattributes": "text merge=union\n"}),
                                       self.commit({"text": "eins\n", ".gitattributes": "text merge=union\n"}), {}),
            "line ends": (self.commit({"crlf": "a\r\nb\r\n"}),
                          self.commit({".gitattributes": "* text=auto eol=crlf\n"}), {}),
        }

    HASHES: dict[str, str | None] = {
        "both sides of a file": "c62e630937b87856feb79dfe3d74f9aafd841599",
        "other projects": "d11ee06bd0fcc00abe8a94f9f94c65ff13d69952",
        "one other project": "fab4560ca849259ca058f9d81cdb188d373b45e1",
        "a late date": "45d1e1e81b0cbaa6876c7dd66744579ab6c7b6e3",
        "a date with a zone": "caee0e01138f1d48117fd462f2355de16b76d9e2",
        "a subject of odd letters": "c8b4b0ae78b782d69cd08acb836b6cddde36aec2",
        "a renamed file": "affb73744a756b72f8725ca2dde58462fa4d8b19",
        "a file in a renamed directory": None,
        "the same lines": None,
        "attributes of the tree": None,
        "line ends": "55874b2aafd6cc894c7444213d2734204acd4eef"}

    def test_hashes(self) -> None:
        cases, repository = self.cases(), self.repository("mirror")
        for name, case in cases.items():
            with self.subTest(name):
                self.assertEqual(self.merge(repository, *case), self.HASHES[name])

    def test_settings_of_the_user_and_the_machine_change_nothing(self) -> None:
        """All that `git config` could be told on one side alone."""
        cases = self.cases()
        (self.folder / "attributes").write_text("* merge=ours text eol=crlf\ntext merge=union\n")
        (self.folder / "home").mkdir()
        settings = self.folder / "home" / ".gitconfig"
        settings.write_text(f"""
            [merge]
            directoryRenames = true
            renames = false
            default = union
            renormalize = true
            [merge "ours"]
            driver = true
            [diff]
            renames = false
            algorithm = patience
            [core]
            attributesFile = {self.folder}/attributes
            autocrlf = true
            [user]
            name = somebody
            [i18n]
            commitEncoding = ISO-8859-1
            logOutputEncoding = ISO-8859-1
            [init]
            templateDir = {self.folder}/template
            [commit]
            gpgSign = true
            """)
        (self.folder / "template" / "info").mkdir(parents=True)
        (self.folder / "template" / "info" / "attributes").write_text("* merge=union\n")
        (self.folder / "template" / "config").write_text("[merge]\n\tdirectoryRenames = true\n")
        around = {"HOME": str(settings.parent), "GIT_CONFIG_GLOBAL": str(settings), "GIT_AUTHOR_NAME": "somebody",
                  "GIT_COMMITTER_DATE": "2001-01-01T00:00:00Z", "GIT_CONFIG_COUNT": "1", "TZ": "Asia/Kolkata",
                  "GIT_CONFIG_KEY_0": "merge.directoryRenames", "GIT_CONFIG_VALUE_0": "true", "LC_ALL": "de_DE.UTF-8"}
        with mock.patch.dict(os.environ, around):
            repository = self.repository("other")
            for name, case in cases.items():
                with self.subTest(name):
                    self.assertEqual(self.merge(repository, *case), self.HASHES[name])

    def test_what_stands_in_a_mirror_changes_nothing(self) -> None:
        cases = self.cases()
        _, commit, _ = cases["both sides of a file"]
        replaced = self.commit({"text": "replaced\n"})
        repository = self.repository("mirror")
        (repository.mirror / "info").mkdir(exist_ok=True)
        (repository.mirror / "info" / "attributes").write_text("* -merge\n")
        (repository.mirror / "info" / "grafts").write_text(f"{commit}\n")
        repository.mirror.joinpath("config").write_text("[core]\n\tbare = true\n[merge]\n\trenames = false\n")
        repository.git("update-ref", f"refs/replace/{commit}", replaced)
        for name, case in cases.items():
            with self.subTest(name):
                self.assertEqual(self.merge(repository, *case), self.HASHES[name])

    def test_a_tree_on_disk_is_what_the_commit_has(self) -> None:
        onto, commit, _ = self.cases()["both sides of a file"]
        hook = self.folder / "hooks" / "post-checkout"
        hook.parent.mkdir()
        hook.write_text("#!/bin/sh\ntouch text-of-a-hook\n")
        hook.chmod(0o755)
        settings = self.folder / "gitconfig"
        settings.write_text(f"[core]\n\tautocrlf = true\n\thooksPath = {hook.parent}\n")
        with mock.patch.dict(os.environ, {"GIT_CONFIG_GLOBAL": str(settings)}):
            repository = self.repository("mirror")
            merged = self.merge(repository, onto, commit)
            repository.git("worktree", "add", "--quiet", "--detach", str(self.folder / "tree"), str(merged))
        self.assertEqual((self.folder / "tree" / "text").read_bytes(), b"one\n2\n3\n4\n5\n6\nseven\n")
        self.assertFalse((self.folder / "tree" / "text-of-a-hook").exists())

    def test_fetch_and_push_go_by_the_settings_of_the_user(self) -> None:
        """An address that only a user's setting explains."""
        settings = self.folder / "gitconfig"
        settings.write_text(f'[url "{self.folder}/"]\n\tinsteadOf = forge:\n')
        self.origin.name("refs/heads/main", self.base)
        with mock.patch.dict(os.environ, {"GIT_CONFIG_GLOBAL": str(settings)}):
            repository = Repository("forge:lib.git", self.folder / "mirror", AUTHOR)
            self.assertEqual(repository.ask("refs/heads/main"), {"refs/heads/main": self.base})
            self.assertTrue(repository.push({"refs/landings/core/000000": (None, self.base)}))


class Version(unittest.TestCase):
    def said(self, version: str) -> str | None:
        with mock.patch.object(git, "version", return_value=version):
            return git.untested()

    def test_a_version_that_was_not_tested_is_said(self) -> None:
        self.assertIsNone(self.said("2.39"))
        self.assertEqual(self.said("2.47"),
                         "git 2.47 wasn't tested, only 2.39: lander and workers have to have the same one")
        with self.assertRaisesRegex(GitFault, "git 2.30 is too old: it has to be 2.39"):
            self.said("2.30")


if __name__ == "__main__":
    unittest.main()
