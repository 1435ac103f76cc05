"""`bench/release.sh`: what the archive has, that it is the same each time, and what isn't packed."""
from __future__ import annotations

import hashlib
import os
import shutil
import subprocess
import tarfile
import tempfile
import unittest
from pathlib import Path

from companions.tests.service import PROGRAM

TOP = Path(__file__).resolve().parents[2]
PARTS = ("README.md", "CHANGES.md", "pyproject.toml", ".flake8", "companions", "docs", "examples", "bench/release.sh",
         ".gitignore")
PLACE = "crates/gated/out/gated"
VERSION = "20261130-110832-"
DATE = "2026-11-30T11:08:32+00:00"
KIT = "rattle-kit-1 logic 0123456789abcdef"
PROVED = "handles allowed: Net; every proof and must-fail edit was done in this run"


def sum_of(file: Path) -> str:
    return hashlib.sha256(file.read_bytes()).hexdigest()


class ReleaseTest(unittest.TestCase):
    """A repository of one commit, with the files that stand here."""

    def setUp(self) -> None:
        self.assertEqual(os.geteuid(), 0, "the stage has users of its own: run this as root, as in a container")
        room = tempfile.TemporaryDirectory()
        self.addCleanup(room.cleanup)
        self.room = Path(room.name)
        self.top, self.folder, self.log = self.room / "top", self.room / "made", self.room / "log"
        self.environment = {**os.environ, "GIT_CONFIG_GLOBAL": "/dev/null", "GIT_AUTHOR_DATE": DATE,
                            "GIT_COMMITTER_DATE": DATE}
        self.environment.pop("PROGRAM", None)
        for it in PARTS:
            (self.top / it).parent.mkdir(parents=True, exist_ok=True)
            if (TOP / it).is_dir():
                shutil.copytree(TOP / it, self.top / it, ignore=shutil.ignore_patterns("__pycache__"))
            else:
                shutil.copy(TOP / it, self.top / it)
        self.program = self.top / PLACE
        self.program.parent.mkdir(parents=True)
        shutil.copy(PROGRAM, self.program)
        self.git("init", "--quiet", "--initial-branch=main")
        self.git("add", "--all")
        self.git("commit", "--quiet", "--message", "All")
        self.revision = self.git("rev-parse", "HEAD")
        self.write_log()

    def git(self, *words: str) -> str:
        return subprocess.run(["git", "-C", self.top, "-c", "user.name=a", "-c", "user.email=b", *words], check=True,
                              env=self.environment, capture_output=True, text=True).stdout.strip()

    def write_log(self, revision: str = "", tests: str = "1125 passed, 0 failed", proved: str = f"rt: ok; {PROVED}\n",
                  program: str = "") -> None:
        """What `.ci/run` prints, as far as it counts."""
        self.log.write_text(
            f"rt: gate_types: proved\n{proved}145 passed, 0 failed\n"
            f"gate: revision {revision or self.revision}, kit {KIT}, program {program or sum_of(self.program)}\n"
            f"passed: unittest companions.tests.test_units\n980 passed, 0 failed\n{tests}\n")

    def run_it(self, umask: int = 0o022) -> subprocess.CompletedProcess[str]:
        return subprocess.run([self.top / "bench" / "release.sh", self.folder, self.log], cwd="/", text=True,
                              umask=umask, env=self.environment, stdin=subprocess.DEVNULL, stdout=subprocess.PIPE,
                              stderr=subprocess.STDOUT, timeout=300, check=False)

    def made(self, umask: int = 0o022) -> Path:
        ran = self.run_it(umask)
        self.assertEqual(ran.returncode, 0, ran.stdout)
        archive = self.folder / f"gated-{VERSION}{self.revision[:12]}.tar.gz"
        self.assertEqual(ran.stdout, f"release: {archive}, {archive.stat().st_size} bytes, SHA-256 {sum_of(archive)}\n")
        return archive

    def refused(self, *says: str) -> None:
        ran = self.run_it()
        self.assertEqual(ran.returncode, 1, ran.stdout)
        for it in says:
            self.assertIn(it, ran.stdout)
        self.assertEqual(list(self.folder.glob("*")), [])

    def test_what_is_in_it(self) -> None:
        """It is the same each time, whatever the files' times, the umask and the program's place are."""
        archive = self.made()
        first = archive.read_bytes()
        self.look_into(archive)
        for file in self.top.rglob("*"):
            if ".git" not in file.parts and not file.is_symlink():
                os.utime(file, (1, 1))
        self.git("gc", "--quiet")
        self.program.unlink()
        self.environment["PROGRAM"] = str(PROGRAM)
        self.assertEqual(self.made(umask=0o077).read_bytes(), first)

    def look_into(self, archive: Path) -> None:
        name = archive.name.removesuffix(".tar.gz")
        with tarfile.open(archive) as packed:
            # This mypy doesn't know the word yet.
            packed.extractall(self.room / "unpacked", filter="data")  # type: ignore[call-arg]
            members = packed.getmembers()
        self.assertEqual({(it.uid, it.gid, it.uname, it.gname, it.mtime) for it in members},
                         {(0, 0, "", "", 1796036912)})
        names = [it.name for it in members]
        self.assertEqual([it.split("/") for it in names], sorted(it.split("/") for it in names))
        unpacked = self.room / "unpacked" / name
        self.assertEqual(sorted(it.name for it in unpacked.iterdir()), [
            ".flake8", "CHANGES.md", "PROVED", "README.md", "SHA256SUMS", "VERSION", "companions", "crates", "docs",
            "examples", "pyproject.toml"])
        self.assertEqual((unpacked / "PROVED").read_text(), f"""\
version {VERSION}{self.revision[:12]}
revision {self.revision}
kit {KIT}
program {sum_of(self.program)}
proofs {PROVED}
tests 1125 passed, 0 failed
""")
        lines = [line.split("  ", 1) for line in (unpacked / "SHA256SUMS").read_text().splitlines()]
        listed = {file: digest for digest, file in lines}
        there = {str(it.relative_to(unpacked)): sum_of(it) for it in unpacked.rglob("*") if it.is_file()}
        self.assertEqual(there.pop("SHA256SUMS"), sum_of(unpacked / "SHA256SUMS"))
        self.assertEqual(listed, there)
        self.assertIn(PLACE, listed)

    def test_what_is_no_release(self) -> None:
        """Each is refused by a line that says what to do, and nothing is left in the folder."""
        with self.subTest("a gate that failed"):
            self.write_log(tests="1124 passed, 1 failed")
            self.refused("ends with '1124 passed, 1 failed'")
            self.write_log(proved="rt: FAILED: gate_core\n")
            self.refused("has no line 'rt: ok; ..'")
            self.log.write_text("1125 passed, 0 failed\n")
            self.refused("has no line 'gate: revision ..'")
        with self.subTest("a tree with changes"):
            self.write_log()
            (self.top / "docs" / "more").write_text("")
            self.refused("release: the tree has changes that aren't committed", "?? docs/more")
            (self.top / "docs" / "more").unlink()
        with self.subTest("another program, which the log doesn't name"):
            self.program.write_text("#!/bin/sh\necho another text\n")
            self.write_log(program=sum_of(PROGRAM))
            self.refused(f"has the SHA-256 {sum_of(self.program)}, and the program of {self.log} has"
                         f" {sum_of(PROGRAM)}")
        with self.subTest("a program that doesn't work where it is unpacked"):
            self.write_log()
            self.refused("the program doesn't print what examples/expected.txt has")
        with self.subTest("a log of another revision"):
            self.git("commit", "--quiet", "--allow-empty", "--message", "More")
            later = self.git("rev-parse", "HEAD")
            self.refused(f"{self.log} is of revision {self.revision}, and this is {later}")
            self.write_log(revision=f"{later} with changes")
            self.refused(f"is of revision {later} with changes, and this is {later}")


if __name__ == "__main__":
    unittest.main()
