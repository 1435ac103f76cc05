"""What each program answers to its command line before it does anything: help, version, and wrong words."""
from __future__ import annotations

import contextlib
import importlib
import io
import re
import shutil
import subprocess
import sys
import tempfile
import unittest
from pathlib import Path

TOP = Path(__file__).resolve().parents[2]
PROGRAMS = sorted(it.stem for it in (TOP / "companions").glob("*.py") if "__main__" in it.read_text(encoding="utf-8"))
UNITS = TOP / "companions" / "service" / "systemd"


def called(program: str, *words: str) -> tuple[int, str, str]:
    """The status that a program's `main` gives, and what it prints on both streams."""
    with contextlib.redirect_stdout(io.StringIO()) as out, contextlib.redirect_stderr(io.StringIO()) as err:
        status = importlib.import_module(f"companions.{program}").main(list(words))
    return status, out.getvalue(), err.getvalue()


def ran(program: str, *words: str, top: Path = TOP) -> tuple[int, str, str]:
    """The same of a process."""
    ended = subprocess.run([sys.executable, "-B", "-m", f"companions.{program}", *words], capture_output=True,
                           text=True, cwd=top, check=False)
    return ended.returncode, ended.stdout, ended.stderr


class ProgramsTest(unittest.TestCase):
    def test_those_of_the_units_are_found(self) -> None:
        begun = {it for file in UNITS.glob("*.service")
                 for it in re.findall(r"^ExecStart=.* -m companions\.(\w+)", file.read_text(encoding="utf-8"), re.M)}
        self.assertGreater(len(begun), 5)
        self.assertLessEqual(begun | {"check", "evidence", "operator"}, set(PROGRAMS))

    def test_help(self) -> None:
        """How it is begun, what it is for, and each word that it takes."""
        for program in PROGRAMS:
            with self.subTest(program):
                status, said, wrong = called(program, "--help")
                self.assertEqual((status, wrong), (0, ""))
                self.assertRegex(said, rf"\Ausage: python3 -m companions\.{program} .*companions\.toml")
                self.assertRegex(said, r"\n\n[A-Z].*\.(?s:\n.*)\n  --version +print the version, and end\n")
                self.assertEqual(called(program, "-h"), (0, said, ""))

    def test_version(self) -> None:
        here = subprocess.run([TOP / "companions" / "service" / "version"], capture_output=True, text=True, check=True)
        for program in PROGRAMS:
            with self.subTest(program):
                self.assertEqual(ran(program, "--version"), (0, f"companions.{program} {here.stdout}", ""))

    def test_wrong_words(self) -> None:
        """The status is 2, and what is said leads on."""
        for program in PROGRAMS:
            for words in (["--wrong"], ["companions.toml", "more", "and", "more", "--wrong"]):
                with self.subTest(program, words=words):
                    status, said, wrong = called(program, *words)
                    self.assertEqual((status, said), (2, ""))
                    self.assertRegex(wrong, r"\Ausage: python3 -m |see 'python3 -m companions.operator --help'\n\Z")


class VersionTest(unittest.TestCase):
    """Where the companions lie without a checkout."""

    def setUp(self) -> None:
        folder = tempfile.TemporaryDirectory()
        self.addCleanup(folder.cleanup)
        self.top = Path(folder.name)
        shutil.copytree(TOP / "companions", self.top / "companions",
                        ignore=shutil.ignore_patterns("__pycache__", "tests"))

    def test_it_is_that_of_the_file_beside_them(self) -> None:
        (self.top / "VERSION").write_text("20261130-110832-0123456789ab\n", encoding="utf-8")
        self.assertEqual(ran("lander", "--version", top=self.top),
                         (0, "companions.lander 20261130-110832-0123456789ab\n", ""))

    def test_it_is_unknown_where_nothing_tells_it(self) -> None:
        self.assertEqual(ran("fence", "--version", top=self.top), (0, "companions.fence unknown\n", ""))
        shutil.rmtree(self.top / "companions" / "service")
        self.assertEqual(ran("fence", "--version", top=self.top), (0, "companions.fence unknown\n", ""))


if __name__ == "__main__":
    unittest.main()
