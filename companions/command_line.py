"""The command line of a program: what its words may be, its help, its version, and the answer to wrong ones."""
from __future__ import annotations

import argparse
import re
import subprocess
from collections.abc import Callable, Sequence
from pathlib import Path
from typing import NoReturn

from companions.beats import NAME

TOP = Path(__file__).resolve().parents[1]
CALL = re.compile(r"^    (python3 -m companions\..*)\n", re.MULTILINE)


def version() -> str:
    """The version of these files: the one that came with them, or that of the checkout."""
    file = TOP / "VERSION"
    if file.exists():
        return file.read_text(encoding="utf-8").strip()
    try:
        return subprocess.run([TOP / "companions" / "service" / "version"], capture_output=True, text=True,
                              check=True).stdout.strip()
    except (OSError, subprocess.CalledProcessError):
        return "unknown"


class Version(argparse.Action):
    """Prints program and version, which costs a call of git in a checkout."""

    def __call__(self, parser: argparse.ArgumentParser, namespace: argparse.Namespace,
                 values: str | Sequence[object] | None, option_string: str | None = None) -> NoReturn:
        print(parser.prog, version())
        parser.exit()


def worker_name(word: str) -> str:
    """A worker's name, which is a part of its folder's."""
    if not NAME.fullmatch(word):
        raise argparse.ArgumentTypeError("isn't the name of a worker")
    return word


class CommandLine(argparse.ArgumentParser):
    """The words of a program, by what its module says of itself: its lines with a call are the usage."""

    def __init__(self, part: str, said: str | None) -> None:
        calls = CALL.findall(said or "")
        super().__init__(prog=f"companions.{part}", usage="\n       ".join(calls), add_help=False, allow_abbrev=False,
                         description=re.sub(r"\n\n\n+", "\n\n", CALL.sub("", said or "")).strip(),
                         formatter_class=argparse.RawDescriptionHelpFormatter)
        self.calls = calls
        self.add_argument("-h", "--help", action="help", help="print this, and end")
        self.add_argument("--version", action=Version, nargs=0, help="print the version, and end")

    def add_settings(self) -> None:
        self.add_argument("settings", type=Path, metavar="companions.toml", help="the settings of the companions")

    def add_worker(self) -> None:
        self.add_argument("name", type=worker_name, metavar="NAME", help="the name by which the gate knows this worker")

    def error(self, message: str) -> NoReturn:
        """Where words lack, or are too many, the usage says it all."""
        why = f"{self.prog}: error: {message}\n" if message.startswith("argument ") else ""
        self.exit(2, f"usage: {self.calls[0]}\n{why}")

    def run(self, words: Sequence[str], begin: Callable[[argparse.Namespace], int]) -> int:
        """The status of the program: of what it begins with its words, or of the answer to these alone."""
        try:
            asked, rest = self.parse_known_intermixed_args(words)
            if rest:
                self.error(f"{rest[0]} isn't known")
        except SystemExit as end:
            return int(end.code or 0)
        return begin(asked)
