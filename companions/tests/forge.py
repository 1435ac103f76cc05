"""Real repositories of a forge, in a temporary folder: what an adapter and a lander leave in them."""
from __future__ import annotations

import os
import subprocess
from pathlib import Path

from companions.repository import FIRST_HEADS, LANDING, REVISION

WHO = {f"GIT_{role}_{it}": value for role in ("AUTHOR", "COMMITTER")
       for it, value in (("NAME", "test"), ("EMAIL", "test@localhost"), ("DATE", "2024-01-01T00:00:00Z"))}


def message_of(queue: str, place: int, change: int) -> str:
    """What a landing commit says."""
    return (f"Land change {change}: A commit\n\nGate-Queue: {queue}\nGate-Place: {place}\nGate-Change: {change}\n"
            "Gate-Revision: 1\n")


def earlier_message(first: str, queue: str, order: int, change: int) -> str:
    """What one of an earlier version says."""
    return (f"Land change {change}: A commit\n\nGate-File: {first}\nGate-Queue: {queue}\nGate-Order: {order}\n"
            f"Gate-Change: {change}\nGate-Revision: 1\n")


class Origin:
    """A project's repository in the forge."""

    def __init__(self, folder: Path) -> None:
        self.folder = folder
        self.git("init", "--quiet", "--bare", "--initial-branch=main", str(folder), where=folder.parent)

    def git(self, *words: str, where: Path | None = None, given: str | None = None) -> str:
        ran = subprocess.run(["git", "-C", str(where or self.folder), *words], check=True, capture_output=True,
                             text=True, input=given, env={**os.environ, **WHO})
        return ran.stdout.strip()

    def commit(self, files: dict[str, str], *parents: str) -> str:
        """A commit with the files of its first parent, if it has one, and these."""
        lines = self.git("ls-tree", "-r", parents[0]).splitlines() if parents else []
        entries = {line.partition("\t")[2]: line.partition("\t")[0] for line in lines}
        for name, text in files.items():
            entries[name] = f"100644 blob {self.git('hash-object', '-w', '--stdin', given=text)}"
        tree = self.git("mktree", given="".join(f"{kind}\t{name}\n" for name, kind in sorted(entries.items())))
        return self.git("commit-tree", tree, "-m", "A commit", *(word for it in parents for word in ("-p", it)))

    def land(self, queue: str, place: int, files: dict[str, str], message: str | None = None) -> str:
        """A landing on `main`, with its note: a change that adds these files is merged."""
        head = self.git("rev-parse", "main")
        own, message = self.commit(files, head), message or message_of(queue, place, 900 + place)
        landed = self.git("commit-tree", self.tree(own), "-p", head, "-p", own, "-F", "-", given=message)
        self.name("refs/heads/main", landed)
        self.landing(queue, place, landed)
        return landed

    def name(self, name: str, commit: str) -> None:
        self.git("update-ref", name, commit)

    def revision(self, change: int, revision: int, commit: str) -> None:
        self.name(REVISION.format(change=change, revision=revision), commit)

    def first(self, queue: str, commit: str) -> None:
        self.name(FIRST_HEADS.format(queue=queue), commit)

    def landing(self, queue: str, place: int, commit: str) -> None:
        self.name(LANDING.format(queue=queue, place=place), commit)

    def tree(self, commit: str) -> str:
        return self.git("rev-parse", f"{commit}^{{tree}}")

    def text(self, commit: str, name: str) -> str:
        return self.git("show", f"{commit}:{name}")
