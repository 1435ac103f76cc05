"""The files that git-lfs keeps beside a repository: fetched from the project's own address, and put into trees.

git-lfs runs in a repository of the worker's that has no tree: so nothing that a tree names has a say, as the address in
its `.lfsconfig`. Commits and their trees have pointers in the place of these files, and stay what they are.
"""
from __future__ import annotations

import hashlib
import os
import re
import shutil
from dataclasses import dataclass
from pathlib import Path

from companions.repository import OWN, GitFault, Repository

# A file that stands for another one: what it has is that one's hash and size.
POINTER = re.compile(rb"version https://git-lfs\.github\.com/spec/v1\n(?:ext-[^\n]*\n)*"
                     rb"oid sha256:([0-9a-f]{64})\nsize ([0-9]{1,15})\n")
# git-lfs takes no larger file for one.
MOST = 1023
# What it says where a file isn't at the address.
NOT_THERE = ("[404]", "object does not exist", "missing object")
# By these a job's own git takes the files for what they stand for.
FILTER = {"filter.lfs.clean": "git-lfs clean -- %f", "filter.lfs.smudge": "git-lfs smudge -- %f",
          "filter.lfs.process": "git-lfs filter-process", "filter.lfs.required": "true"}
CONFIG = """[core]
\trepositoryformatversion = 0
\tbare = true
[lfs]
\tfetchinclude =
\tfetchexclude =
\tskipdownloaderrors = false
"""


class Lacking(Exception):
    """Files of a change can't be had: they aren't where its project is, or take more than `worker.space`."""


@dataclass(frozen=True)
class Pointer:
    """What stands for a file: its name, its entry in the index, and the hash and the size of that file."""
    name: bytes
    entry: bytes
    hash: str
    size: int


class LargeFiles:
    """The files of a project's commits that git-lfs keeps. `space` is how many bytes those of one commit may take."""

    def __init__(self, mirror: Repository, space: int) -> None:
        self.mirror, self.space = mirror, space
        self.folder = mirror.mirror.parent.parent / "lfs" / mirror.mirror.name

    def fill(self, place: Path, commit: str) -> None:
        """Puts the files of a commit in the place of their pointers in its tree, which is checked out.

        `Lacking` where they can't be had, and `GitFault` or `OSError` where that is the machine's fault or the
        network's.
        """
        pointers = self.pointers(place)
        if not pointers:
            return
        taken = sum(it.size for it in pointers)
        if taken > self.space:
            raise Lacking(f"its files in git-lfs take {taken} bytes, which is more than worker.space")
        self.fetch(commit, pointers)
        filtered = self.filtered(place, [it.name for it in pointers])
        filled = [it for it in pointers if it.name in filtered]
        for it in filled:
            self.put(it, place)
        for name, value in FILTER.items():
            self.git(place, "config", name, value)
        # Without what the index knows of the pointers on disk, a job's git reads the files by its filter.
        self.git(place, "update-index", "-z", "--index-info", given=b"".join(it.entry + b"\0" for it in filled))

    def pointers(self, place: Path) -> list[Pointer]:
        """The files of a tree that stand for others."""
        found = []
        for entry in self.git(place, "ls-files", "-s", "-z").split(b"\0"):
            name = entry.partition(b"\t")[2]
            file = os.path.join(os.fsencode(place), name)
            if not name or os.path.islink(file) or not os.path.isfile(file) or os.path.getsize(file) > MOST:
                continue
            with open(file, "rb") as content:
                said = POINTER.fullmatch(content.read())
            if said is not None:
                found.append(Pointer(name, entry, said[1].decode(), int(said[2])))
        return found

    def filtered(self, place: Path, names: list[bytes]) -> set[bytes]:
        """Those of the files whose attributes in the tree give them to git-lfs."""
        words = self.git(place, "check-attr", "-z", "--stdin", "filter", given=b"".join(it + b"\0" for it in names))
        said = words.split(b"\0")
        return {said[at] for at in range(0, len(said) - 2, 3) if said[at + 2] == b"lfs"}

    def fetch(self, commit: str, pointers: list[Pointer]) -> None:
        """Fetches what isn't here."""
        self.begin()
        if not self.lacking(pointers):
            return
        ran = self.mirror.start(["git-lfs", "fetch", "origin", commit], self.mirror.afar, None, self.folder)
        lacking = self.lacking(pointers)
        if not lacking:
            return
        said = " ".join((ran.stderr + ran.stdout).decode("utf-8", "replace").split())
        if ran.returncode == 0 or any(it in said.lower() for it in NOT_THERE):
            name = os.fsdecode(lacking[0].name)
            raise Lacking(f"its file {name} isn't in the git-lfs of its project, where {lacking[0].hash} is missing")
        raise GitFault(f"git-lfs fetch {self.mirror.address}: {said[-300:] or ran.returncode}")

    def lacking(self, pointers: list[Pointer]) -> list[Pointer]:
        return [it for it in pointers if it.size and not self.stored(it).exists()]

    def stored(self, pointer: Pointer) -> Path:
        """Where git-lfs keeps a file."""
        return self.folder / "lfs/objects" / pointer.hash[:2] / pointer.hash[2:4] / pointer.hash

    def begin(self) -> None:
        """Makes the repository in which git-lfs runs: it has no name and no tree, and reads the mirror's objects. Files
        of earlier builds stay in it, up to `space`."""
        store = self.folder / "lfs"
        if store.exists() and sum(it.stat().st_size for it in store.rglob("*") if it.is_file()) > self.space:
            shutil.rmtree(store)
        for name in ("objects/info", "refs"):
            (self.folder / name).mkdir(parents=True, exist_ok=True)
        address = self.mirror.address.replace("\\", "\\\\").replace('"', '\\"')
        for name, text in (("HEAD", "ref: refs/heads/none\n"),
                           ("config", f'{CONFIG}[remote "origin"]\n\turl = "{address}"\n'),
                           ("objects/info/alternates", f"{(self.mirror.mirror / 'objects').resolve()}\n")):
            (self.folder / name).write_text(text, encoding="utf-8")

    def put(self, pointer: Pointer, place: Path) -> None:
        """Writes a file in the place of its pointer, with the pointer's rights."""
        file, new = os.path.join(os.fsencode(place), pointer.name), os.fsencode(place / ".git/lfs-file")
        digest, left = hashlib.sha256(), pointer.size
        with open(new, "wb") as to:
            if left:
                with open(self.stored(pointer), "rb") as content:
                    while some := content.read(1 << 20):
                        digest.update(some)
                        to.write(some)
                        left -= len(some)
        if pointer.size and (left or digest.hexdigest() != pointer.hash):
            self.stored(pointer).unlink()
            raise GitFault(f"{self.stored(pointer)} has another content: it is fetched again")
        shutil.copymode(file, new)
        os.replace(new, file)

    def git(self, place: Path, *words: str, given: bytes | None = None) -> bytes:
        """What git prints in a tree whose job hasn't begun."""
        ran = self.mirror.start(["git", *OWN, "-C", str(place), *words], self.mirror.own, given)
        if ran.returncode != 0:
            raise GitFault(f"git {' '.join(words)} in {place}: {ran.stderr.decode('utf-8', 'replace').strip()}")
        return ran.stdout
