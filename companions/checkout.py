"""The repository of a tree: a build's own, which has one commit and reads a mirror's objects.

What a job does to its names, settings, hooks and attributes is nobody else's: only the worker writes the mirror.
"""
from __future__ import annotations

import shutil
from pathlib import Path

from companions.repository import OWN, GitFault, Repository


def check_out(mirror: Repository, place: Path, commit: str) -> None:
    """Makes a repository in a folder, and checks a commit of the mirror out there, by nobody's settings of git."""
    place.mkdir(parents=True)
    objects = (mirror.mirror / "objects").resolve()
    run(mirror, place, "init", "--quiet", "--template=")
    info = place / ".git/objects/info"
    info.mkdir(exist_ok=True)
    (info / "alternates").write_text(f"{objects}\n", encoding="utf-8")
    run(mirror, place, "checkout", "--quiet", "--force", "--detach", commit)


def run(mirror: Repository, place: Path, *words: str) -> None:
    ran = mirror.start(["git", *OWN, "-C", str(place), *words], mirror.own, None)
    if ran.returncode != 0:
        raise GitFault(f"git {' '.join(words)} in {place}: {ran.stderr.decode('utf-8', 'replace').strip()}")


def forget_earlier(mirror: Repository) -> None:
    """Removes what earlier versions left in a mirror: a tree was a work tree of it, and a job could write its hooks."""
    for name in ("worktrees", "hooks"):
        shutil.rmtree(mirror.mirror / name, ignore_errors=True)
