"""Reads the commit of a request alone, without its files and its past.

Anybody may push gigabytes to a request, and whoever fetches these meanwhile holds up all other requests. So they are
fetched once somebody approves the request who may. Until then the commit is enough, and nothing of it stays here.
"""
from __future__ import annotations

import shutil
import tempfile
from pathlib import Path

from companions.repository import Repository

# The beginning of the names of the folders in which this is done.
PEEK = "peek-"


class Peek(Repository):
    """A mirror for one commit. A server that can't send a commit alone sends its files too, within this time."""
    patience = 60.0


def commit_of(repository: Repository, name: str, commit: str) -> bytes | None:
    """The content of a commit that a name has at a repository's server; none where the name has another one."""
    folder = repository.mirror.parent
    folder.mkdir(parents=True, exist_ok=True)
    with tempfile.TemporaryDirectory(dir=folder, prefix=PEEK) as made:
        peek = Peek(repository.address, Path(made) / "mirror", repository.author)
        # What isn't sent is noted to be had from a remote, which has to have a name.
        peek.git("config", "remote.peek.url", peek.address)
        peek.git("fetch", "--quiet", "--no-tags", "--depth=1", "--filter=tree:0", "peek", f"+{name}:{name}")
        # What git has noted by that would make it fetch what it lacks.
        peek.tidy()
        return peek.content(commit) if peek.commit(commit) is not None else None


def clear(folder: Path) -> None:
    """Removes what one that was killed has left."""
    for it in folder.glob(f"{PEEK}*"):
        shutil.rmtree(it, ignore_errors=True)
