"""Why a change can't be merged: the files that conflict, and the change that touched them before it."""
from __future__ import annotations

from collections.abc import Sequence
from dataclasses import dataclass

from companions.landings import Landing
from companions.repository import Merged, Repository

# So many files are kept, and so many are named in a line.
KEPT, NAMED = 50, 3


@dataclass(frozen=True)
class Cause:
    """Why a merge fails. `other` is the change by which one of the files was touched last, if that is a change.

    Without files there is no common past. `stacked`: that change lands as one commit, and this one was begun from its
    commits.
    """
    files: tuple[str, ...]
    other: int | None = None
    stacked: bool = False

    def __str__(self) -> str:
        if not self.files:
            return "it has no common past with the branch"
        named = [plain(it) for it in self.files[:NAMED]]
        more = f" and {len(self.files) - NAMED} more" if len(self.files) > NAMED else ""
        rebase = ", whose commits it was begun from, and which lands as one: rebase it" if self.stacked else ""
        return (f"it conflicts with {'the branch' if self.other is None else f'change {self.other}'} in"
                f" {', '.join(named)}{more}{rebase}")


class Conflict(Exception):
    """A change can't be merged: it is at fault, not the machine. `is_own`: it is the one that is built."""

    def __init__(self, change: tuple[int, int], project: str, is_own: bool, cause: Cause) -> None:
        whose = "its own" if is_own else "ahead"
        super().__init__(f"change {change[0]}, revision {change[1]} ({whose}) can't be merged into {project}: {cause}")
        self.is_own, self.cause = is_own, cause


def plain(name: str) -> str:
    """The name of a file, as it may stand in a line."""
    return "".join(it if it.isprintable() else " " for it in name)[:100]


def cause_of(repository: Repository, onto: str, commit: str, ahead: Sequence[tuple[int, str]]) -> Cause:
    """Why a commit can't be merged onto another, given the changes that were merged last and their landing commits."""
    merged: Merged = repository.merge_trees(onto, commit)
    files = tuple(merged.files[:KEPT])
    if not files:
        return Cause(())
    for change, landing in reversed(ahead):
        listed = repository.git("diff-tree", "-r", "-z", "--name-only", f"{landing}^1", landing).split("\0")
        if set(files) & set(listed):
            return Cause(files, change, is_stacked(repository, Landing.read(repository.message(landing)), commit))
    branch = f"{ahead[0][1]}^1" if ahead else onto
    last, _, message = repository.git("log", "--first-parent", "--max-count=1", "--format=%H%n%B", branch, "--",
                                      *(f":(literal){it}" for it in files)).partition("\n")
    landed = Landing.read(f"{message}\n")
    # What the commit has in its own past isn't what it conflicts with.
    is_past = not last or repository.run("merge-base", "--is-ancestor", last, commit).returncode == 0
    other = landed.change if landed and not is_past else None
    return Cause(files, other, other is not None and is_stacked(repository, landed, commit))


def is_stacked(repository: Repository, landed: Landing | None, commit: str) -> bool:
    """Whether a commit has that in its past which a landing has as one commit."""
    return (landed is not None and landed.commit is not None
            and repository.run("merge-base", "--is-ancestor", landed.commit, commit).returncode == 0)
