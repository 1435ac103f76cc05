"""What a CI has run at a stand-in forge: workflow runs of GitHub and Gitea, pipelines of GitLab, with their jobs, and
check runs of GitHub's Apps.

Their forms are from the forges' documentation.
"""
from __future__ import annotations

from dataclasses import dataclass, field

COMPLETED = ("success", "failure", "neutral", "cancelled", "skipped", "timed_out", "action_required", "stale",
             "startup_failure")


@dataclass
class CiJob:
    """A job of a run: its name, and how it stands, as a conclusion of GitHub's or else a state. `cause` is why it has
    failed at GitLab."""
    number: int
    name: str
    word: str
    cause: str | None = None


@dataclass
class CiRun:
    """A run of a workflow, or a pipeline: of a branch at a commit, by an event. `word` is how it stands as a whole."""
    number: int
    repository: str
    branch: str
    commit: str
    event: str = "push"
    word: str = "in_progress"
    jobs: list[CiJob] = field(default_factory=list)
    is_cancelled: bool = False

    def set(self, name: str, word: str, cause: str | None = None) -> None:
        """A job is so now."""
        found = [it for it in self.jobs if it.name == name]
        if found:
            found[0].word, found[0].cause = word, cause
        else:
            self.jobs.append(CiJob(self.number * 1000 + len(self.jobs), name, word, cause))

    def cancel(self) -> bool:
        """Somebody cancels it. Whether anything was left to cancel."""
        if self.word in COMPLETED:
            return False
        self.is_cancelled, self.word = True, "cancelled"
        for it in self.jobs:
            it.word = it.word if it.word in COMPLETED else "cancelled"
        return True


@dataclass
class CheckRun:
    """A check run that an App has made of a commit: how it stands, as a conclusion or else a state, and whose it is, by
    the App's number and its name. `text` is what it says besides."""
    number: int
    repository: str
    commit: str
    app: int
    name: str
    word: str
    link: str | None = None
    slug: str = "some-ci"
    text: str = ""
