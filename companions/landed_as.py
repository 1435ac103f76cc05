"""The commits by which squashed changes have landed, for the comments on their requests."""
from __future__ import annotations

from collections.abc import Callable, Mapping

from companions.landings import Landing, note_name
from companions.looked import uptime
from companions.repository import GitFault, Repository
from companions.rests import Rests
from companions.settings import Project

# How long a landing rests that couldn't be found, in seconds: at first, and at most.
FIRST, LONGEST = 2.0, 300.0
# Of so many landings the commit is remembered, the last ones that were asked for.
KEPT = 1000


class LandedAs:
    """Asks the repositories, once for each landing. Others than the lander may push notes: so the commit that a note
    names has to be a landing of the branch, to which nobody else pushes, and to say itself of which change."""

    def __init__(self, repositories: Mapping[str, Repository], project_of: Callable[[int], Project | None],
                 clock: Callable[[], float] = uptime) -> None:
        self.repositories, self.project_of, self.clock = repositories, project_of, clock
        self.known: dict[tuple[int, int], str] = {}
        self.rests = Rests(FIRST, LONGEST)

    def __call__(self, change: int, queue: str, place: int) -> str | None:
        """The commit of a change that landed at a place of a queue, as far as that is known."""
        project, name = self.project_of(change), note_name(queue, place)
        if project is None or (change, place) in self.known or self.rests.is_resting(name, self.clock()):
            return self.known.get((change, place))
        try:
            commit = self.find(project, name, change, place)
        except GitFault:
            commit = None
        if commit is None:
            self.rests.failed(name, self.clock())
        else:
            self.rests.over(name)
            self.known[change, place] = commit
            if len(self.known) > KEPT:
                del self.known[next(iter(self.known))]
        return commit

    def find(self, project: Project, name: str, change: int, place: int) -> str | None:
        repository, branch = self.repositories[project.name], f"refs/heads/{project.branch}"
        there = repository.ask(branch, name)
        commit = repository.commit(there[name]) if name in there else None
        landed = Landing.read(repository.message(commit)) if commit is not None else None
        if commit is None or landed is None or (landed.change, landed.place) != (change, place):
            return None
        line = repository.git("rev-list", "--first-parent", there[branch], f"^{commit}^")
        return commit if commit in line.splitlines() else None
