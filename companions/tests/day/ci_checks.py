"""What has to be so at the end of a day with a CI: nothing landed but by its own run, and no run is left."""
from __future__ import annotations

from collections.abc import Callable, Iterator
from functools import cached_property
from typing import Any

from companions.tests.day.ci_stage import CiStage
from companions.tests.day.ci_words import WORKFLOWS
from companions.tests.day.forge_checks import ForgeChecks
from companions.tests.day.layout import STATUS


class CiChecks(ForgeChecks):
    """Compares what a day left with what its CI has said."""

    stage: CiStage
    # The commands are run beside the CI.
    records = "ci/*/lane-*/builds.jsonl"

    def each(self) -> list[Callable[[], Iterator[str]]]:
        return [*super().each(), self.check_runs, self.check_successes, self.check_runs_left, self.check_team]

    @cached_property
    def by_ci(self) -> list[dict[str, Any]]:
        return self.stage.built()

    def said(self, record: dict[str, Any]) -> set[str]:
        """What the CI itself has said of the job of a record. A bot's status is of a commit; what the forge runs is of
        one push of it."""
        job, home = STATUS.format(record["job"]), self.stage.project(record["project"]).home
        return {word for branch, commit, name, word in list(self.stage.team.words.said) if name == job and (
            branch == record["run"] if home == WORKFLOWS else commit == record["commit"])}

    def check_runs(self) -> Iterator[str]:
        """Each voting job of a landing that a CI runs has succeeded at this very commit, in a run of this commit."""
        for landed, job in self.voting():
            if landed.project not in self.stage.of_ci:
                continue
            wanted = landed.commit, job, "success"
            records = [it for it in self.by_ci if (it["commit"], it["job"], it["outcome"]) == wanted]
            if not any(f"/{landed.commit}-" in it["run"] and "success" in self.said(it) for it in records):
                yield f"{landed}: the CI has said of no run of its commit that {job} passed"

    def check_successes(self) -> Iterator[str]:
        """Nothing was taken for a success but the CI's own word."""
        for it in self.by_ci:
            if it["outcome"] == "success" and "success" not in (said := self.said(it)):
                yield (f"build {it['build']}, {it['job']} of {it['run']}, was taken for a success, and the CI said:"
                       f" {', '.join(sorted(said)) or 'nothing'}")

    def check_runs_left(self) -> Iterator[str]:
        """Whatever was pushed to be tested is gone."""
        yield from (f"{it} is left" for it in self.stage.runs_left())

    def check_team(self) -> Iterator[str]:
        """The CI could test all that it was given."""
        yield from self.stage.team.strange
        if self.stage.team.fault is not None:
            yield f"the CI ended: {self.stage.team.fault}"
