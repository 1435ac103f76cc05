"""The stage of a day with a forge and a team's CI: `companions.ci` in the place of the workers.

It runs the commands of some projects, and pushes what is to be tested of the others. Their CI hears of that as a forge
tells it, push by push.
"""
from __future__ import annotations

import json
from pathlib import Path
from typing import Any

from companions.tests.day import layout
from companions.tests.day.ci_team import TeamCi
from companions.tests.day.ci_words import TEAM
from companions.tests.day.forge_stage import OLD, ForgeStage
from companions.tests.day.layout import APP, LIB, Project
from companions.tests.day.stage import free_port

NAME = "ci1"
# Where runs are in a repository.
RUNS = ("refs/heads/gate", "refs/gate")
UPDATE = """#!/bin/sh
# A branch moves by the lander alone, revisions are named by the adapter, and what a CI is to test by companions.ci.
case $FORGE_ACCOUNT:$1 in
ci:refs/heads/gate/* | ci:refs/gate/*) ;;
*:refs/heads/gate/* | *:refs/gate/*) echo "$FORGE_ACCOUNT may not push $1"; exit 1 ;;
lander:refs/heads/* | lander:refs/landings/* | adapter:refs/changes/*) ;;
developer:refs/pull/* | developer:refs/merge-requests/*) ;;
*) echo "$FORGE_ACCOUNT may not push $1"; exit 1 ;;
esac
"""
# Each push of a branch, as a forge tells a CI of it.
PUSHED = """#!/bin/sh
while read -r old new name; do echo "${PWD##*/} $new $name"; done >> "$DAY/pushed"
"""


class CiStage(ForgeStage):
    """All that runs in a day with a CI. A name has to have come within `begins` seconds."""
    programs = ("lander", "ci", "watch", "adapter")
    of_ci = frozenset(it.name for it in (LIB, APP, OLD))

    def __init__(self, folder: Path, form: str, turned: str | None = None, begins: float = 900.0) -> None:
        super().__init__(folder, form, turned)
        self.begins, self.ci_port = begins, free_port()
        self.team = TeamCi(self)

    def make(self) -> None:
        (self.folder / "pushed").touch()
        (self.folder / "team").mkdir()
        super().make()

    def add_project(self, project: Project) -> None:
        """A repository has the names of all its projects, so that each can be fetched by its name."""
        super().add_project(project)
        named = self.folder / "repos" / f"{project.name}.git"
        if not named.exists():
            named.symlink_to(f"{project.home}.git")

    def hooks(self) -> dict[str, str]:
        return {"update": UPDATE, "post-receive": PUSHED}

    def companions(self) -> dict[str, tuple[str, str]]:
        """All have the table: by `ci.begins` the watch knows how long a build may take."""
        files = {**super().companions(), "ci.toml": ("ssh://ci@forge", "")}
        return {name: (where, more + self.ci_table()) for name, (where, more) in files.items()}

    def ci_table(self) -> str:
        it, pace = self.forge, layout.pace()
        return (f'[ci]\nform = "{it.kind}"\nurl = "{it.url}"\ntoken = "{it.token}"\nsecret = "{it.secret}"\n'
                f'listen = "127.0.0.1:{self.ci_port}"\ntrusted = ["{TEAM}"]\nbegins = {self.begins}\n'
                f'look = {15 * pace}\ncommands = 3\n')

    def modules(self) -> dict[str, list[str]]:
        others = {name: words for name, words in super().modules().items() if words[0] != "worker"}
        return {**others, "ci": ["ci", str(self.folder / "ci.toml"), NAME]}

    @property
    def ci_folder(self) -> Path:
        """What companions.ci keeps."""
        return self.folder / "companions" / "ci" / NAME

    def built(self) -> list[dict[str, Any]]:
        """The builds that companions.ci has recorded, each with how it ended."""
        file = self.ci_folder / "builds.jsonl"
        lines = file.read_text(encoding="utf-8").splitlines(keepends=True) if file.exists() else []
        return [json.loads(line) for line in lines if line.endswith("\n")]

    def marks(self) -> list[str]:
        return [f"GATED_CI={self.ci_folder}", *(f"GATED_WORKER={it}" for it in self.ci_folder.glob("lane-*"))]

    def runs_left(self) -> list[str]:
        """The names of runs that are in the repositories."""
        homes = dict.fromkeys(it.home for it in self.projects)
        return [f"{home} {name}" for home in homes
                for name in self.git(home, "for-each-ref", "--format=%(refname)", *RUNS).split()]

    def begin_forge(self) -> None:
        super().begin_forge()
        self.team.start()

    def end(self) -> None:
        self.team.over.set()
        super().end()
        if self.team.is_alive():
            self.team.join()
