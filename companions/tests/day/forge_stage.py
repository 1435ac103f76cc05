"""The stage of a day with a forge: the companion adapter before a stand-in forge, which runs in the day's own process.

The forge's state is its model, and the repositories are bare ones: whoever pushes a request's head tells the model.
"""
from __future__ import annotations

import subprocess
from collections.abc import Callable
from dataclasses import replace
from pathlib import Path

from companions import compared
from companions.comparisons import UNSEEN
from companions.moments import Moment
from companions.tests.day import layout
from companions.tests.day.adapter_file import AdapterFile
from companions.tests.day.layout import APP, LIB, SITE, Project
from companions.tests.day.parts import wait_for
from companions.tests.day.stage import Stage, free_port
from companions.tests.day.troubles import Trouble
from companions.tests.forges import StandInForge

# Who may write to the repositories, and somebody who may not and votes nevertheless.
WRITERS, GUEST = ("ann", "ben"), "guest"
# By whom the forge shows merged what the lander has landed, and what was merged past it.
LANDER, PAST = "lander", "ann"

# A second gated branch of a repository, in another queue. The first one and `site` squash what lands, and the others
# merge it: changes of either kind need some of the other.
OLD = Project("old", "web", LIB.jobs, LIB.files, "old", "lib")
UPDATE = """#!/bin/sh
# A branch moves by the lander alone, and revisions are named by the adapter.
case $FORGE_ACCOUNT:$1 in
lander:refs/heads/* | lander:refs/landings/* | adapter:refs/changes/*) ;;
developer:refs/pull/* | developer:refs/merge-requests/*) ;;
*) echo "$FORGE_ACCOUNT may not push $1"; exit 1 ;;
esac
"""


class ForgeStage(Stage):
    """All that runs in a day with a forge of a form."""
    first_projects = (replace(LIB, land="squash"), APP, replace(SITE, land="squash"), OLD)

    def __init__(self, folder: Path, form: str, turned: str | None = None) -> None:
        super().__init__(folder, turned)
        self.hook_port = free_port()
        self.forge = StandInForge(form, f"http://127.0.0.1:{self.hook_port}/hook")
        self.model, self.client = self.forge.model, self.forge.client()
        # Some things happen within one second, which is as fine as the times of GitHub and Gitea are.
        self.model.pace /= 4
        self.adapter_file = AdapterFile(folder / "companions" / "adapter" / "adapter.db")
        self.merges = Merges(self)
        # When all was to be sent.
        self.since = Moment.now()

    def make(self) -> None:
        """Makes all files. The first request of lib was merged before there was a gate."""
        self.forge.server.start()
        super().make()
        head = self.git("lib", "rev-parse", "base")
        self.git("lib", "update-ref", self.client.head_ref(1), head)
        self.model.merge(self.model.open(self.name("lib"), head, "main", "Begin"), PAST)

    def add_project(self, project: Project) -> None:
        self.model.add(self.name(project.home), *WRITERS)
        super().add_project(project)

    def name(self, home: str) -> str:
        """The name that a repository has at the forge."""
        return f"acme/{home}"

    def hooks(self) -> dict[str, str]:
        return {"update": UPDATE}

    def companions(self) -> dict[str, tuple[str, str]]:
        return {"companions.toml": ("ssh://lander@forge", ""), "adapter.toml": ("ssh://adapter@forge", self.table())}

    def table(self) -> str:
        """The adapter's own settings. It looks often: hooks are lost, and a day is short."""
        it, pace = self.forge, layout.pace()
        return (f'[adapter]\nform = "{it.kind}"\nurl = "{it.url}"\nweb = "{it.form.web}"\ntoken = "{it.token}"\n'
                f'secret = "{it.secret}"\nbase = "https://forge/c/"\nlisten = "127.0.0.1:{self.hook_port}"\n'
                f'compare = {15 * pace}\nlook = {2.5 * pace}\nquiet = {5 * pace}\n')

    def modules(self) -> dict[str, list[str]]:
        return {**super().modules(), "adapter": ["adapter", str(self.folder / "adapter.toml")]}

    def begin_forge(self) -> None:
        """From now on branches are looked at, as a forge does by itself."""
        wait_for("the adapter to know the gate's file", self.adapter_file.note_ids)
        self.merges.start()

    def send(self) -> None:
        """The adapter sends by itself: all is sent once it has compared all repositories from now on."""
        self.since = Moment.now()

    def has_sent(self) -> bool:
        """Whether the adapter has compared all requests since `send`, each of which it could look at, and the gate has
        answered all that it keeps."""
        left = compared.read(compared.file_in(self.folder / "companions"))
        began = [it.began for it in left.repositories.values()] if left is not None else [None]
        is_whole = all(it is not None and (it.since(self.since) or -1.0) > 0 for it in began)
        return (left is not None and is_whole and UNSEEN not in left.refuse.values()
                and not self.adapter_file.is_anything_kept())

    def tell_again(self) -> None:
        """The adapter sees by itself that the gate was restored."""

    def end(self) -> None:
        super().end()
        self.merges.over.set()
        self.forge.hooks.stop()
        self.forge.server.stop()


class Merges(Trouble):
    """Shows requests as merged once their branches contain their heads, as forges do."""

    def __init__(self, stage: ForgeStage) -> None:
        super().__init__()
        self.stage = stage
        self.heads: dict[str, str] = {}

    def go(self) -> None:
        while not self.over.wait(layout.pace()):
            self.look()

    def look(self) -> None:
        """Looks at each branch that has moved. Meanwhile nobody does anything at the forge."""
        for it in list(self.stage.projects):
            head = self.stage.git(it.name, "rev-parse", f"refs/heads/{it.branch}")
            if self.heads.get(it.name) != head:
                self.heads[it.name] = head
                landed = "\nGate-Change: " in self.stage.git(it.name, "log", "-1", "--format=%B", head)
                with self.stage.model.lock:
                    self.stage.model.see_branch(self.stage.name(it.home), it.branch, self.contains(it, head),
                                                LANDER if landed else PAST)

    def contains(self, project: Project, head: str) -> Callable[[str], bool]:
        """A question: whether a head of a branch contains a commit."""
        words = ["git", "-C", str(self.stage.folder / "repos" / f"{project.home}.git"), "merge-base", "--is-ancestor"]
        return lambda commit: subprocess.run([*words, commit, head], env=self.stage.environment, capture_output=True,
                                             check=False).returncode == 0
