#!/usr/bin/env python3
"""A small forge in Gitea's form, or in GitHub's, which does by lines what people do at one. Its API and its hooks are
the stand-in's of the companions' tests.

    forge.py REPOSITORIES HOOKS [FORM]

REPOSITORIES is the folder of the bare repositories, HOOKS the address to which hooks go, and FORM `gitea`, as without
it, or `github`. The account `buildbot`, of a CI, has the token `a token of buildbot`. The first line that is printed is
the address of the API. Each line of the input is a command, its words parted by tabs:

    open REPOSITORY BRANCH TITLE TEXT       push REPOSITORY NUMBER
    approve REPOSITORY NUMBER PERSON        reject REPOSITORY NUMBER PERSON
    dismiss REPOSITORY NUMBER PERSON        comment REPOSITORY NUMBER PERSON TEXT
    edit REPOSITORY NUMBER TEXT             retarget REPOSITORY NUMBER BRANCH
    close REPOSITORY NUMBER                 reopen REPOSITORY NUMBER
    release                                 show

A line break within a text is written as \\n. Before a command may stand what becomes of its hook: `twice`, `lost`,
`late` (it is sent at `release`), or `forged` (it is sent signed by somebody else, and nothing happens). Printed are how
hooks were answered, where not by 200, then what `show` shows, and then the line `done`.
"""
from __future__ import annotations

import subprocess
import sys
import threading
import time
from collections.abc import Iterator
from pathlib import Path

from companions.forges import Place
from companions.tests.forges import StandInForge
from companions.tests.forges.model import GATE

# The seconds between two looks at the branches.
PAUSE = 0.5


class Forge:
    """The forge, and its repositories in a folder."""

    def __init__(self, forge: StandInForge, repositories: Path) -> None:
        self.forge, self.model, self.hooks, self.folder = forge, forge.model, forge.hooks, repositories
        self.lock = threading.Lock()
        self.heads: dict[str, str] = {}

    def git(self, repository: str, *words: str) -> subprocess.CompletedProcess[str]:
        return subprocess.run(["git", "-C", str(self.folder / f"{repository}.git"), *words], capture_output=True,
                              text=True, check=False)

    def has(self, repository: str, commit: str) -> bool:
        """Whether a repository has a commit, which may get statuses then."""
        return not self.git(repository, "cat-file", "-e", f"{commit}^{{commit}}").returncode

    def head(self, repository: str, number: int) -> str:
        return self.git(repository, "rev-parse", f"refs/pull/{number}/head").stdout.strip()

    def command(self, words: list[str]) -> list[str]:
        """Does what a line says, sends its hooks, and gives what is printed."""
        if words == ["show"]:
            return list(self.shown())
        manner = words.pop(0) if words[0] in ("twice", "lost", "late", "forged") else ""
        with self.lock:
            # Who writes a comment by the API has to wait meanwhile: its hook isn't this command's.
            with self.model.lock:
                self.do(manner, words)
            already = len(self.hooks.sent)
            self.hooks.send_all()
            return list(dict.fromkeys(str(status or "nobody") for _, status in self.hooks.sent[already:]
                                      if status != 200))

    def do(self, manner: str, words: list[str]) -> None:
        if manner == "forged":
            self.hooks.add(self.forge.form.hook(words[0], self.model.pulls[Place(words[1], int(words[2]))], None))
            self.hooks.forge()
            self.hooks.drop(-2)
            return
        self.act(*words)
        {"twice": self.hooks.double, "lost": self.hooks.drop, "late": self.hooks.hold}.get(manner, lambda: None)()

    def act(self, name: str, repository: str = "", *words: str) -> None:
        model = self.model
        if name == "release":
            return self.hooks.release()
        if name == "open":
            branch, title, text = words
            number = 1 + len(model.of(repository))
            model.open(repository, self.head(repository, number), branch, title, text)
            return None
        place, more = Place(repository, int(words[0])), words[1:]
        if name == "push":
            return model.push(place, self.head(repository, place.number))
        if name == "edit":
            return model.edit(place, text=more[0])
        acts = {"approve": model.approve, "reject": model.reject, "dismiss": model.dismiss, "comment": model.comment,
                "retarget": model.retarget, "close": model.close, "reopen": model.reopen}
        acts[name](place, *more)
        return None

    def shown(self) -> Iterator[str]:
        """Each request with its last status and what the gate wrote on it, without the line that nobody sees."""
        for place in sorted(self.model.pulls, key=lambda it: (it.repository, it.number)):
            pull = self.model.pulls[place]
            status = self.model.status(place.repository, pull.head)
            yield f"{place.repository} {place.number}, {pull.state}: {pull.title}"
            yield f"  {status.state}: {status.text}" if status else "  no status"
            comments = [it.text.splitlines()[:-2] for it in self.model.comments(place, GATE)]
            # Commits have other hashes each time.
            yield from (f"    {line}".rstrip().replace(pull.head, "COMMIT") for lines in comments for line in lines)
            yield ""

    def watch(self) -> None:
        """Requests whose commits a branch has by now are shown as merged; hooks of what the gate wrote are sent."""
        while True:
            for repository in list(self.model.writers):
                head = self.git(repository, "rev-parse", "main").stdout.strip()
                if self.heads.get(repository, head) != head:
                    with self.lock:
                        self.model.see_branch(repository, "main", lambda it: not self.git(
                            repository, "merge-base", "--is-ancestor", it, "main").returncode, GATE)
                self.heads[repository] = head
            with self.lock:
                self.hooks.send_all()
            time.sleep(PAUSE)


def main() -> None:
    folder, hooks = Path(sys.argv[1]), sys.argv[2]
    with StandInForge(sys.argv[3] if len(sys.argv) > 3 else "gitea", hooks) as stand_in:
        stand_in.form.tokens["a token of buildbot"] = "buildbot"
        for it in sorted(folder.glob("*/*.git")):
            stand_in.model.add(str(it.relative_to(folder)).removesuffix(".git"), "ann", "cy")
        forge = Forge(stand_in, folder)
        stand_in.model.has = forge.has  # type: ignore[method-assign]
        threading.Thread(target=forge.watch, daemon=True).start()
        print(stand_in.url, flush=True)
        for line in sys.stdin:
            for said in [*forge.command(line.rstrip("\n").replace("\\n", "\n").split("\t")), "done"]:
                print(said, flush=True)


if __name__ == "__main__":
    main()
