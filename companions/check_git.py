"""Looks whether the companions reach their repositories: lander and adapter to push, workers to read. Pushes are tried
dry: git asks for the right, and sends nothing. What the server's hooks and rules say shows only a real one. Of a folder
it is looked who may write there."""
from __future__ import annotations

import os
import pwd
import subprocess
import tempfile
from collections.abc import Iterator
from pathlib import Path
from typing import Any

from companions.check_files import Files
from companions.repository import GitFault, untested
from companions.settings import Project, Settings

# Refs that adapter and lander push, at places that nobody has.
REFS = ("refs/changes/0/0", "refs/landings/check/0")
# The users that run lander and adapter, and workers, where they are installed as services.
OWN, WORKERS = "gated-companions", "gated-worker"
SECONDS = 60
# What would lead git to another repository.
ELSEWHERE = ("GIT_DIR", "GIT_WORK_TREE", "GIT_INDEX_FILE", "GIT_OBJECT_DIRECTORY", "GIT_COMMON_DIR", "GIT_NAMESPACE",
             "GIT_ALTERNATE_OBJECT_DIRECTORIES")


class Git:
    """git as one user of the machine, in a folder with one empty commit."""

    def __init__(self, folder: Path, user: str | None) -> None:
        self.folder, self.user = folder, user
        self.environment = {it: value for it, value in os.environ.items() if it not in ELSEWHERE}
        self.environment |= {"GIT_TERMINAL_PROMPT": "0", "LC_ALL": "C"}
        self.environment |= {f"GIT_{who}_{it}": "check" for who in ("AUTHOR", "COMMITTER") for it in ("NAME", "EMAIL")}
        self.environment.setdefault("GIT_SSH_COMMAND", "ssh -o BatchMode=yes")
        if user is not None:
            self.environment["HOME"] = pwd.getpwnam(user).pw_dir

    def run(self, *words: str) -> tuple[int, str, str]:
        return self.run_any("git", *words)

    def run_any(self, *words: str) -> tuple[int, str, str]:
        """The status of a command of this user, what it prints, and its complaint."""
        more: dict[str, Any] = {}
        if self.user is not None:
            group = pwd.getpwnam(self.user).pw_gid
            more = {"user": self.user, "group": group, "extra_groups": os.getgrouplist(self.user, group)}
        try:
            ran = subprocess.run(words, cwd=self.folder, env=self.environment, stdin=subprocess.DEVNULL,
                                 capture_output=True, text=True, errors="replace", timeout=SECONDS, check=False, **more)
        except subprocess.TimeoutExpired:
            return 124, "", f"no answer within {SECONDS} seconds"
        except OSError as fault:
            return 127, "", str(fault)
        return ran.returncode, ran.stdout, " ".join(ran.stderr.split())[-300:]

    def refused(self, address: str, commit: str) -> str | None:
        """Why nothing can be pushed to a repository; none where it can."""
        folder = next((it for it in (Path(address) / ".git", Path(address)) if it.is_dir()), None)
        if folder is not None:
            status = self.run_any("test", "-w", str(folder / "objects"), "-a", "-w", str(folder / "refs"))[0]
            return None if status == 0 else f"{folder} can't be written"
        status, _, said = self.run("push", "--dry-run", "--", address, *(f"{commit}:{it}" for it in REFS))
        return None if status == 0 else said

    def commit(self) -> str:
        self.run("init", "--quiet")
        tree = self.run("hash-object", "-t", "tree", "-w", "/dev/null")[1].strip()
        return self.run("commit-tree", tree, "-m", "check")[1].strip()


def user_of(name: str) -> str | None:
    """The service's user, where this is root on a machine that has it."""
    try:
        pwd.getpwnam(name)
    except KeyError:
        return None
    return name if os.geteuid() == 0 else None


def look(files: Files, own: str | None = None, workers: str | None = None) -> Iterator[str]:
    """What lacks, by git as these users of the machine, or as who runs this."""
    try:
        told = untested()
    except (GitFault, OSError) as fault:
        told = str(fault)
    if told is not None:
        yield told
    for settings in files.all:
        user = own if settings is files.companions else workers
        with tempfile.TemporaryDirectory() as folder:
            if user is not None:
                os.chown(folder, pwd.getpwnam(user).pw_uid, -1)
            git = Git(Path(folder), user)
            commit = git.commit()
            for project in settings.projects.values():
                yield from of_project(git, settings, project, commit, settings is files.companions)
                if settings is not files.companions and user is not None and user != own:
                    yield from may_push(git, settings, project, commit)


def of_project(git: Git, settings: Settings, project: Project, commit: str, pushes: bool) -> Iterator[str]:
    where = f"{settings.file}: project {project.name}: {project.repository}"
    who = f" by the user {git.user}" if git.user else ""
    status, listed, said = git.run("ls-remote", "--", project.repository, f"refs/heads/{project.branch}")
    if status != 0:
        yield f"{where} can't be read{who}: {said}"
        return
    if not listed.strip():
        yield f"{where} has no branch {project.branch}: make it, or correct project.branch"
    if pushes:
        why = git.refused(project.repository, commit)
        if why is not None:
            yield f"{where} can't be pushed to{who}: {why}: give the gate's account the right to write"


def may_push(git: Git, settings: Settings, project: Project, commit: str) -> Iterator[str]:
    if git.refused(project.repository, commit) is None:
        yield (f"{settings.file}: project {project.name}: {project.repository} can be pushed to by the user {git.user},"
               " which runs jobs: give it a key that only reads")
