"""What is at fault with a worker's machine or its settings, and the looks that tell when that is over.

None of it is a build's fault: its worker keeps the build meanwhile.
"""
from __future__ import annotations

import os
import shutil
import sqlite3
import subprocess
import tempfile
from collections.abc import Callable
from dataclasses import asdict, dataclass
from pathlib import Path
from typing import Any

from companions import settings
from companions.job import NoSandbox
from companions.reader import SettingsFault
from companions.repository import GitFault
from companions.room import Room
from companions.sandbox import ENVIRONMENT, Sandbox, tried
from companions.settings import Settings
from companions.trees import Build, Trees, Unreadable, Unset

# What a machine may do to a build, and what may be wrong with the settings.
MACHINE = (OSError, sqlite3.Error, GitFault)
FAULTS = (*MACHINE, Unset)

DISK, TOOL, REPOSITORY, SANDBOX, SETTINGS = "disk", "tool", "repository", "sandbox", "settings"
# The programs that a worker calls.
TOOLS = ("git", "git-lfs", "bwrap", "sh", "rm", "chmod", "du")
# What git says where a disk is at fault, whatever it was about.
OF_A_DISK = ("No space left on device", "Disk quota exceeded", "Read-only file system", "Input/output error")
# The bytes that are written to see whether a disk takes any.
TRIAL = 65536


class OtherSettings(Exception):
    """The settings file has what the settings lack that the worker began with: it has to begin anew."""


@dataclass(frozen=True)
class Fault:
    """What failed: its kind, what it was about, as a look at it needs that, and what to say of it.

    Whatever has no look of its own counts as one of the disk.
    """
    kind: str
    about: tuple[str, ...]
    said: str

    def noted(self) -> dict[str, Any]:
        return asdict(self)

    @staticmethod
    def read(noted: dict[str, Any] | None) -> Fault | None:
        """A fault that was noted, or none."""
        return None if noted is None else Fault(noted["kind"], tuple(noted["about"]), noted["said"])


def fault_of(raised: Exception, build: Build, project: str) -> Fault:
    """The fault that was raised while a build of a project's change was run."""
    said = " ".join(str(raised).split())
    if isinstance(raised, Unset):
        return Fault(SETTINGS, raised.lacking, said)
    if isinstance(raised, NoSandbox):
        return Fault(SANDBOX, (project, build.job), said)
    if isinstance(raised, OSError) and raised.filename in TOOLS:
        return Fault(TOOL, (str(raised.filename),), said)
    if isinstance(raised, Unreadable) and not any(it in said for it in OF_A_DISK):
        return Fault(REPOSITORY, (raised.project,), said)
    return Fault(DISK, (), said)


class Looks:
    """Looks at what failed, with the settings and the trees of a worker."""

    def __init__(self, known: Settings, folder: Path, trees: Trees) -> None:
        self.known, self.folder, self.trees = known, folder, trees

    def look(self, fault: Fault) -> str | None:
        """What is still wrong, or none where it is over. `OtherSettings` where the worker has to read its settings
        again for that."""
        looks: dict[str, Callable[..., str | None]] = {
            DISK: self.disk, TOOL: self.tool, REPOSITORY: self.repository, SANDBOX: self.sandbox,
            SETTINGS: self.settings}
        return looks[fault.kind](*fault.about)

    def disk(self) -> str | None:
        """A disk has to have `worker.free`, and to take what is written."""
        if Room(self.folder, self.known.free, self.known.space).is_low():
            return f"less than worker.free is left on the disk of {self.folder}"
        for folder in (self.folder, self.known.logs or self.folder):
            try:
                with tempfile.TemporaryFile(dir=folder) as trial:
                    trial.write(bytes(TRIAL))
                    trial.flush()
                    os.fsync(trial.fileno())
            except OSError as fault:
                return f"{folder} can't be written: {fault}"
        return None

    def tool(self, name: str) -> str | None:
        path = ENVIRONMENT["PATH"] if name == "bwrap" else None
        return None if shutil.which(name, path=path) is not None else f"{name} isn't installed"

    def repository(self, name: str) -> str | None:
        project = self.known.projects.get(name)
        if project is None:
            return None
        try:
            self.trees.repositories[name].ask(f"refs/heads/{project.branch}")
        except (GitFault, OSError) as fault:
            return " ".join(str(fault).split())
        return None

    def sandbox(self, name: str, job: str) -> str | None:
        """Tries the sandbox that a job has, or has to have by now."""
        project = self.known.projects.get(name)
        known = project.jobs.get(job) if project is not None else None
        if known is None or not self.known.sandbox:
            return None
        box = Sandbox(self.known.folder.resolve(), self.known.file, self.folder, self.folder,
                      self.trees.objects([name]), known.read, known.write, known.network)
        try:
            said = tried(box, self.folder)
        except (OSError, subprocess.TimeoutExpired) as fault:
            said = str(fault)
        return None if said is None else f"its sandbox doesn't begin: {said}"

    def settings(self, queue: str, project: str, job: str) -> str | None:
        before = self.known.lacking(queue, project, job)
        if before is None:
            return None
        try:
            lacking = settings.read(self.known.file).lacking(queue, project, job)
        except SettingsFault as fault:
            return str(fault)
        if lacking != before:
            raise OtherSettings
        return lacking
