"""Compares the settings of the gate, of its companions and of their workers: a name has to be the same in all."""
from __future__ import annotations

import os
import shutil
import subprocess
import tomllib
from collections.abc import Iterator
from dataclasses import dataclass
from pathlib import Path
from typing import Any

from companions.reader import SettingsFault
from companions.settings import Project, Settings, read

# The gate's program, which has the last word about its settings, where it is installed.
PROGRAM = Path("/usr/local/bin/gated")


@dataclass(frozen=True)
class GateFile:
    """What the companions have to know of the gate's settings: the prefix of changes, and of each project its queue and
    its jobs."""
    file: Path
    base: str
    queues: tuple[str, ...]
    projects: dict[str, tuple[str, tuple[str, ...]]]


@dataclass(frozen=True)
class Files:
    """The files that are compared: the gate's and the companions' if they are there, and those of workers. Of a trial
    the companions' file is the workers' too."""
    gate: GateFile | None
    companions: Settings | None
    workers: tuple[Settings, ...]

    @property
    def all(self) -> tuple[Settings, ...]:
        return (*((self.companions,) if self.companions else ()), *self.workers)


def is_of_gate(table: dict[str, Any]) -> bool:
    """Whether a file's table is the gate's settings: these have the table `forge`, and the companions' never do."""
    return "forge" in table or "queue" in table


def gate_file(file: Path, table: dict[str, Any]) -> GateFile:
    """The gate's settings; `SettingsFault` where they don't have their form."""
    program = str(PROGRAM) if os.access(PROGRAM, os.X_OK) else shutil.which("gated")
    if program is not None:
        ran = subprocess.run([program, "check", file], capture_output=True, text=True, check=False)
        if ran.returncode != 0:
            raise SettingsFault(f"{file}: {ran.stderr.strip() or ran.returncode}")
    try:
        projects = {it["name"]: (it["queue"], tuple(job["name"] for job in it.get("job", ())))
                    for it in table["project"]}
        return GateFile(file, table["forge"]["base"], tuple(it["name"] for it in table["queue"]), projects)
    except (KeyError, TypeError, AttributeError) as fault:
        raise SettingsFault(f"{file}: isn't what the gate's settings are: {fault!r}: see 'gated check'") from fault


def read_files(names: list[str]) -> tuple[Files, list[str]]:
    """The files by these names, and what is wrong with those that can't be read. The first of the companions' is the
    one of lander, adapter and watch."""
    gate: GateFile | None = None
    others: list[Settings] = []
    faults: list[str] = []
    for name in names:
        file = Path(name)
        try:
            table = tomllib.loads(file.read_text(encoding="utf-8"))
            if is_of_gate(table):
                gate = gate_file(file, table)
            else:
                others.append(read(file))
        except SettingsFault as fault:
            faults.append(str(fault))
        except (OSError, ValueError) as fault:
            faults.append(f"{file}: can't be read: {fault}")
    return Files(gate, others[0] if others else None, tuple(others[1:])), faults


def compare(files: Files) -> Iterator[str]:
    """What differs, and what lacks on which side."""
    if files.gate is not None:
        yield from of_adapter(files.gate, files.companions)
        for settings in files.all:
            yield from of_gate(files.gate, settings)
            yield from of_jobs(files.gate, settings, settings is not files.companions or not files.workers)
    if files.companions is not None:
        for settings in files.workers:
            yield from of_workers(files.companions, settings)


def of_adapter(gate: GateFile, companions: Settings | None) -> Iterator[str]:
    adapter = companions.adapter if companions else None
    if companions is not None and adapter is not None and adapter.base != gate.base:
        yield (f"{companions.file}: adapter.base is {adapter.base}, and forge.base of {gate.file} is {gate.base}: make"
               " them the same")


def of_gate(gate: GateFile, settings: Settings) -> Iterator[str]:
    """The projects of the gate and of a companions' file."""
    for name, (queue, _) in gate.projects.items():
        mine = settings.projects.get(name)
        if mine is None:
            yield f"{settings.file} has no project {name}: add its [[project]] with the queue {queue}"
        elif mine.queue != queue:
            yield (f"{settings.file}: project {name} has the queue {mine.queue}, and in {gate.file} {queue}: write"
                   f" {queue}, since the gate's never changes")
    for name in settings.projects:
        if name not in gate.projects:
            yield (f"{gate.file} has no project {name}, which {settings.file} has: add it there, or correct the name"
                   " here")


def of_jobs(gate: GateFile, settings: Settings, runs: bool) -> Iterator[str]:
    """The jobs of the gate and of a file, by which workers run them or the watch times them."""
    why = "no worker runs it" if runs else "the watch doesn't time its builds"
    for name, (_, jobs) in gate.projects.items():
        mine: Project | None = settings.projects.get(name)
        if mine is None:
            continue
        for job in jobs:
            if job not in mine.jobs:
                yield f"{settings.file}: project {name} has no job {job}, so {why}: add its [[project.job]]"
        for job in mine.jobs:
            if job not in jobs:
                yield (f"{gate.file}: project {name} has no job {job}, which {settings.file} has, so it is never built:"
                       " add it there, or take it away here")


def of_workers(companions: Settings, workers: Settings) -> Iterator[str]:
    """What workers have to have as lander and watch have it."""
    if workers.author != companions.author:
        yield (f"{workers.file}: lander.author is {workers.author}, and in {companions.file} {companions.author}: make"
               " them the same, or the workers take nothing")
    for name, project in workers.projects.items():
        other = companions.projects.get(name)
        if other is None:
            continue
        if project.branch != other.branch:
            yield (f"{workers.file}: project {name} has the branch {project.branch}, and in {companions.file}"
                   f" {other.branch}: make them the same")
        for job, mine in project.jobs.items():
            its = other.jobs.get(job)
            if its is not None and mine.limit > its.limit + companions.grace:
                yield (f"{workers.file}: job {job} of project {name} may take {mine.limit:g} seconds, and by"
                       f" {companions.file} the watch reports it lost after {its.limit + companions.grace:g}: make the"
                       " limits the same")
