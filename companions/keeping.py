"""Keeps a worker's build while its machine or its settings are at fault, and begins it again once they aren't.

Else workers of one machine, or with the same old settings, would lose a build once each, and the gate would throw its
change out.
"""
from __future__ import annotations

import json
import os
import sqlite3
import time
from collections.abc import Callable
from dataclasses import dataclass
from pathlib import Path
from typing import Any

from companions import job
from companions.building import Builder, Ran, tell_if_possible
from companions.faults import FAULTS, MACHINE, Fault, Looks, fault_of
from companions.gate import Gate
from companions.outbox import Notes
from companions.settings import Settings
from companions.trees import Build, Trees
from companions.wanted import Look, Reply, Unwanted

# Who fails one time after another rests longer each time, up to so many looks.
LONGEST_REST = 64


class Clock:
    """The machine's uptime, in seconds, by which a build is kept: nobody sets it. Tests hand in another one."""

    def now(self) -> float:
        return time.clock_gettime(time.CLOCK_BOOTTIME)

    def sleep(self, seconds: float) -> None:
        time.sleep(seconds)


@dataclass
class Held:
    """A build that a worker has, by its take and the gate's reply; since when it is kept, if it is, by the clock."""
    take: str
    reply: Reply
    since: float | None = None

    def noted(self, **more: Any) -> dict[str, Any]:
        return {"take": self.take, "reply": self.reply, "since": self.since, **more}


class Keeper:
    """Runs the builds of a worker, whose folder it keeps clean, and notes how they ended."""

    def __init__(self, known: Settings, folder: Path, notes: Notes, gate: Gate, trees: Trees, clock: Clock,
                 say: Callable[[str], None]) -> None:
        self.settings, self.folder, self.notes, self.gate, self.trees = known, folder, notes, gate, trees
        self.clock, self.say, self.mark = clock, say, f"GATED_WORKER={folder}"
        self.builder = Builder(known, folder, notes, trees, self.mark, say)
        self.looks = Looks(known, folder, trees)
        # What was at fault when a build was lost for it: nothing is taken before a look at it goes well.
        self.fault = Fault.read(notes.get("fault"))
        self.is_ready, self.said = False, ""

    def make_ready(self) -> None:
        """Removes what earlier builds left, once."""
        if self.is_ready:
            return
        self.stop_leftovers()
        for it in self.trees.begin():
            self.say(it)
        (self.folder / "logs").mkdir(exist_ok=True)
        self.is_ready = True

    def stop_leftovers(self) -> None:
        group = self.notes.get("group")
        if group is not None and job.began_at(group["number"]) == group["began"]:
            job.kill_group(group["number"])
        job.kill_marked(self.mark)
        self.notes.drop("group")

    def is_at_fault(self) -> bool:
        """Whether the last build was lost for a fault of the machine or the settings that isn't over."""
        if self.fault is None:
            return False
        said = self.looks.look(self.fault)
        if said is None:
            self.notes.drop("fault")
            self.fault = None
            self.say("takes builds again")
        elif said != self.said:
            self.say(f"takes nothing: {said}")
        self.said = said or ""
        return said is not None

    def run(self, held: Held, build: Build) -> Ran | None:
        """Runs a build to its end, which is noted; none if the gate doesn't want it any more.

        Where the machine or the settings are at fault the build is kept, and begun again once a look at what failed
        goes well. It is lost after `worker.patience` seconds of that.
        """
        try:
            return self.keep(held, build)
        except Unwanted:
            tell_if_possible(self.builder.log_of(held.take, build), "ended: not wanted any more")
            return None

    def keep(self, held: Held, build: Build) -> Ran:
        look, times = Look(self.gate, held.reply, self.settings.look), 0
        # It may have been told before the worker was stopped, and not be noted.
        look.check_now()
        while True:
            try:
                return self.once(held, build, look)
            except FAULTS as raised:
                fault = fault_of(raised, build, self.trees.projects.get(build.change, ""))
            times += 1
            if not self.is_over(fault, held, build, look, times):
                return self.lose(fault, held, build)
            self.say(f"build {build.number}: begins again")

    def once(self, held: Held, build: Build, look: Look) -> Ran:
        """Runs a build, and notes how it ended."""
        self.make_ready()
        self.notes.put("held", held.noted())
        ran = self.builder.run(build, held.take, look, lambda: self.notes.put("held", held.noted(began=True)))
        self.ended(held, build, ran)
        return ran

    def is_over(self, fault: Fault, held: Held, build: Build, look: Look, times: int) -> bool:
        """Waits until a look at what failed goes well, longer after each further time, and says whether it does while
        the worker has patience. `Unwanted` where the gate doesn't want the build meanwhile."""
        now = self.clock.now()
        # What was noted before a reboot may be later.
        held.since = now if held.since is None else min(held.since, now)
        self.say(f"build {build.number}: kept, since it can't be run here: {fault.said}")
        tell_if_possible(self.builder.log_of(held.take, build), f"can't be run here: {fault.said}")
        self.job_ended()
        self.is_ready = False
        self.note_if_possible("held", held.noted())
        end = held.since + self.settings.patience
        due = min(end, now + self.settings.look * min(2 ** (times - 1), LONGEST_REST))
        while (left := end - self.clock.now()) > 0:
            self.clock.sleep(min(self.settings.look, left))
            look.check_now()
            if self.clock.now() >= due and self.looks.look(fault) is None:
                return True
        return False

    def lose(self, fault: Fault, held: Held, build: Build) -> Ran:
        """Notes that a build is lost for a fault, before whose end nothing is taken."""
        self.fault, ran = fault, Ran("lost", fault.said)
        self.note_if_possible("fault", fault.noted())
        self.ended(held, build, ran)
        return ran

    def ended(self, held: Held, build: Build, ran: Ran) -> None:
        after = "" if ran.seconds is None else f", after {ran.seconds} s"
        tell_if_possible(self.builder.log_of(held.take, build), f"ended: {ran.outcome}, {ran.why}{after}")
        self.say(f"build {build.number}: {ran.outcome}, {ran.why}")
        self.note(held, ran)

    def job_ended(self) -> None:
        """Frees what a build took. It is no fault of the build if that fails: the next one begins anew."""
        try:
            for it in self.trees.remove():
                self.say(it)
        except OSError as fault:
            self.say(f"its trees can't be removed: {fault}")

    def note_if_possible(self, name: str, said: Any) -> None:
        """A note without which a worker that is stopped knows less, and nothing else differs."""
        try:
            self.notes.put(name, said)
        except sqlite3.Error as fault:
            self.say(f"can't note that: {fault}")

    def note(self, held: Held, ran: Ran) -> None:
        """Writes a build's record, then notes its outcome: what the gate will be told is in the records.

        A loss may be told without, so that a full disk doesn't keep the build from other workers.
        """
        made = ran.made
        record = {"take": held.take, **{it: held.reply[it] for it in ("build", "queue", "change", "revision", "job")},
                  "project": made.project if made else None, "outcome": ran.outcome, "commit": ran.commit,
                  "trees": made.trees if made else {}, "seconds": ran.seconds}
        try:
            with (self.folder / "builds.jsonl").open("a", encoding="utf-8") as records:
                records.write(json.dumps(record) + "\n")
                records.flush()
                os.fsync(records.fileno())
            self.notes.put("held", held.noted(outcome=ran.outcome, commit=ran.commit))
        except MACHINE as fault:
            if ran.outcome != "lost":
                raise
            self.say(f"the loss can't be noted: {fault}")
