"""The commands that `companions.ci` runs beside the jobs of a CI: each lane runs one build at a time, as a worker does.

A take can't choose a job, so whoever takes for a CI has to run what is a command too.
"""
from __future__ import annotations

import threading
from collections.abc import Callable

from companions import job
from companions.beating import Beating
from companions.faults import MACHINE, OtherSettings
from companions.keeping import Held
from companions.settings import Settings
from companions.wanted import Reply
from companions.worker import Worker


class Lane:
    """A worker in a folder of its own that is given its builds, and has the beats of the program that gives them.
    `is_other`: its settings have to be read again."""

    def __init__(self, known: Settings, name: str, number: int, beating: Beating) -> None:
        self.worker = Worker(known, name, folder=known.folder / "ci" / name / f"lane-{number}", part=f"ci {name}")
        self.worker.beating = beating
        self.thread: threading.Thread | None = None
        self.is_other = False

    @property
    def is_free(self) -> bool:
        return (self.thread is None or not self.thread.is_alive()) and not self.is_other

    @property
    def waits(self) -> tuple[str, Reply] | None:
        """The build that an earlier run has left here, with its take, if its command hasn't begun."""
        held = self.worker.notes.get("held")
        is_waiting = held is not None and "outcome" not in held and not held.get("began")
        return (held["take"], held["reply"]) if is_waiting else None

    @property
    def held(self) -> str | None:
        """The take whose build it has."""
        held = self.worker.notes.get("held")
        return held["take"] if held else None

    def give_back(self) -> None:
        """Somebody else has what waits here."""
        self.worker.notes.drop("held")

    def begin(self) -> None:
        """Goes on with what an earlier run has left."""
        self.start(self.worker.begin)

    def give(self, take: str, reply: Reply) -> None:
        """Runs a build. It is noted here from now on."""
        held = Held(take, reply)
        self.worker.notes.put("held", held.noted())
        self.start(lambda: self.worker.carry_on(held))

    def start(self, task: Callable[[], None]) -> None:
        self.thread = threading.Thread(target=self.work, args=(task,), daemon=True)
        self.thread.start()

    def work(self, task: Callable[[], None]) -> None:
        """Does a task to its end. Where the machine fails the lane begins anew with what is noted."""
        while True:
            try:
                task()
                return
            except OtherSettings:
                self.is_other = True
                return
            except MACHINE as fault:
                self.worker.say(f"begins anew, since the machine failed: {fault}")
                self.worker.losses += 1
                self.worker.rest()
                task = self.worker.begin

    def kill(self) -> None:
        """Kills what it runs, as this program ends."""
        job.kill_marked(self.worker.mark)
