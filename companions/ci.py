"""A worker whose jobs are done elsewhere: it pushes what is to be tested as branches, and a CI's statuses are the ends.

    python3 -m companions.ci companions.toml NAME

One of it runs for a gate. It takes many builds at once, and runs those whose job is a command as a worker does. It may
be killed anywhere and started again: takes, builds and runs are on disk before anything is sent or pushed.
docs/CONNECTING.md ("With the CI that you have") has what a CI needs.
"""
from __future__ import annotations

import json
import os
import signal
import sqlite3
import sys
import threading
import uuid
from concurrent.futures import Future, ThreadPoolExecutor
from pathlib import Path
from typing import NoReturn

from companions import sandbox, settings
from companions.beating import Beating
from companions.ci_hooks import serve_hooks
from companions.ci_queue import CiQueue, Taken
from companions.command_line import CommandLine
from companions.faults import MACHINE, OtherSettings
from companions.gate import Answer, Gate, expected, say
from companions.lanes import Lane
from companions.links import Links
from companions.outbox import Notes
from companions.reader import SettingsFault
from companions.repository import GitFault, untested
from companions.runs import Run
from companions.settings import Settings
from companions.starting import alone
from companions.statuses import statuses_of
from companions.trees import Trees
from companions.wanted import Reply
from companions.worker import IDLE


class Ci:
    """Takes builds, and hands each to its queue's runs or to a lane of commands."""

    def __init__(self, known: Settings, name: str) -> None:
        self.settings, self.name, self.part = known, name, f"ci {name}"
        self.folder = (known.folder / "ci" / name).resolve()
        self.notes = Notes(self.folder / "notes.db")
        self.gate = Gate(known.url, known.account("worker"), part=self.part)
        self.trees = Trees(known, self.folder, self.notes, f"GATED_CI={self.folder}", self.project_of)
        self.statuses, self.links = statuses_of(known.ci, self.notes), Links(known.folder)
        self.lock, self.beating = threading.Lock(), Beating(known, name)
        self.queues = {it: self.queue(it) for it in dict.fromkeys(it.queue for it in known.projects.values())}
        # One is there also without commands: it keeps builds that the settings don't know.
        count = known.ci.commands if has_commands(known) else 1
        self.lanes = [Lane(known, name, number, self.beating) for number in range(count)]
        self.pool = ThreadPoolExecutor(max_workers=len(self.queues))
        self.at_work: dict[str, Future[None]] = {}
        self.came = threading.Event()
        # Builds that wait for a lane, and what takes of a restored gate mean by now.
        self.waiting: list[tuple[str, Reply]] = []

    def queue(self, queue: str) -> CiQueue:
        return CiQueue(queue, self.name, self.settings, self.gate, self.notes, self.trees, self.statuses, self.links,
                       self.beating, self.say, self.record, self.route_later)

    def say(self, what: str) -> None:
        say(self.part, what)

    def project_of(self, change: int) -> str | None:
        """The project of a change, by the gate."""
        said = self.gate.change(change)
        with expected(f"/changes/{change}"):
            return None if said is None else str(said["project"])

    def begin(self) -> None:
        """Goes on with what an earlier run has left."""
        for line in self.trees.begin():
            self.say(line)
        for lane in self.lanes:
            # By the settings of now it may be a CI's.
            if lane.waits is not None:
                take, reply = lane.waits
                self.notes.put(f"build {take}", vars(Taken(take, reply, "")))
                lane.give_back()
        of_lanes = {lane.held for lane in self.lanes}
        for name, noted in self.notes.all("build ").items():
            it = Taken(**noted)
            if it.take in of_lanes:
                self.notes.drop(name)
            elif self.is_of_ci(it):
                self.queues[it.reply["queue"]].add(it)
            else:
                self.waiting.append((it.take, it.reply))
        take = self.notes.get("take")
        if take is not None and (take in of_lanes or self.notes.get(f"build {take}") is not None):
            self.notes.drop("take")
        for lane in self.lanes:
            lane.begin()

    def is_of_ci(self, it: Taken) -> bool:
        """Whether a CI runs a build's job, by the settings."""
        project = self.settings.projects.get(it.project)
        job = project.jobs.get(it.reply["job"]) if project is not None and project.queue == it.reply["queue"] else None
        return job is not None and bool(job.status)

    def run(self) -> NoReturn:
        """Works for ever. `OtherSettings` where the settings have to be read again."""
        self.begin()
        self.beating.start()
        said = ""
        while True:
            try:
                self.turn()
            except MACHINE as fault:
                if str(fault) != said:
                    self.say(f"the machine fails: {fault}")
                said = str(fault)
            self.came.wait(self.settings.pause)
            self.came.clear()

    def turn(self) -> None:
        """Gives each queue its turn, hands out what waits, and takes what there is room for."""
        for name, queue in self.queues.items():
            running = self.at_work.get(name)
            if running is None or running.done():
                self.at_work[name] = self.pool.submit(queue.turn)
        if self.has_other_settings():
            if all(it.is_free or it.is_other for it in self.lanes):
                raise OtherSettings
            return
        self.route_waiting()
        while self.has_room() and self.take():
            self.route_waiting()

    def has_other_settings(self) -> bool:
        """Whether the settings have to be read again: a lane needs what these lack, or a build is held and the file has
        others by now."""
        if any(it.is_other for it in self.lanes):
            return True
        held = any(it.is_held for queue in self.queues.values() for it in list(queue.builds.values()))
        if not held:
            return False
        try:
            return settings.read(self.settings.file) != self.settings
        except SettingsFault:
            return False

    def has_room(self) -> bool:
        """Whether one more build may be taken, whichever job it is of."""
        count = sum(it.counted() for it in self.queues.values())
        return count < self.settings.ci.parallel and not self.waiting and any(it.is_free for it in self.lanes)

    def take(self) -> bool:
        """Asks for a build once, and says whether there was one. A refusal spends no id."""
        take = self.notes.get("take")
        if take is None:
            take = str(uuid.uuid4())
            self.notes.put("take", take)
        answer: Answer = self.gate.until(lambda: self.gate.post("worker", {
            "id": take, "kind": "take", "worker": self.name}), self.settings.pause)
        if answer.reply == "build":
            self.waiting.append((take, answer.said))
            return True
        if answer.code != IDLE:
            self.say(f"its take was refused: {answer.said}")
            self.notes.drop("take")
        return False

    def route_later(self, take: str, reply: Reply) -> None:
        """A take means another build by now. It is noted first."""
        with self.lock:
            self.notes.put(f"build {take}", vars(Taken(take, reply, "")))
            self.waiting.append((take, reply))
        self.came.set()

    def route_waiting(self) -> None:
        """Hands out builds: to their queues what a CI runs, all others to lanes. Those that find none wait."""
        with self.lock:
            waiting, self.waiting = self.waiting, []
        left = [(take, reply) for take, reply in waiting if not self.route(take, reply)]
        with self.lock:
            self.waiting = left + self.waiting

    def route(self, take: str, reply: Reply) -> bool:
        project = self.gate.until(lambda: self.project_of(reply["change"]), self.settings.pause) or ""
        it = Taken(take, reply, project)
        self.notes.put(f"build {take}", vars(it))
        if self.notes.get("take") == take:
            self.notes.drop("take")
        if self.is_of_ci(it):
            self.say(f"{it.build}")
            self.queues[reply["queue"]].add(it)
            return True
        lane = next((it for it in self.lanes if it.is_free), None)
        if lane is None:
            return False
        lane.give(take, reply)
        self.notes.drop(f"build {take}")
        return True

    def record(self, it: Taken, run: Run | None) -> None:
        """Writes a build's record, before the gate is told."""
        record = {"take": it.take, **{name: it.reply[name] for name in ("build", "queue", "change", "revision", "job")},
                  "project": it.project, "outcome": it.outcome, "why": it.why, "link": it.link,
                  "commit": run.commit if run is not None else None, "run": run.short if run is not None else None}
        with self.lock, (self.folder / "builds.jsonl").open("a", encoding="utf-8") as records:
            records.write(json.dumps(record) + "\n")
            records.flush()
            os.fsync(records.fileno())

    def look_at(self, commit: str) -> None:
        """A hook says that there is news of a commit."""
        for queue in self.queues.values():
            queue.look_at(commit)
        self.came.set()

    def end(self) -> None:
        """Kills the commands that run, and waits for the queues' turns."""
        self.beating.end()
        for lane in self.lanes:
            lane.kill()
        self.pool.shutdown(cancel_futures=True)


def refused(known: Settings) -> str | None:
    """Why it can't run by these settings, if it can't."""
    if not known.ci.has_forge:
        return "the settings name no forge: give form, url and token in [ci], or set up [adapter]"
    if not known.of_ci():
        return "no job of the settings has a status: run workers"
    return sandbox.refused() if has_commands(known) and known.sandbox else None


def has_commands(known: Settings) -> bool:
    return any(not job.status for it in known.projects.values() for job in it.jobs.values())


def work(file: Path, name: str) -> int:
    """Works by a file's settings. The status of the process where it can't; `OtherSettings` where they are other ones
    by now."""
    known = settings.read(file)
    why = refused(known)
    if why is not None:
        say(f"ci {name}", f"stops: {why}")
        return 1
    hold = alone(known.folder / "ci")
    if hold is None:
        say(f"ci {name}", "stops: one runs already: there is one for a gate")
        return 1
    said = untested()
    if said is not None:
        say(f"ci {name}", said)
    signal.signal(signal.SIGTERM, lambda number, frame: sys.exit(128 + number))
    with hold:
        started = Ci(known, name)
        end_hooks = None
        try:
            end_hooks = serve_hooks(known, started.statuses.forge, started.look_at, started.part, started.folder)
            if has_commands(known):
                started.lanes[0].worker.say_of_sandbox()
            started.run()
        finally:
            if end_hooks is not None:
                end_hooks()
            started.end()


def main(argv: list[str]) -> int:
    line = CommandLine("ci", __doc__)
    line.add_settings()
    line.add_worker()
    return line.run(argv, lambda asked: begin(asked.settings, asked.name))


def begin(file: Path, name: str) -> int:
    while True:
        try:
            return work(file, name)
        except OtherSettings:
            say(f"ci {name}", "begins anew with the settings of now")
        except (SettingsFault, GitFault, OSError, sqlite3.Error) as fault:
            print(f"ci {name}: {fault}", file=sys.stderr)
            return 1
        except KeyboardInterrupt:
            return 130


if __name__ == "__main__":
    sys.exit(main(sys.argv[1:]))
