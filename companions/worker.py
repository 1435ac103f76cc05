"""A worker: it takes a build, runs it, and says how it ended, over and over.

    python3 -m companions.worker companions.toml NAME

It may be killed at any moment: the id of a take is on disk before it is sent, and what a job came to before it is told.
The gate may be away, and may have another file when it is back, under whose numbers other builds are meant. So the
worker sends its take again right before each result: a gate that gives the same reply means the same build. A success
is of the landing commit that was tested, by its id: for another build of the same number it says nothing.

Where its machine or its settings are at fault, a worker keeps its build, and begins it again once they aren't.
"""
from __future__ import annotations

import shutil
import signal
import sqlite3
import sys
import time
import uuid
from pathlib import Path
from typing import NoReturn

from companions import job, sandbox, settings
from companions.beating import Beating
from companions.building import Ran
from companions.command_line import CommandLine
from companions.faults import MACHINE, OtherSettings
from companions.gate import Answer, Delivery, Gate, expected, say
from companions.ids import id_of, success_id
from companions.keeping import LONGEST_REST, Clock, Held, Keeper
from companions.outbox import Notes
from companions.reader import SettingsFault
from companions.repository import GitFault, untested
from companions.room import shared
from companions.settings import Settings
from companions.starting import alone
from companions.trees import Build, Trees, build_of
from companions.wanted import Reply

IDLE = "E12"
# So often a worker looks whether the lander has its author, as a multiple of `worker.look`.
AUTHOR = 30


class Worker:
    """A worker with its name's folder, which has its notes, its mirrors, its trees and its logs. Another `folder` and
    `part` are those of the program that runs commands beside the jobs of a CI."""

    def __init__(self, known: Settings, name: str, clock: Clock | None = None, folder: Path | None = None,
                 part: str | None = None) -> None:
        self.settings, self.name, self.part = known, name, part or f"worker {name}"
        self.clock = clock or Clock()
        self.folder = (folder or known.folder / "worker" / name).resolve()
        self.mark = f"GATED_WORKER={self.folder}"
        self.notes = Notes(self.folder / "notes.db")
        self.gate = Gate(known.url, known.account("worker"), part=self.part)
        self.beating = Beating(known, name)
        self.trees = Trees(known, self.folder, self.notes, self.mark, self.project_of)
        self.keeper = Keeper(known, self.folder, self.notes, self.gate, self.trees, self.clock, self.say)
        self.losses = 0
        self.said, self.author_at = "", 0.0

    def say(self, what: str) -> None:
        say(self.part, what)

    def project_of(self, change: int) -> str | None:
        """The project of a change, by the gate."""
        said = self.gate.change(change)
        with expected(f"/changes/{change}"):
            return None if said is None else str(said["project"])

    def run(self) -> NoReturn:
        """Works for ever. `OtherSettings` where the settings have to be read again."""
        said = untested()
        if said is not None:
            self.say(said)
        self.say_of_sandbox()
        self.say_of_ci()
        self.beating.start()
        while True:
            try:
                self.begin()
                while True:
                    self.turn()
            except MACHINE as fault:
                self.say(f"begins anew, since the machine failed: {fault}")
                self.losses += 1
                self.rest()

    def say_of_sandbox(self) -> None:
        """Says what jobs may do here."""
        said = shared(self.folder)
        if said is not None:
            self.say(said)
        if not self.settings.sandbox:
            self.say("worker.sandbox is false: a job can read all that the worker reads, its password too, and change "
                     "what later builds are")
            return
        inside = [f"{project.name} {it.name}" for project in self.settings.projects.values()
                  for it in project.jobs.values() if not it.network and not it.status]
        if inside:
            self.say(f"jobs without a network (network = true gives them the machine's): {', '.join(inside)}")

    def say_of_ci(self) -> None:
        """Says why it asks for nothing, where a CI runs some of the jobs."""
        if self.settings.of_ci():
            self.say(f"takes nothing: a CI runs jobs of {', '.join(self.settings.of_ci())} (status), and the gate gives"
                     " any job to whoever asks first: run companions.ci for this gate, which runs the commands too")

    def is_for_ci(self) -> bool:
        """Whether a CI runs some of the jobs: who can't run each of them doesn't ask. `OtherSettings` once none is."""
        if not self.settings.of_ci():
            return False
        try:
            is_still = bool(settings.read(self.settings.file).of_ci())
        except SettingsFault:
            return True
        if not is_still:
            raise OtherSettings
        return True

    def begin(self) -> None:
        """Ends what an earlier run left, and goes on with its build: it is begun again where its job hadn't begun, and
        lost where it had, since nobody knows what became of a job that was cut off."""
        self.keeper.is_ready = False
        held = self.notes.get("held")
        if held is not None and "reply" in held and "outcome" not in held and not held.get("began"):
            self.carry_on(Held(held["take"], held["reply"], held.get("since")))
            return
        self.keeper.make_ready()
        if held is None or "reply" not in held:
            return
        kept = Held(held["take"], held["reply"])
        if "outcome" not in held:
            self.keeper.ended(kept, build_of(kept.reply), Ran("lost", "since the worker was stopped meanwhile"))
        result = held.get("outcome", "lost"), held.get("commit")
        again = self.report(kept.take, kept.reply, *result)
        if again is not None:
            self.carry_on(Held(kept.take, again))

    def turn(self) -> None:
        """Asks for a build once, and carries it out if there is one.

        A refusal spends no id, so one id does until there is a build.
        """
        held = self.notes.get("held")
        if held is None and (self.is_for_ci() or self.keeper.is_at_fault() or self.has_other_author()):
            self.clock.sleep(max(self.settings.pause, self.settings.look))
            return
        if held is None:
            held = {"take": str(uuid.uuid4())}
            self.notes.put("held", held)
        take = held["take"]
        answer = self.gate.until(lambda: self.take(take), self.settings.pause)
        if answer.reply == "build":
            self.carry_on(Held(take, answer.said))
        elif answer.code == IDLE:
            self.clock.sleep(self.settings.pause)
        else:
            self.say(f"its take was refused: {answer.said}")
            self.notes.drop("held")
            self.clock.sleep(max(self.settings.pause, self.settings.look))

    def has_other_author(self) -> bool:
        """Whether the lander merges with another author: then nothing that is tested here could land."""
        if time.monotonic() < self.author_at:
            return False
        said = self.trees.other_author()
        if said is None:
            self.author_at = time.monotonic() + AUTHOR * self.settings.look
        elif said != self.said:
            self.say(f"takes nothing: {said}")
        self.said = said or ""
        return said is not None

    def take(self, take: str) -> Answer:
        return self.gate.post("worker", {"id": take, "kind": "take", "worker": self.name})

    def carry_on(self, held: Held) -> None:
        """Carries out a build, and whichever the gate means by the take afterwards."""
        while True:
            build = build_of(held.reply)
            self.say(str(build))
            try:
                with self.beating.having(held.take, build.number):
                    ran = self.keeper.run(held, build)
                    again = self.report(held.take, held.reply, ran.outcome, ran.commit) if ran is not None else None
                    if ran is None:
                        self.let_go(build)
            finally:
                self.keeper.job_ended()
            self.losses = self.losses + 1 if ran is not None and ran.outcome == "lost" else 0
            if self.losses:
                self.rest()
            if again is None:
                return
            held = Held(held.take, again)

    def let_go(self, build: Build) -> None:
        self.say(f"build {build.number}: not wanted any more")
        self.notes.drop("held")

    def report(self, take: str, reply: Reply, outcome: str, commit: str | None) -> Reply | None:
        """Tells how a build ended, unless the gate means another one by the take: then that is given."""
        told, answer = self.gate.until(lambda: self.exchange(take, reply, outcome, commit), self.settings.pause)
        if told:
            self.say(f"build {reply['build']}: {outcome} was told, and answered {answer.reply or answer.code}")
        else:
            self.say(f"build {reply['build']}: dropped, since the gate was restored without it")
        if not told and answer.reply == "build":
            return answer.said
        self.notes.drop("held")
        return None

    def exchange(self, take: str, reply: Reply, outcome: str, commit: str | None) -> tuple[bool, Answer]:
        """Sends the take again, and the result only if its reply is the same: whether it was sent, and the last answer.

        Both are sent again where one has no answer.
        """
        again = self.take(take)
        if again.said != reply:
            return False, again
        return True, self.gate.post("worker", result_of(take, reply, outcome, commit))

    def rest(self) -> None:
        """Rests after a loss, longer after each further one, so that others can take what this machine would lose."""
        self.clock.sleep(self.settings.look * min(2 ** (self.losses - 1), LONGEST_REST))


def result_of(take: str, reply: Reply, outcome: str, commit: str | None) -> Delivery:
    """The result of a build, under an id that stands for all that it says; a success's also for the commit."""
    number, change, revision = reply["build"], reply["change"], reply["revision"]
    if outcome == "success" and commit is not None:
        identity = success_id(number, reply["queue"], change, revision, reply["job"], commit)
    else:
        identity = id_of(take, "result", number, change, revision, outcome)
    return {"id": identity, "kind": "result", "build": number, "outcome": outcome}


def work(file: Path, name: str) -> int:
    """Works by a file's settings. The status of the process where it can't; `OtherSettings` where they are other ones
    by now."""
    known = settings.read(file)
    refused = sandbox.refused() if known.sandbox else None
    if refused is not None:
        say(f"worker {name}", f"stops: {refused}")
        return 1
    if "lfs" in known.filters and shutil.which("git-lfs") is None:
        say(f"worker {name}", "stops: git-lfs is missing: install it (apt-get install git-lfs), or leave lfs out of"
                              " worker.filters")
        return 1
    hold = alone(known.folder / "worker" / name)
    if hold is None:
        say(f"worker {name}", "stops: a worker of this name runs already")
        return 1
    signal.signal(signal.SIGTERM, lambda number, frame: sys.exit(128 + number))
    with hold:
        started = Worker(known, name)
        try:
            started.run()
        finally:
            started.beating.end()
            # A job that was just being started when a signal came.
            job.kill_marked(started.mark)


def main(argv: list[str]) -> int:
    line = CommandLine("worker", __doc__)
    line.add_settings()
    line.add_worker()
    return line.run(argv, lambda asked: begin(asked.settings, asked.name))


def begin(file: Path, name: str) -> int:
    while True:
        try:
            return work(file, name)
        except OtherSettings:
            say(f"worker {name}", "begins anew with the settings of now")
        except (SettingsFault, GitFault, OSError, sqlite3.Error) as fault:
            print(f"worker {name}: {fault}", file=sys.stderr)
            return 1
        except KeyboardInterrupt:
            return 130


if __name__ == "__main__":
    sys.exit(main(sys.argv[1:]))
