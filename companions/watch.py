"""The clock that a gate doesn't have: reports builds that nobody works at any more, and writes figures.

    python3 -m companions.watch companions.toml

A build whose worker is gone runs until somebody reports it lost, and its change waits until then. So a gate isn't run
without a watch.
"""
from __future__ import annotations

import sys
import time
from collections import Counter
from collections.abc import Callable, Iterator
from contextlib import contextmanager
from typing import Any

from companions import answers, figures
from companions.accepting import Accepting
from companions.answers import Said
from companions.beats import Heard
from companions.counted import BUCKETS, Counted
from companions.figures import OfWorkers, QueueFigures
from companions.gate import Gate, NoAnswer, QueueStatus, Status, say
from companions.hearing import Door, serve
from companions.ids import id_of
from companions.links_file import LinksFile
from companions.moments import Moment
from companions.outbox import Notes
from companions.running_file import RunningFile
from companions.settings import Settings
from companions.sight import Sight
from companions.starting import start
from companions.watch_settings import SILENT

Build = dict[str, Any]
PART = "watch"


class Watch:
    """Looks at a gate, again and again, and is told the moment at each look.

    Its notes are one record: the file that they are about, by the id of its first accepted delivery; when each build
    that runs was first seen; of each queue its first item and since when it is that; and how many landings there were.
    They hold for that file alone, since another one has other builds and items under the same numbers. Their times are
    of one boot: in another one, what was seen before counts from the first look. `held` has the builds that their
    workers have held, each with since when.
    """

    def __init__(self, settings: Settings, uptime: Callable[[], float] = lambda: Moment.now().uptime) -> None:
        self.settings, self.folder = settings, settings.folder / "watch"
        self.people, self.worker, self.standby = (
            Gate(settings.url, settings.account(role), part=PART) for role in ("people", "worker", "standby"))
        self.accepting = Accepting(self.standby, self.worker)
        self.file = (settings.figures or self.folder) / "gated.prom"
        self.notes = Notes(self.folder / "notes.db")
        self.noted: dict[str, Any] = self.notes.get("seen") or none_seen(None)
        self.sight = Sight(settings, self.notes, PART)
        self.counted = Counted(self.people, self.notes)
        page = settings.adapter.page if settings.adapter is not None else None
        self.running = RunningFile(page) if page is not None else None
        self.links = LinksFile(settings.folder, page) if page is not None else None
        self.heard = Heard(settings.hearing.silent if settings.hearing else SILENT, uptime)
        self.hears, self.is_deaf = False, False
        self.first_is_asked = False
        self.queue_of: dict[tuple[int, int], str] = {}
        self.troubles: set[str] = set()
        self.unlimited: set[tuple[str, str]] = set()

    def look(self, at: Moment) -> None:
        """One look at the gate: notes, figures, and reports of what runs for too long."""
        told: list[QueueFigures] | None = None
        late: list[Build] = []
        of_workers: OfWorkers | None = None
        now = self.begin(at)
        accepts: bool | None = None
        with self.asking("can't look"):
            self.ask_first()
            status, running = self.people.status(), self.people.running()
            waiting = self.waiting_by_queue(status)
            self.note(status, running, now)
            self.heard.know({it["build"]: key_of(it) for it in running})
            self.tell_if_deaf()
            late = [it for it in running if self.why_lost(it, now) is not None]
            of_workers = self.of_workers(running, now)
            said = answers.read(answers.file_in(self.settings.folder))
            told = [self.figures_of(it, waiting, running, now, said) for it in status.queues]
        if told is None:
            self.first_is_asked = False
            self.queue_of.clear()
        else:
            with self.asking("can't ask whether the gate accepts deliveries"):
                accepts = self.accepts(status, now)
            with self.asking("can't count what the gate did"):
                self.counted.look(status, at)
        for build in late:
            with self.asking("can't report what is lost"):
                self.report(build, now)
        text = figures.text_of(told, self.notes.get("lost") or 0, self.sight.look(at), accepts, of_workers)
        self.write(text + figures.counted(self.counted.counts, BUCKETS), now)

    def begin(self, at: Moment) -> float:
        """Drops times of another boot, and gives that of now."""
        if self.noted.get("boot") != at.boot:
            self.noted = {**self.noted, "boot": at.boot, "builds": {}, "firsts": {}, "held": {}}
        return at.uptime

    def accepts(self, status: Status, now: float) -> bool | None:
        """Whether the gate accepts deliveries, as far as that is known. It is told when that ends and begins."""
        before, accepts = self.accepting.says, self.accepting.look(status, now)
        if accepts is False and before is not False:
            say(PART, "the gate answers, and accepts no deliveries: its disk is full, or has failed")
        if accepts and before is False:
            say(PART, "the gate accepts deliveries again")
        return accepts

    def write(self, text: str, now: float) -> None:
        """Writes the figures, and what the page is told. What runs for too long is reported also where they can't be
        written."""
        trouble = "can't write the figures"
        try:
            figures.write(self.file, text)
            if self.running is not None:
                self.running.look(self.noted["builds"], now, time.time())
            if self.links is not None:
                self.links.look()
        except OSError as fault:
            if trouble not in self.troubles:
                say(PART, f"{trouble}: {fault}")
            self.troubles.add(trouble)
        else:
            self.troubles.discard(trouble)

    @contextmanager
    def asking(self, trouble: str) -> Iterator[None]:
        """What is tried again at the next look, where no answer comes. A trouble is told when it begins and ends."""
        try:
            yield
        except NoAnswer as fault:
            if trouble not in self.troubles:
                say(PART, f"{trouble}: no answer of the gate: {fault}")
            self.troubles.add(trouble)
            return
        if trouble in self.troubles:
            self.troubles.discard(trouble)
            say(PART, "the gate answers again")

    def ask_first(self, anew: bool = False) -> None:
        """Asks which file the gate has, and drops all notes of another one.

        The answer is long, so it is asked for at the start, after each time without answers, and before each report.
        """
        if self.first_is_asked and not anew:
            return
        first = self.standby.first()
        if first != self.noted["first"]:
            if self.noted["first"] is not None:
                say(PART, "the gate has another file: all that was noted is dropped")
            self.noted = none_seen(first, self.noted["boot"])
            self.notes.put("seen", self.noted)
            self.queue_of.clear()
            self.heard.know({})
        # A gate that has accepted nothing gets its first delivery at some time.
        self.first_is_asked = first is not None

    def waiting_by_queue(self, status: Status) -> Counter[str]:
        """How many changes wait for each queue. Their lines name no queue, so each is asked for once while it waits."""
        queue_of: dict[tuple[int, int], str] = {}
        for waiting in status.waiting:
            queue = self.queue_of.get(waiting)
            if queue is None and (change := self.people.change(waiting[0])) is not None:
                queue = change["queue"]
            if queue is not None:
                queue_of[waiting] = queue
        self.queue_of = queue_of
        return Counter(queue_of.values())

    def note(self, status: Status, running: list[Build], now: float) -> None:
        """Notes what is new and forgets what is gone, in one record, which is written where it has changed.

        A gate with fewer landings than before has another file, or an earlier state of the same: what runs there under
        the numbers that were noted was given out anew.
        """
        landed = {it.name: it.landed for it in status.queues}
        if any(landed[it] < self.noted["landed"].get(it, 0) for it in landed):
            self.ask_first(anew=True)
            self.noted = none_seen(self.noted["first"], self.noted["boot"])
            self.heard.know({})
        seen, stood = self.noted["builds"], self.noted["firsts"]
        builds = {key_of(it): seen.get(key_of(it), now) for it in running}
        firsts = {it.name: self.stands(it, stood.get(it.name), now) for it in status.queues if it.items}
        held = self.note_held(running, builds, now)
        noted = {**self.noted, "builds": builds, "firsts": firsts, "landed": landed, "held": held}
        if noted != self.noted:
            self.noted = noted
            self.notes.put("seen", noted)

    def stands(self, queue: QueueStatus, noted: dict[str, Any] | None, now: float) -> dict[str, Any]:
        """The note of a queue's first item. Somebody is told of one that has stood for too long, now and then."""
        order, change, revision, _, how, *jobs = queue.items[0]
        if noted is None or noted["order"] != order:
            return {"order": order, "since": now, "told": now}
        if now - noted["told"] <= self.settings.stands:
            return noted
        say(PART, f"{queue.name}: change {change} at revision {revision}, order {order}, has stood first for"
                  f" {now - noted['since']:.0f} seconds: {how} {' '.join(jobs)}")
        return {**noted, "told": now}

    def note_held(self, running: list[Build], builds: dict[str, float], now: float) -> dict[str, Any]:
        """The builds that are held, or were. One that no longer is counts from now on: it has its whole limit."""
        before, held = self.noted.get("held", {}), {}
        for it in running:
            key, is_held = key_of(it), self.heard.is_held(it["build"])
            was = before.get(key)
            if was is None and not is_held:
                continue
            held[key] = {"since": now if was is None else was["since"], "is": is_held}
            if is_held and was is None:
                say(PART, f"{called(it)}, is held by its worker: the settings lack something, as its worker says")
            if was is not None and was["is"] and not is_held:
                builds[key] = now
        return held

    def is_held(self, build: Build, now: float) -> bool:
        """Whether a build isn't timed, since its worker holds it: all in all for `watch.held` seconds at most."""
        noted = self.noted.get("held", {}).get(key_of(build))
        most = self.settings.hearing.held if self.settings.hearing else 0.0
        return noted is not None and noted["is"] and now - noted["since"] <= most

    def tell_if_deaf(self) -> None:
        """Somebody is told, once, where all workers that were heard are silent at once: nothing is lost by that."""
        silence = self.heard.deaf_for()
        if silence is not None and not self.is_deaf:
            say(PART, f"no worker has been heard for {silence:.0f} seconds, and builds run whose workers were: it is"
                      " the watch, the proxy or the way to them, so none is reported as lost for that")
        if silence is None and self.is_deaf:
            say(PART, "workers are heard again")
        self.is_deaf = silence is not None

    def of_workers(self, running: list[Build], now: float) -> OfWorkers | None:
        if not self.hears:
            return None
        return OfWorkers(self.heard.count(), sum(self.is_held(it, now) for it in running))

    def why_lost(self, build: Build, now: float) -> str | None:
        """Why a build is lost: its worker was heard and is silent, or it runs for longer than any may have taken."""
        silent = self.heard.silence_of(build["build"])
        if silent is not None:
            return f"has a worker, {silent[0]}, that has been silent for {silent[1]:.0f} seconds"
        return "ran beyond its limit" if not self.is_held(build, now) and self.is_late(build, now) else None

    def is_late(self, build: Build, now: float) -> bool:
        """Whether a build runs for longer than any worker may have taken."""
        queue, job = build["queue"], build["job"]
        limit = self.settings.limit_of(queue, job)
        if limit is None:
            if (queue, job) not in self.unlimited:
                say(PART, f"{queue}: no project of the settings has a job {job}, so its builds aren't reported as lost")
            self.unlimited.add((queue, job))
            return False
        return bool(now - self.noted["builds"][key_of(build)] > limit + self.settings.grace)

    def report(self, build: Build, now: float) -> None:
        """Reports a build as lost, if it is still that build of that file, and runs, and is wanted, and no beat of it
        came meanwhile."""
        self.ask_first(anew=True)
        first = self.noted["first"]
        if first is None or key_of(build) not in self.noted["builds"] or (why := self.why_lost(build, now)) is None:
            return
        number, change, revision = build["build"], build["change"], build["revision"]
        known = self.worker.build(number)
        wanted = {"live": True, "outcome": "running", "change": change, "revision": revision, "job": build["job"]}
        if known is None or any(known[it] != wanted[it] for it in wanted):
            return
        identity = id_of(first, "lost", number, change, revision)
        answer = self.worker.post("worker", {"id": identity, "kind": "result", "build": number, "outcome": "lost"})
        if answer.reply == "noted":
            self.notes.put("lost", (self.notes.get("lost") or 0) + 1)
        say(PART, f"{called(build)}, {why}: reported as lost: {answer.reply or answer.code}")

    def figures_of(self, queue: QueueStatus, waiting: Counter[str], running: list[Build], now: float, said: Said
                   ) -> QueueFigures:
        stopped = said.stopped[queue.name] is not None if queue.name in said.stopped else None
        first = self.noted["firsts"].get(queue.name)
        stood = 0 if first is None else max(0, int(now - first["since"]))
        return QueueFigures(
            queue=queue.name, items=len(queue.items), waiting=waiting[queue.name],
            running=sum(it["queue"] == queue.name for it in running), oldest_seconds=stood, landed=queue.landed,
            window=queue.window, lander_stopped=None if stopped is None else int(stopped))


def none_seen(first: str | None, boot: str = "") -> dict[str, Any]:
    """The notes about a file of which nothing was seen yet."""
    return {"first": first, "boot": boot, "builds": {}, "firsts": {}, "landed": {}, "held": {}}


def key_of(build: Build) -> str:
    return f"{build['build']}/{build['change']}/{build['revision']}"


def called(build: Build) -> str:
    """A build, as a line names it."""
    return f"build {build['build']}, {build['job']} of change {build['change']} at revision {build['revision']}"


def hear(watch: Watch) -> None:
    """Begins to hear workers, unless it does. Where it can't, it is tried again, and builds are timed all the same."""
    hearing, trouble = watch.settings.hearing, "can't hear workers"
    if hearing is None or watch.hears:
        return
    try:
        serve(Door((hearing.host, hearing.port), watch.heard))
    except (OSError, OverflowError) as fault:
        if trouble not in watch.troubles:
            say(PART, f"{trouble}: nothing can listen at {hearing.host}:{hearing.port}: {fault}")
        watch.troubles.add(trouble)
        return
    if trouble in watch.troubles:
        say(PART, "hears workers now")
    watch.troubles.discard(trouble)
    watch.hears = True


def run(settings: Settings, clock: Callable[[], Moment] = Moment.now) -> int:
    watch = Watch(settings)
    while True:
        hear(watch)
        watch.look(clock())
        time.sleep(settings.pause)


def main(words: list[str]) -> int:
    return start(PART, words, run)


if __name__ == "__main__":
    sys.exit(main(sys.argv[1:]))
