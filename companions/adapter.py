"""Tells a gate what is so in a forge, and people on their requests what became of them at the gate.

    python3 -m companions.adapter companions.toml

The gate is told of revisions of requests, their approvals, and that they are closed. A hook is a hint to look at a
request. All open ones are looked at besides at the start and every few minutes, so that hooks may be lost, late or
doubled. People are told by a commit status and by one comment. It may be killed anywhere and started again.
"""
from __future__ import annotations

import sys
import threading
import time
from collections.abc import Callable
from functools import partial
from pathlib import Path

from companions import answers, held, peeking
from companions.answers import Wrong
from companions.api import ForgeFault
from companions.comparisons import Comparisons
from companions.failures import Failures
from companions.forges import Forge, Place
from companions.forms import CLIENTS
from companions.gate import Answer, Gate, NoAnswer, say
from companions.gate_file import GateFile
from companions.hooks import Hints, Hooks, serve
from companions.landed_as import LandedAs
from companions.leaving import Leaving
from companions.leftovers import Leftovers
from companions.looks import Again, Looks, names_of
from companions.moments import Moment
from companions.operated import Operated
from companions.outbox import Kept, Notes, Outbox
from companions.page_file import PageFile
from companions.people import Manner, People
from companions.people_others import KnownByOthers
from companions.repository import Declined, GitFault
from companions.rests import Paces, Rests
from companions.settings import Adapter as AdapterSettings
from companions.settings import Settings
from companions.starting import start
from companions.subjects import Subjects
from companions.told import Changes

# So many requests in a row of which the forge doesn't tell end a round: it may be away, and each takes its time.
FAULTS = 3
# A forge may answer from a copy that lags behind its hook: so many seconds later the request is looked at once more.
LAG = 15.0
# So long a forge has to see by itself that a request was merged.
CLOSES = 60.0
# So many seconds lie between two looks at what was closed long ago.
DROP = 3600.0
# So often in an hour a request is looked at as soon as a hook names it, and then so many times in a comparison's time:
# anybody may bring hooks about, by comments.
AT_ONCE, PER_COMPARISON = 20, 5
# How long what failed rests at first, as a multiple of `gate.pause`. A request rests as long as a comparison at most.
REST = 5


class Adapter:
    """What is done over and over: look where a hint says so, send what is to be told, and tell people."""

    def __init__(self, settings: Settings, forge: Forge) -> None:
        assert settings.adapter is not None
        self.settings, self.forge, self.compare = settings, forge, settings.adapter.compare
        file = settings.folder / "adapter" / "adapter.db"
        self.outbox, self.hints = Outbox(file), Hints(file)
        self.changes = Changes(self.outbox)
        self.subjects = Subjects(self.changes)
        self.gate = Gate(settings.url, settings.account("forge"), part="adapter")
        self.file = GateFile(self.outbox, self.gate, self.is_other, self.is_earlier)
        self.looks = Looks(settings, settings.adapter, forge, self.gate, self.subjects)
        self.comparisons = Comparisons(self.changes, (it.forge for it in settings.projects.values()), settings.folder)
        manner = Manner(forge.mark, settings.adapter.logs, settings.adapter.quiet, limits=forge.limits,
                        closes=CLOSES if forge.leaves_open else None)
        notes = Notes(file.with_name("people.db"))
        failures = Failures(settings, self.gate, notes)
        landed_as = LandedAs(self.looks.repositories, self.looks.project_of)
        self.people = People(self.gate, notes, forge, self.changes.place, manner,
                             KnownByOthers(settings.folder, self.looks.jobs, failures, landed_as), self.changes.show)
        self.page = page_file(settings.adapter, forge, self.subjects, self.people)
        self.leaving = Leaving(settings.adapter.tell, notes, self.subjects, address_at(settings.adapter, forge),
                               self.changes.first)
        self.look, self.look_at = settings.adapter.look, 0.0
        for it in self.looks.repositories.values():
            it.unlock()
        peeking.clear(file.parent)
        failures.begin()
        self.leftovers = Leftovers(self.looks, self.gate)
        self.operated = Operated(settings.folder, self.gate, self.looks, self.attempt, self.send, settings.pause)
        self.held = held_in(settings.folder)
        self.compare_at, self.drop_at, self.now = 0.0, 0.0, 0.0
        # The repositories whose comparison has to begin still.
        self.missed: set[str] = set()
        self.righted: dict[Wrong, float] = {}
        self.rests = Rests(REST * settings.pause, settings.adapter.compare)
        # Of lists of requests, without which nothing lands: these are few, and tried again soon.
        self.lists = Rests(REST * settings.pause, REST * settings.pause)
        self.paces = Paces(AT_ONCE, settings.adapter.compare / PER_COMPARISON)
        self.later: dict[Place, float] = {}
        self.troubles: dict[str, str] = {}

    def once(self, now: float) -> None:
        """One round. Without an answer of the gate all stays as it is."""
        self.now = now
        try:
            if not self.file.is_known or now >= min(self.compare_at, self.look_at):
                self.file.ask()
            self.tell_again()
            self.comparisons.leave()
            if (holds := held_in(self.settings.folder)) != self.held:
                # What people have approved meanwhile is told, or their requests say that it isn't.
                self.held, self.compare_at = holds, 0.0
            due = [it for it in self.missed if not self.lists.is_resting(it, now)]
            if now >= self.compare_at:
                due, self.compare_at = self.comparisons.repositories, now + self.compare
            for it in due:
                self.compare_again(it)
            self.answer_lander(now)
            if not self.looks.approvers.is_known and not self.rests.is_resting("approvers", now):
                self.rest("approvers", self.attempt("approvers", self.looks.approvers.look_up))
            for place in [place for place, at in self.later.items() if at <= now]:
                del self.later[place]
                self.hints.put(place, is_hook=False)
            self.follow(now)
            self.send()
            self.operated.once(now)
            self.trouble("gate", None)
            if now >= self.look_at:
                self.look_at = now + self.look
                self.attempt("people", self.tell_people)
                self.attempt("page", self.show)
                self.attempt("tell", lambda: self.leaving.look(self.people.said, self.people.kinds))
            if now >= self.drop_at and not self.comparisons.untold():
                self.drop_at = now + DROP
                self.attempt("leftovers", self.leftovers.drop)
        except NoAnswer as fault:
            self.file.is_known = False
            self.trouble("gate", f"no answer of the gate: {fault}")

    def compare_again(self, repository: str) -> None:
        """Begins a comparison of a repository, behind one that is at work: if each began before the one before is
        whole, none would ever be. A repository that can't be read holds up no other, and is tried again later."""
        self.missed.add(repository)
        if self.comparisons.is_going_on(repository):
            return
        if self.attempt(repository, lambda: self.hint_at(repository)) is None:
            self.missed.discard(repository)
            self.lists.over(repository)
        else:
            self.lists.failed(repository, self.now)

    def hint_at(self, repository: str) -> None:
        """Hints at each request of a repository that may have changed: its comparison has begun. A deleted comment or a
        lost right needn't show in the list, so all that are approved are looked at."""
        began = Moment.now()
        shown = self.forge.open_requests(repository)
        unchanged = self.looks.unchanged(repository, shown, began.uptime, self.forge.time())
        numbers = {*shown, *self.changes.still_open(repository)} - unchanged | {*self.changes.approved(repository)}
        for number in sorted(numbers):
            self.hints.put(Place(repository, number), is_hook=False)
        self.comparisons.begin(repository, began, numbers)

    def answer_lander(self, now: float) -> None:
        """Does what the lander waits for: sets refs right, and compares where it saw that the gate was restored."""
        said = answers.read(answers.file_in(self.settings.folder))
        due = [it for it in said.wrong if self.righted.get(it, 0.0) <= now]
        faults = {it: self.attempt(f"{it.project} {it.name}", partial(self.looks.set_right, it)) for it in due}
        self.righted = {it: now + self.look if it in faults else self.righted[it] for it in said.wrong}
        self.comparisons.answer(said.wrong, {it for it, fault in faults.items() if not is_of_network(fault)})
        for queue, since in said.since.items():
            for name in dict.fromkeys(it.forge for it in self.settings.projects_of(queue)):
                if self.comparisons.is_late(name, since) and not self.lists.is_resting(name, now):
                    self.compare_again(name)

    def send(self) -> None:
        """Sends what may be sent by now. What is kept is left word of before, and what was answered behind."""
        try:
            if self.outbox.is_due():
                self.file.ask()
                self.tell_again()
                self.comparisons.leave()
                # What is kept of a branch goes behind what a gate that was restored is told of it again.
                untold = (self.outbox.get("untold") or {"homes": []})["homes"]
                held = {str(change) for it in untold for change in self.changes.of_home((it[0], it[1]))}
                self.outbox.send(self.gate, self.answered, self.settings.pause, self.comparisons.leave, held)
                if not self.file.is_known:
                    self.file.ask()
        finally:
            self.comparisons.leave()

    def follow(self, now: float) -> None:
        """Looks at the requests that were hinted at: those that have failed behind all others, and of these and of the
        others those of hooks first. Where they are many, that takes long: so what a look has kept is sent before the
        next one, and a hook that comes meanwhile is followed next, unless its request had its look."""
        if self.changes.first() is None:
            self.send()
        faults, waiting, done, untold = 0, self.hints.all(), set[Place](), self.comparisons.untold()
        last = max((row for row, _ in waiting), default=0)
        waiting.sort(key=lambda it: self.rests.times(name_of(it[1])) > 0)
        while waiting and faults < FAULTS:
            row, place = waiting.pop(0)
            name = name_of(place)
            is_early = self.rests.is_resting(name, now) or self.paces.waits(name, now)
            if is_early or place in done or place.repository in untold:
                continue
            done.add(place)
            fault = self.attempt(name, partial(self.looks.look, place))
            if fault is None:
                self.comparisons.looked(place)
                if self.hints.drop(row):
                    self.paces.count(name, now)
                    self.later.setdefault(place, now + LAG)
                self.send()
                faults = 0
            else:
                self.comparisons.failed(place, not isinstance(fault, ForgeFault))
                faults += 1
            self.rest(name, fault)
            news = self.hints.all(last)
            last = max((row for row, _ in news), default=last)
            waiting = sorted(news + waiting, key=lambda it: self.rests.times(name_of(it[1])) > 0)

    def tell_people(self) -> None:
        for change, kind in self.people.look(self.subjects.all(), Moment.now()).items():
            self.subjects.written(change, kind)
        while self.people.closed:
            self.hints.put(self.people.closed.pop(), is_hook=False)

    def show(self) -> None:
        """Leaves for the page what it is told of requests."""
        if self.page is not None:
            self.page.look(self.people.said, time.time())

    def attempt(self, name: str, task: Callable[[], None]) -> Exception | None:
        """What went wrong, if anything did: it is told, once while it stays the same. The gate's silence is raised."""
        try:
            task()
        except NoAnswer:
            raise
        except Again as fault:
            return fault
        except ForgeFault as fault:
            self.trouble(name, f"{name}: {fault}")
            return fault
        except Exception as fault:  # pylint: disable=broad-except
            self.trouble(name, f"{name}: {type(fault).__name__}: {fault}")
            return fault
        self.trouble(name, None)
        return None

    def rest(self, name: str, fault: Exception | None) -> None:
        """What has failed rests, and longer each time."""
        if fault is None:
            self.rests.over(name)
        else:
            self.rests.failed(name, self.now)

    def trouble(self, name: str, said: str | None) -> None:
        """Tells of a trouble once, until it is another one or over."""
        if said is None:
            self.troubles.pop(name, None)
        elif self.troubles.get(name) != said:
            self.troubles[name] = said
            say("adapter", said)

    def answered(self, delivery: Kept, answer: Answer) -> None:
        """Notes an answer, and says it."""
        self.changes.answered(delivery.id, answer.reply, answer.code)
        said = delivery.said
        self.people.ask_again(said["change"])
        place = self.changes.place(said["change"])
        if self.changes.first() is None and place is not None:
            # It may be the first delivery of the gate's file, which is told alone and then once more.
            self.hints.put(place)
        self.file.accepted(delivery, answer)
        heard = answer.reply or f"refused: {answer.code} {answer.said.get('error')}"
        say("adapter", f"change {said['change']}, revision {said['revision']}: {said['kind']}: {heard}")

    def is_other(self) -> None:
        """The gate has another file."""
        self.comparisons.forget()
        self.looks.looked.forget()
        self.changes.forget()
        self.compare_at = 0.0

    def is_earlier(self) -> None:
        """The gate was restored. What was known to it before isn't what is known if it was restored once more."""
        self.comparisons.forget()
        self.looks.looked.forget()
        self.compare_at = 0.0
        before, known = self.outbox.get("untold"), self.changes.replies_known(self.gate.knows)
        self.outbox.put("untold", {"known": min(known, before["known"]) if before else known,
                                   "homes": self.changes.homes()})

    def tell_again(self) -> None:
        """Tells a gate that was restored what it may have lost: of each branch, once what it has by now is noted. One
        that can't be read holds up its own repository."""
        untold = self.outbox.get("untold")
        for home in [] if untold is None else untold["homes"]:
            project, name = self.looks.projects.get((home[0], home[1])), " ".join(home)
            if project is not None:
                if self.rests.is_resting(name, self.now):
                    continue
                fault = self.attempt(name, partial(self.looks.note_landings, project))
                self.rest(name, fault)
                if fault is not None:
                    continue
            with self.changes.step():
                self.changes.tell_again(known=untold["known"], home=(home[0], home[1]))
                left = [it for it in self.outbox.get("untold")["homes"] if it != home]
                self.outbox.put("untold", {**untold, "homes": left} if left else None)

    def run(self, came: threading.Event) -> None:
        while True:
            came.clear()
            self.once(time.monotonic())
            came.wait(self.settings.pause)


def page_file(settings: AdapterSettings, forge: Forge, subjects: Subjects, people: People) -> PageFile | None:
    """What writes for the page, if the settings name a folder for it."""
    def order(change: int) -> int | None:
        report = people.observer.report(change)
        return None if report is None else report.order

    if settings.page is None:
        return None
    return PageFile(settings.page, subjects, address_at(settings, forge), forge.mark, settings.logs, order)


def address_at(settings: AdapterSettings, forge: Forge) -> Callable[[Place], str]:
    """What gives the address of a request."""
    return lambda place: f"{settings.web}/{place.repository}{forge.requests_at}{place.number}"


def held_in(folder: Path) -> frozenset[str] | None:
    """The queues that an operator holds; none where nobody knows."""
    try:
        return frozenset(held.read(folder))
    except ValueError:
        return None


def name_of(place: Place) -> str:
    return f"{place.repository} {place.number}"


def is_of_network(fault: Exception | None) -> bool:
    """Whether nothing is known but that git has failed, as where a server is away."""
    return isinstance(fault, GitFault) and not isinstance(fault, Declined)


def run(settings: Settings) -> int:
    it = settings.adapter
    if it is None:
        say("adapter", "stops: the settings have no table [adapter]")
        return 1
    adapter, came = Adapter(settings, CLIENTS[it.form](it.url, it.token, it.secret)), threading.Event()
    try:
        hooks = Hooks((it.host, it.port), adapter.hints, adapter.forge, names_of(settings), came,
                      settings.folder / "adapter")
    except OSError as fault:
        say("adapter", f"stops: nothing can listen at {it.host}:{it.port}: {fault.strerror}")
        return 1
    serve(hooks)
    say("adapter", f"hooks come in at http://{it.host}:{hooks.server_port}/hook")
    adapter.run(came)
    return 0


def main(words: list[str]) -> int:
    return start("adapter", words, run)


if __name__ == "__main__":
    sys.exit(main(sys.argv[1:]))
