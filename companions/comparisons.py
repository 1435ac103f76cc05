"""How far the adapter has compared each repository, and what it leaves for the lander by that."""
from __future__ import annotations

from collections.abc import Container, Iterable
from dataclasses import asdict
from pathlib import Path

from companions import compared
from companions.answers import Wrong
from companions.compared import Compared, Repository
from companions.forges import Place
from companions.moments import Moment
from companions.told import Changes

# Why the order of a change is to be refused: by the kind of its delivery that waits for the order's answer, or since
# nobody could look at its request.
SUBMITTING = {"revision": "a new revision of it was pushed", "withdrawn": "its approval was taken back",
              "closed": "its request was closed"}
UNSEEN = "the adapter can't look at its request"


class Comparisons:
    """A comparison of a repository is whole once each request of its list was looked at.

    A request at which nobody can look, as its author may bring about, doesn't hold up its repository: the comparison is
    whole without it, and orders of its changes are refused. It is such a one where the fault is its own, or the forge
    couldn't tell of it in two comparisons in a row, and until it was looked at again.
    """

    def __init__(self, changes: Changes, repositories: Iterable[str], folder: Path) -> None:
        self.changes, self.outbox, self.repositories = changes, changes.outbox, list(dict.fromkeys(repositories))
        self.file, self.left = compared.file_in(folder), Compared(None, None, {}, {})
        self.at_work: dict[str, tuple[Moment, set[int]]] = {}
        # The requests that couldn't be looked at in the comparison that is at work.
        self.tried: set[Place] = set()
        # The repositories of which something was seen in the comparison that is at work.
        self.in_sight: set[str] = set()
        self.overdue: set[Place] = set()
        self.unseen: set[Place] = set()
        self.answered: dict[str, int] = {}

    def begin(self, repository: str, began: Moment, numbers: Iterable[int]) -> None:
        """A comparison is begun: its moment is before that of the list."""
        _, missed = self.at_work.get(repository, (began, set[int]()))
        self.overdue = {it for it in self.overdue if it.repository != repository}
        self.overdue |= {Place(repository, it) for it in missed}
        self.tried = {it for it in self.tried if it.repository != repository}
        left = set(numbers)
        self.at_work[repository] = began, left
        if left:
            self.in_sight.discard(repository)
        else:
            self.in_sight.add(repository)
        self.go_on(repository, None)

    def looked(self, place: Place) -> None:
        """A request was looked at, and what has to be told of it is kept."""
        self.overdue.discard(place)
        self.unseen.discard(place)
        self.in_sight.add(place.repository)
        self.go_on(place.repository, place.number)

    def failed(self, place: Place, is_its_own: bool) -> None:
        """A request couldn't be looked at, for a fault of its own or of the forge."""
        self.tried.add(place)
        if is_its_own or place in self.overdue | self.unseen:
            self.unseen.add(place)
            self.go_on(place.repository, place.number)

    def is_going_on(self, repository: str) -> bool:
        """Whether a comparison is at work that has requests at which nobody has looked yet."""
        _, numbers = self.at_work.get(repository, (None, set[int]()))
        return any(Place(repository, it) not in self.tried for it in numbers)

    def go_on(self, repository: str, number: int | None) -> None:
        """Notes that a comparison doesn't need this request any more, and that it is whole if it needs none."""
        began, numbers = self.at_work.get(repository, (None, set[int]()))
        if number is not None:
            numbers.discard(number)
        if began is not None and not numbers:
            del self.at_work[repository]
            self.outbox.put("compared", {**(self.outbox.get("compared") or {}), repository: asdict(began)})
            if repository in self.in_sight:
                self.outbox.put("looked", {**(self.outbox.get("looked") or {}), repository: asdict(began)})

    def is_late(self, repository: str, since: Moment) -> bool:
        """Whether a comparison is wanted that began after this moment, and none is at work."""
        noted = (self.outbox.get("compared") or {}).get(repository)
        began = [self.at_work[repository][0]] if repository in self.at_work else [Moment(**noted)] if noted else []
        return not any(it.boot == since.boot and it.uptime > since.uptime for it in began)

    def answer(self, listed: Iterable[Wrong], done: Container[Wrong]) -> None:
        """The adapter has looked once more at some of the refs that the lander finds to be wrong."""
        self.answered = {it.name: self.answered.get(it.name, 0) + (it in done) for it in listed}

    def untold(self) -> set[str]:
        """The repositories of which a gate that was restored isn't told again yet."""
        return {repository for repository, _ in (self.outbox.get("untold") or {"homes": []})["homes"]}

    def forget(self) -> None:
        """The gate was restored, or has another file: what was compared before says nothing any more."""
        self.at_work.clear()
        self.outbox.put("compared", {})

    def leave(self) -> None:
        """Leaves for the lander what is so by now."""
        noted = self.outbox.get("file")
        began, looked = ({repository: Moment(**it) for repository, it in (self.outbox.get(name) or {}).items()}
                         for name in ("compared", "looked"))
        submitting = {int(it.lane): SUBMITTING.get(it.said["kind"]) for it in self.outbox.submitting()}
        waiting, untold = self.changes.waiting(submitting), self.untold()
        repositories = {it: Repository(waiting.get(it, 0) + (it in untold), began.get(it), looked.get(it))
                        for it in self.repositories}
        unseen = {change: UNSEEN for place in self.unseen for change in self.changes.of_request(place).values()}
        refuse = unseen | {change: why for change, why in submitting.items() if why is not None}
        first = noted["first"] if noted else None
        now = Compared(first, self.outbox.get("last"), repositories, refuse, self.answered)
        if now != self.left:
            compared.write(self.file, now)
            self.left = now
