"""When the adapter has looked at each request, since when without a gap, and which ones the list shows unchanged.

A comment that names no commit is of the head at which it is first seen, since the forges don't say which one it had
then. In a gap nobody here sees what the head is, so somebody could show another one for a while and have that approved.
"""
from __future__ import annotations

from collections.abc import Callable, Mapping
from dataclasses import dataclass
from datetime import datetime

from companions.forges import Place
from companions.moments import Moment


def uptime() -> float:
    return Moment.now().uptime


@dataclass(frozen=True)
class Good:
    """A good look: when it began, by this machine's uptime, and since when there was no gap, by the forge's time."""
    began: float
    since: datetime | None


class Looked:
    """The good looks at requests since the adapter began. A look is behind a gap if none at its request is known, if
    the last one has failed, or if the last good one began more than `longest` seconds before. So a restart is a gap
    too, whatever was before it."""

    def __init__(self, longest: float, clock: Callable[[], float] = uptime) -> None:
        self.longest, self.clock = longest, clock
        self.well: dict[Place, Good] = {}
        # What the last list has shown of each request, and what it had shown when a look found nothing to be done.
        self.listed: dict[Place, str | None] = {}
        self.settled: dict[Place, str | None] = {}

    def since(self, place: Place) -> datetime | None:
        """Since when, by the forge's time, a request was looked at without a gap; none where a look that begins now is
        behind one, or the forge tells no time."""
        last = self.well.get(place)
        return None if last is None or self.clock() - last.began > self.longest else last.since

    def went_well(self, place: Place, began: float, at: datetime | None, is_settled: bool = False) -> None:
        """A look went well, which began at an uptime and had its answer at a time of the forge's. `is_settled`: there
        was nothing to be done, and there isn't before the request itself changes."""
        self.well[place] = Good(began, self.since(place) or at)
        self.settled[place] = self.listed.get(place) if is_settled else None

    def failed(self, place: Place) -> None:
        self.well.pop(place, None)
        self.settled.pop(place, None)

    def unchanged(self, repository: str, shown: Mapping[int, str | None], began: float, at: datetime | None
                  ) -> set[int]:
        """The requests of a repository's list that haven't changed since they were looked at, which is as good as a
        look. The list was asked for at an uptime and had its answer at a time of the forge's."""
        for place in {*self.well, *self.listed, *self.settled}:
            if place.repository == repository and place.number not in shown:
                self.well.pop(place, None)
                self.listed.pop(place, None)
                self.settled.pop(place, None)
        self.listed.update({Place(repository, number): it for number, it in shown.items()})
        found = {number for number, it in shown.items()
                 if it is not None and self.settled.get(Place(repository, number)) == it}
        for number in found:
            self.went_well(Place(repository, number), began, at, True)
        return found

    def forget(self) -> None:
        """The gate was restored, or has another file: each request is to be looked at."""
        self.settled.clear()
