"""What is so of the requests that texts name as needed: each is asked for once, however many texts name it.

Anybody may name many, in many texts, and a forge answers so many calls an hour. Those that are open the list of a
comparison shows, and a look at one shows it too. The others are asked for, each once an hour.
"""
from __future__ import annotations

from collections.abc import Callable, Mapping
from dataclasses import dataclass

from companions.forges import Place
from companions.looked import uptime
from companions.needs import Known
from companions.requests import Request, State
from companions.rests import HOUR, Hourly

# So many are asked for in an hour, so many of them once more, and of so many it is kept how they are.
MOST, AGAIN, KEPT = 300, 150, 20_000


class TooMany(Exception):
    """Nobody knows of a request that a text names, and too many such ones were asked for."""


@dataclass(frozen=True)
class Seen:
    """How a request is, or that there is none, and when that was seen."""
    known: Known | None
    at: float


class NamedRequests:
    """Knows requests by their places. `outline` asks the forge for one, and `landed` tells the branch at which one has
    landed, if it has. What was seen of an open one holds for `longest` seconds, and what was merged stays so. Where so
    many were asked for that the rest is for those of which nothing is known, what was known last holds."""

    def __init__(self, outline: Callable[[Place], Request | None], landed: Callable[[Place], str | None],
                 longest: float, clock: Callable[[], float] = uptime) -> None:
        self.outline, self.landed, self.longest, self.clock = outline, landed, longest, clock
        self.seen: dict[Place, Seen] = {}
        self.asked = Hourly()

    def listed(self, repository: str, targets: Mapping[int, str]) -> None:
        """The list of a repository's open requests has shown these, with their target branches: no other is open."""
        for place, it in list(self.seen.items()):
            is_open = it.known is not None and it.known.state is State.OPEN
            if place.repository == repository and is_open and place.number not in targets:
                del self.seen[place]
        for number, target in targets.items():
            self.note(Place(repository, number), Known(target, State.OPEN))

    def note(self, place: Place, known: Known | None) -> None:
        """A request was seen, or that there is none. Those that were seen the longest ago are forgotten, if need be."""
        self.seen.pop(place, None)
        self.seen[place] = Seen(known, self.clock())
        while len(self.seen) > KEPT:
            del self.seen[next(iter(self.seen))]

    def peek(self, place: Place) -> Seen | None:
        """What `ask` would give without a call; none where it would call, or knows nothing."""
        it, now = self.seen.get(place), self.clock()
        if it is not None and self.holds(it, now):
            return it
        branch = self.landed(place)
        if branch is not None:
            return Seen(Known(branch, State.MERGED), now)
        return it if it is not None and not self.asked.is_below(AGAIN, now) else None

    def holds(self, it: Seen, now: float) -> bool:
        """Whether what was seen needn't be asked for again."""
        state = it.known.state if it.known is not None else None
        return state is State.MERGED or now - it.at < (self.longest if state is State.OPEN else HOUR)

    def ask(self, place: Place) -> Known | None:
        """How a request is, or none where there is none. `ForgeFault`, and `TooMany`."""
        it = self.peek(place)
        if it is not None:
            return it.known
        now = self.clock()
        if not self.asked.is_below(MOST, now):
            raise TooMany(f"its text names {place.repository} {place.number}, and {MOST} requests that texts name were"
                          " asked for within an hour: it is looked at again later")
        self.asked.count(now)
        so = self.outline(place)
        known = Known(so.target, so.state) if so is not None else None
        self.note(place, known)
        return known
