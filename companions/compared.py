"""What an adapter leaves for the lander: what it told last, and when it compared. And what may land by that.

A gate that was restored has forgotten withdrawals, closings and new commits, and nobody but the adapter can tell it
again. So nothing is pushed until the adapter has compared since then. docs/CONNECTING.md has the form of the file,
`adapter/compared.json` in the folder that both share, for those who write an adapter of their own.
"""
from __future__ import annotations

import json
import os
from collections.abc import Mapping
from dataclasses import asdict, dataclass, field
from pathlib import Path
from typing import Any

from companions.gate import Gate, Order
from companions.moments import Moment
from companions.outbox import Notes
from companions.settings import Settings


class Waits(Exception):
    """Nothing may be pushed for a queue yet: for what it waits, and perhaps for a comparison that began since then."""

    def __init__(self, why: str, since: Moment | None = None) -> None:
        super().__init__(f"waits for the adapter: {why}")
        self.since = since


@dataclass(frozen=True)
class Repository:
    """How many changes of a repository have deliveries that wait, when its last whole comparison began, and when that
    one began in which the last request was seen that was looked at, or it was seen that none is open."""
    waiting: int
    began: Moment | None
    looked: Moment | None = None


@dataclass(frozen=True)
class Compared:
    """All that an adapter leaves: the ids of the gate's first delivery and of the last one that the gate has accepted
    from here; the repositories by their names at the forge; the changes whose orders are to be refused, and why; and
    how often it has set right each revision whose ref the lander finds to be wrong, by CHANGE/REVISION."""
    first: str | None
    last: str | None
    repositories: Mapping[str, Repository]
    refuse: Mapping[int, str]
    answered: Mapping[str, int] = field(default_factory=dict)


def file_in(folder: Path) -> Path:
    """What an adapter leaves in the companions' folder."""
    return folder / "adapter" / "compared.json"


def write(file: Path, it: Compared) -> None:
    """Writes beside and renames: so nobody ever reads a half of it."""
    table = {"first": it.first, "last": it.last, "answered": dict(it.answered),
             "refuse": {str(change): why for change, why in it.refuse.items()},
             "repositories": {name: asdict(one) for name, one in it.repositories.items()}}
    file.parent.mkdir(parents=True, exist_ok=True)
    new = file.with_name(file.name + ".new")
    new.write_text(json.dumps(table) + "\n", encoding="utf-8")
    os.replace(new, file)


def read(file: Path) -> Compared | None:
    """What a file says; none where it isn't there, or isn't of this form."""
    try:
        return compared_of(json.loads(file.read_text(encoding="utf-8")))
    except (OSError, ValueError, KeyError, TypeError, AttributeError):
        return None


def compared_of(table: dict[str, Any]) -> Compared:
    repositories = {
        str(name): Repository(int(it["waiting"]), moment_of(it["began"]), moment_of(it.get("looked")))
        for name, it in table["repositories"].items()}
    first, last = (it if it is None else str(it) for it in (table["first"], table["last"]))
    answered = {str(name): int(times) for name, times in table.get("answered", {}).items()}
    return Compared(first, last, repositories, {int(change): str(why) for change, why in table["refuse"].items()},
                    answered)


def moment_of(said: Mapping[str, Any] | None) -> Moment | None:
    return None if said is None else Moment(str(said["boot"]), float(said["uptime"]))


@dataclass(frozen=True)
class Restored:
    """When it was first seen that the gate was restored, if it was; and whether the adapter hasn't seen that yet."""
    at: Moment | None
    is_unseen: bool


class Comparison:
    """What a queue's lander asks before each push. Its notes have the restore that it saw last."""

    def __init__(self, queue: str, settings: Settings, gate: Gate, notes: Notes) -> None:
        self.queue, self.settings, self.gate, self.notes = queue, settings, gate, notes
        self.repositories = list(dict.fromkeys(it.forge for it in settings.projects_of(queue)))
        self.file = file_in(settings.folder)

    def why_refused(self, order: Order, first: str | None) -> str | None:
        """Why an order is to be refused, or none where it may land, given the gate's first delivery; else `Waits`."""
        if not self.settings.has_adapter:
            return None
        left = read(self.file)
        if left is None:
            raise Waits(f"it hasn't left {self.file} yet")
        if left.first != first:
            raise Waits("it hasn't seen yet which file the gate has")
        restored = self.restored(left.last)
        if restored.is_unseen:
            raise Waits("it hasn't seen yet that the gate was restored")
        now = Moment.now()
        for name in self.repositories:
            why, since = self.why_waiting(left.repositories.get(name), restored.at, now)
            if why is not None:
                raise Waits(why.format(name), since)
        return left.refuse.get(order.change)

    def why_waiting(self, it: Repository | None, restored: Moment | None, now: Moment
                    ) -> tuple[str | None, Moment | None]:
        """What is still to be done of a repository before anything lands, with a place for its name; and since when a
        comparison of it is wanted, where its last one began before."""
        if it is None or it.began is None or it.began.boot != now.boot:
            return "it hasn't compared {} yet", None
        if restored is not None and restored.boot == now.boot and it.began.uptime <= restored.uptime:
            return "it hasn't compared {} since the gate was restored", restored
        if now.uptime - it.began.uptime > self.settings.blind:
            return f"it hasn't compared {{}} for more than {self.settings.blind:.0f} seconds", None
        return ("the gate hasn't answered yet what it is told of {}" if it.waiting else None), None

    def restored(self, told: str | None) -> Restored:
        """What is known of restores, given the delivery that the adapter told last. The gate was restored where it has
        lost that one, or the one that this lander told last."""
        name, lost = f"restored {self.queue}", []
        for last in (self.notes.get(f"last {self.queue}"), told):
            if last is not None and not self.gate.knows(last):
                lost.append(last)
        noted = self.notes.get(name)
        if not set(lost) <= set(noted["lost"] if noted else ()):
            noted = {"lost": lost, **asdict(Moment.now())}
            self.notes.put(name, noted)
        return Restored(noted and Moment(noted["boot"], noted["uptime"]), told in lost)
