"""What the lander answers the adapter and the watch, in a small file of the folder that they share.

`lander/answers.json` says of each queue why it is stopped, and since when a comparison is waited for; which refs aren't
the commits that were approved, so that the adapter sets them right; and why orders were answered `refused`, for the
comments on their requests.
"""
from __future__ import annotations

import json
import os
import re
import threading
from collections.abc import Container
from dataclasses import asdict, dataclass, field
from pathlib import Path
from typing import Any

from companions.moments import Moment

# So many of each list are kept, the newest ones: people who are told later than that look at the lander's log.
MOST = 200
# So much of a text is told.
LONGEST = 4000


@dataclass(frozen=True)
class Wrong:
    """A revision whose ref is gone, or names another commit than the one that was approved."""
    change: int
    revision: int
    project: str

    @property
    def name(self) -> str:
        """By what an adapter answers it."""
        return f"{self.change}/{self.revision}"


@dataclass(frozen=True)
class Refusal:
    """Why the order of a revision was answered `refused`."""
    change: int
    revision: int
    why: str


@dataclass(frozen=True)
class Said:
    """All that a lander has answered. A queue that isn't stopped has none in the place of a text.

    `since` has the queues that wait for a comparison of their repositories which began after a moment.
    """
    stopped: dict[str, str | None] = field(default_factory=dict)
    wrong: tuple[Wrong, ...] = ()
    refused: tuple[Refusal, ...] = ()
    since: dict[str, Moment] = field(default_factory=dict)

    def why_refused(self, change: int, revision: int) -> str | None:
        """Why the last order of a revision was refused, if the lander said so."""
        whys = (it.why for it in reversed(self.refused) if (it.change, it.revision) == (change, revision))
        return next(whys, None)


def file_in(folder: Path) -> Path:
    """The lander's answers in the companions' folder."""
    return folder / "lander" / "answers.json"


def read(file: Path) -> Said:
    """What a file says; nothing where it isn't there, or isn't of this form."""
    try:
        return said_of(json.loads(file.read_text(encoding="utf-8")))
    except (OSError, ValueError, KeyError, TypeError, AttributeError):
        return Said()


def said_of(table: dict[str, Any]) -> Said:
    stopped = {str(queue): None if it["stopped"] is None else str(it["stopped"])
               for queue, it in table["queues"].items()}
    wrong = tuple(Wrong(int(it["change"]), int(it["revision"]), str(it["project"])) for it in table["wrong"])
    refused = tuple(Refusal(int(it["change"]), int(it["revision"]), str(it["why"])) for it in table["refused"])
    since = {str(queue): Moment(str(it["since"]["boot"]), float(it["since"]["uptime"]))
             for queue, it in table["queues"].items() if it.get("since") is not None}
    return Said(stopped, wrong, refused, since)


def public(text: str) -> str:
    """A text as anybody may read it: git's words have addresses, which may have a password in them."""
    return re.sub(r"(?<=://)[^/@\s]*@", "", text)[:LONGEST]


class Answers:
    """The lander's side. Each of its queues may answer at any time, from a thread of its own.

    What was answered before the lander was started stays: a queue that was stopped is, until it has landed again or
    was found to be fine.
    """

    def __init__(self, folder: Path) -> None:
        self.file, self.lock = file_in(folder), threading.Lock()
        said = read(self.file)
        self.queues = {queue: (why, said.since.get(queue)) for queue, why in said.stopped.items()}
        self.wrong, self.refused = list(said.wrong), list(said.refused)

    def stop(self, queue: str, why: str | None, since: Moment | None = None) -> None:
        """A queue is stopped for a cause, or goes on. It may wait for a comparison since a moment."""
        why = None if why is None else public(why)
        with self.lock:
            if self.queues.get(queue) != (why, since):
                self.queues[queue] = why, since
                self.write()

    def is_wrong(self, change: int, revision: int, project: str) -> None:
        """The adapter has to set right the ref of a revision."""
        it = Wrong(change, revision, project)
        with self.lock:
            if it not in self.wrong:
                self.wrong = [*self.wrong, it][-MOST:]
                self.write()

    def is_right(self, change: int, revision: int) -> None:
        """The ref of a revision is what it has to be, or its order is over."""
        with self.lock:
            left = [it for it in self.wrong if (it.change, it.revision) != (change, revision)]
            if left != self.wrong:
                self.wrong = left
                self.write()

    def is_over(self, projects: Container[str]) -> None:
        """No order of these projects is shown: nobody has to look after their refs any more."""
        with self.lock:
            left = [it for it in self.wrong if it.project not in projects]
            if left != self.wrong:
                self.wrong = left
                self.write()

    def refuse(self, change: int, revision: int, why: str) -> None:
        """The order of a revision is about to be answered `refused`."""
        with self.lock:
            others = [it for it in self.refused if (it.change, it.revision) != (change, revision)]
            self.refused = [*others, Refusal(change, revision, public(why))][-MOST:]
            self.write()

    def write(self) -> None:
        """Writes beside and renames: so nobody ever reads a half of it."""
        table = {"queues": {queue: {"stopped": why, "since": since and asdict(since)}
                            for queue, (why, since) in self.queues.items()},
                 "wrong": [asdict(it) for it in self.wrong], "refused": [asdict(it) for it in self.refused]}
        self.file.parent.mkdir(parents=True, exist_ok=True)
        new = self.file.with_name(self.file.name + ".new")
        new.write_text(json.dumps(table) + "\n", encoding="utf-8")
        os.replace(new, self.file)
