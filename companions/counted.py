"""What a gate has done, counted while the watch looks at it: how long landings took, what left and why, what was built
in vain.

It counts from the first look on, so what was before costs nothing. A look that finds nothing new asks for nothing more
than the watch does, but now and then for what left the queues. All counts are kept over restarts, and over another file
of the gate.
"""
from __future__ import annotations

import json
from typing import Any

from companions.gate import Gate, NoAnswer, QueueStatus, Status, expected
from companions.moments import Moment
from companions.outbox import Notes

# The note that has all of it.
COUNTS = "counts"
# The longest times of a histogram's buckets, in seconds: from a minute to a day.
BUCKETS = (60, 120, 300, 600, 900, 1800, 3600, 7200, 14400, 28800, 86400)
VERDICTS = ("landed", "failed", "refused", "needs", "superseded", "withdrawn", "closed")
# A look asks about so many items that have left, and so many wait to be asked about.
QUESTIONS, WAITING = 20, 1000
# So often the histories are asked for where nothing seems to have left, and so long ago the look before may have been
# where a change is new by that of now, in seconds.
EVERY, GAP = 60.0, 60.0
# A place in a history behind all others.
END = 10 ** 15

Counts = dict[str, Any]


class Counted:
    """The counts of a gate. `counts` has, by queue, how items `left` by their verdict, which jobs `failed`, which
    builds were `discarded` by job, how often the window `shrank`, and how long landings `took`."""

    def __init__(self, gate: Gate, notes: Notes) -> None:
        self.gate, self.notes = gate, notes
        noted = notes.get(COUNTS) or {}
        self.counts: Counts = {name: noted.get(name, {}) for name in ("left", "failed", "discarded", "shrank", "took")}
        # The last report of each queue that was counted, its place and its words; items to ask about; and since when
        # each change at a revision is approved, in one boot, none where that was before somebody looked.
        self.last: dict[str, list[str]] = noted.get("last", {})
        self.asks: list[list[Any]] = noted.get("asks", [])
        self.approved: dict[str, float | None] = noted.get("approved", {})
        self.boot = noted.get("boot", "")
        self.written = ""
        self.before: Status | None = None
        self.looked = self.followed = float("-inf")

    def look(self, status: Status, at: Moment) -> None:
        """Counts what is new. What the gate doesn't answer is counted later."""
        if at.boot != self.boot:
            self.boot, self.approved = at.boot, {}
            self.looked = self.followed = float("-inf")
        try:
            self.note_approvals(status, at.uptime)
            if self.before is None or has_left(self.before, status) or at.uptime - self.followed >= EVERY:
                for queue in status.queues:
                    self.follow(queue.name, at.uptime)
                self.followed = at.uptime
            self.note_windows(status)
            self.before, self.looked = status, at.uptime
            self.drop_approvals(status)
            self.ask()
        finally:
            self.write()

    def write(self) -> None:
        now = {**self.counts, "last": self.last, "asks": self.asks, "approved": self.approved, "boot": self.boot}
        text = json.dumps(now)
        if text != self.written:
            self.notes.put(COUNTS, now)
            self.written = text

    def note_approvals(self, status: Status, now: float) -> None:
        """Notes since when changes are approved: those that are new, since now, unless nobody has looked for long."""
        since = now if now - self.looked <= GAP else None
        for key in keys_of(status):
            self.approved.setdefault(key, since)

    def drop_approvals(self, status: Status) -> None:
        keys = {*keys_of(status)}
        for key in [it for it in self.approved if it not in keys]:
            del self.approved[key]

    def note_windows(self, status: Status) -> None:
        before = {it.name: it.window for it in self.before.queues} if self.before is not None else {}
        for it in status.queues:
            shrank = self.counts["shrank"].get(it.name, 0)
            self.counts["shrank"][it.name] = shrank + (0 < it.window < before.get(it.name, 0))

    def follow(self, queue: str, now: float) -> None:
        """Counts what has left a queue since the last report that was counted. Where that doesn't stand there as it
        did, the gate has another file, or an earlier state of its own: what is there by now isn't counted."""
        self.counts["left"].setdefault(queue, dict.fromkeys(VERDICTS, 0))
        while True:
            last = self.last.get(queue)
            if last is None:
                self.begin(queue)
                return
            rows = self.rows(f"/history/{queue}/{max(1, int(last[0]))}")[0]
            if last[0] != "0" and rows[:1] != [last]:
                del self.last[queue]
                continue
            news = rows if last[0] == "0" else rows[1:]
            for row in news:
                self.count(queue, row, now)
                self.last[queue] = row
            if len(rows) < 1000:
                return

    def begin(self, queue: str) -> None:
        """Notes the last report of a queue, behind which it is counted."""
        count = self.rows(f"/history/{queue}/{END}")[1]
        path = f"/history/{queue}/{count}"
        rows = self.rows(path)[0] if count else [["0"]]
        if not rows:
            raise NoAnswer(f"GET {path}: another file than at the question before")
        self.last[queue] = rows[0]

    def rows(self, path: str) -> tuple[list[list[str]], int]:
        """The reports of a history from a place on, each by its words, and how many there are in all."""
        with expected(path):
            head, *rows, end, _ = (self.gate.get(path) or b"history\nend 0\n").decode("utf-8", "replace").split("\n")
            word, number = end.split()
            if word != "end" or not head.startswith("history"):
                raise NoAnswer(f"GET {path}: a cut text")
            return [[str(int(words[0])), *words[1:6]] for words in (row.split() for row in rows)], int(number)

    def count(self, queue: str, row: list[str], now: float) -> None:
        """Counts a report."""
        _, order, change, revision, verdict, _ = row
        left = self.counts["left"][queue]
        left[verdict] = left.get(verdict, 0) + 1
        self.asks = [*self.asks, [queue, int(order), verdict]][-WAITING:]
        key = f"{change}/{revision}"
        # What came and went since the look before was approved since then.
        since = self.approved.pop(key, self.looked if now - self.looked <= GAP else None)
        if verdict == "landed" and since is not None:
            self.observe(queue, now - since)

    def observe(self, queue: str, seconds: float) -> None:
        took = self.counts["took"].setdefault(queue, {"buckets": [0] * len(BUCKETS), "sum": 0.0, "count": 0})
        took["buckets"] = [number + (seconds <= most) for number, most in zip(took["buckets"], BUCKETS)]
        took["sum"], took["count"] = round(took["sum"] + seconds, 3), took["count"] + 1

    def ask(self) -> None:
        """Asks about items that have left: which of their jobs failed, and which builds didn't count."""
        for queue, order, verdict in self.asks[:QUESTIONS]:
            path = f"/items/{order}"
            with expected(path):
                said = self.gate.json(path)
                # Another file of the gate may have another item of this number, or none.
                builds = said["builds"] if said is not None and said["queue"] == queue else []
                discarded = [str(it["job"]) for it in builds if not it["live"]]
                failed = failed_of(builds) if verdict == "failed" else []
            for job in discarded:
                add(self.counts["discarded"], queue, job)
            for job in failed:
                add(self.counts["failed"], queue, job)
            self.asks = self.asks[1:]


def keys_of(status: Status) -> list[str]:
    """The changes that are approved, each at its revision."""
    return [*(f"{row[1]}/{row[2]}" for it in status.queues for row in it.items),
            *(f"{change}/{revision}" for change, revision in status.waiting)]


def has_left(before: Status, now: Status) -> bool:
    """Whether something seems to have left a queue."""
    def orders(queue: QueueStatus) -> set[str]:
        return {row[0] for row in queue.items}

    known = {it.name: it for it in before.queues}
    return any(it.name not in known or it.landed != known[it.name].landed or orders(known[it.name]) - orders(it)
               for it in now.queues)


def failed_of(builds: list[dict[str, Any]]) -> list[str]:
    """The jobs that failed by the builds that count: with a failure and no success, or with three that were lost."""
    outcomes: dict[str, list[str]] = {}
    for it in builds:
        if it["live"]:
            outcomes.setdefault(it["job"], []).append(it["outcome"])
    return [job for job, by in outcomes.items() if "success" not in by and ("failure" in by or by.count("lost") >= 3)]


def add(counts: Counts, queue: str, job: str) -> None:
    of_queue = counts.setdefault(queue, {})
    of_queue[job] = of_queue.get(job, 0) + 1
