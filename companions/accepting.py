"""Whether a gate accepts deliveries, which its answers to questions don't show: with a full disk it answers them all.

A delivery that somebody else has sent shows it. Where none came for a time, one is sent that changes nothing: the loss
of a build that has ended. The gate answers that it is stale, and keeps it.
"""
from __future__ import annotations

import json
import uuid

from companions.gate import Gate, NoAnswer, Status

# For how long an accepted delivery shows that the gate accepts, in seconds: while changes stand in a queue, and while
# none does. What is sent to find out is kept for ever. A gate that accepts nothing is asked more often, and so is one
# of which nothing is known.
BUSY, IDLE, REFUSING, UNKNOWN = 300.0, 3600.0, 10.0, 60.0
# The build that is reported as lost once it has ended.
BUILD = 1
# The status of E15.
UNAVAILABLE = 503


class Accepting:
    """What is known of a gate's accepting. `says` is none where nothing is known."""

    def __init__(self, standby: Gate, worker: Gate) -> None:
        self.standby, self.worker = standby, worker
        self.says: bool | None = None
        # An accepted delivery, when that was known, and one that the gate hasn't answered.
        self.last: str | None = None
        self.known_at: float | None = None
        self.waiting: str | None = None

    def look(self, status: Status, now: float) -> bool | None:
        """Whether the gate accepts by now, given its status; `NoAnswer` where it doesn't say."""
        by = {True: BUSY if any(it.items for it in status.queues) else IDLE, False: REFUSING, None: UNKNOWN}
        if self.known_at is not None and 0 <= now - self.known_at < by[self.says]:
            return self.says
        if self.says is False or not self.others():
            self.says = self.ask()
        self.known_at = now
        return self.says

    def others(self) -> bool:
        """Whether the gate has accepted something since."""
        lines = self.standby.lines(f"/deliveries/{self.last}") if self.last is not None else None
        if not lines:
            return False
        self.last = str(uuid.UUID(json.loads(lines[-1])["id"]))
        return True

    def ask(self) -> bool | None:
        """Asks by a delivery, the same one until it is answered."""
        build = self.worker.build(BUILD)
        if build is None or build["outcome"] == "running":
            return None
        self.waiting = self.waiting or str(uuid.uuid4())
        try:
            self.worker.post("worker", {"id": self.waiting, "kind": "result", "build": BUILD, "outcome": "lost"})
        except NoAnswer as fault:
            if fault.status != UNAVAILABLE:
                raise
            return False
        self.last, self.waiting = self.waiting, None
        return True
