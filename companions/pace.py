"""How much may be written at a forge by now: forges bound it by the minute and by the hour."""
from __future__ import annotations

from companions.moments import Moment
from companions.outbox import Notes

MINUTE, HOUR = 60.0, 3600.0
# The note that has the moments of the last hour's writes.
WRITES = "writes"


class Pace:
    """Counts writes, also over restarts, of which there may be many in an hour. There are at most so many a minute, and
    so many an hour if that is bounded."""

    def __init__(self, notes: Notes, minute: int, hour: int | None) -> None:
        self.notes, self.minute, self.hour = notes, minute, hour
        noted = notes.get(WRITES) or {"boot": "", "times": []}
        self.boot: str = noted["boot"]
        self.times: list[float] = noted["times"]

    def left(self, now: Moment, part: float = 1.0) -> int:
        """How many more may be written at this moment, of those that have a part of the hour's."""
        if self.boot != now.boot:
            # Nobody knows how long ago the machine was started anew: they count as those of now.
            self.boot, self.times = now.boot, [now.uptime] * len(self.times)
        self.times = [it for it in self.times if now.uptime - it < HOUR]
        of_minute = self.minute - sum(now.uptime - it < MINUTE for it in self.times)
        return of_minute if self.hour is None else min(of_minute, int(self.hour * part) - len(self.times))

    def count(self, now: Moment) -> None:
        """One is about to be written. Call it behind `left` at this moment."""
        self.times.append(round(now.uptime, 1))
        self.notes.put(WRITES, {"boot": self.boot, "times": self.times[-(self.hour or self.minute):]})
