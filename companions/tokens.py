"""When a forge's token ends, which GitHub says with each answer."""
from __future__ import annotations

import time
from collections.abc import Callable
from datetime import datetime, timezone

from companions.gate import say

HEADER = "GitHub-Authentication-Token-Expiration"
WEEK, DAY = 7 * 86400.0, 86400.0


class Ending:
    """Tells of a token that ends within a week, once a day. `today` is the clock of the day, and `clock` one that
    nobody sets."""

    def __init__(self, today: Callable[[], float] = time.time, clock: Callable[[], float] = time.monotonic) -> None:
        self.today, self.clock, self.due = today, clock, float("-inf")

    def see(self, said: str) -> None:
        """A header's text, such as `2026-12-04 09:30:00 UTC`. One of another form says nothing."""
        try:
            at = datetime.strptime(said.replace("UTC", "+0000"), "%Y-%m-%d %H:%M:%S %z")
        except ValueError:
            return
        left = at.timestamp() - self.today()
        if left > WEEK or self.clock() < self.due:
            return
        self.due = self.clock() + DAY
        when = f"{at.astimezone(timezone.utc):%Y-%m-%d %H:%M} UTC"
        say("adapter", f"the token ends at {when}, in {max(0, int(left // 3600))} hours: make a new one, write it to"
                       " adapter.token, and restart the adapter")
