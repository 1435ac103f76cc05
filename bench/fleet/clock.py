"""Virtual time: what is to happen, in order; and a line about it on standard error now and then."""
import heapq
import math
import sys
import time


class Clock:
    def __init__(self, end, name=""):
        self.now, self.end, self.name = 0.0, end, name
        self.events, self.count = [], 0
        self.closed = (0.0, 0.0)
        self.spoke = time.monotonic()

    def at(self, when, what, *words):
        """Two events of the same moment come in the order in which they were asked for."""
        self.count += 1
        heapq.heappush(self.events, (max(when, self.now), self.count, what, words))

    def go(self, told=lambda: ""):
        """All events up to the end; those that fall between the two times of `closed` come at the second."""
        while self.events and self.events[0][0] <= self.end:
            when, count, what, words = heapq.heappop(self.events)
            if self.closed[0] <= when < self.closed[1]:
                heapq.heappush(self.events, (self.closed[1], count, what, words))
                continue
            self.now = when
            what(*words)
            if time.monotonic() - self.spoke > 5:
                self.spoke = time.monotonic()
                hours = f"{self.now / 3600:.1f} of {self.end / 3600:.0f} hours"
                print(f"{self.name}: {hours}, {told()}", file=sys.stderr, flush=True)


def next_tick(now, period, phase=0.0):
    """The first moment after `now` of those that come once a period."""
    return phase + (math.floor((now - phase) / period) + 1) * period
