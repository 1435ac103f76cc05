"""Who fails rests, and longer each time, so that what fails leaves calls and time to what doesn't."""
from __future__ import annotations

from collections import deque

HOUR = 3600.0


class Hourly:
    """Counts what is done, by a clock that only goes forward: there are bounds for an hour."""

    def __init__(self) -> None:
        self.times = deque[float]()

    def count(self, now: float) -> None:
        self.times.append(now)

    def is_below(self, most: int, now: float) -> bool:
        """Whether fewer than so many were done in the last hour."""
        while self.times and now - self.times[0] >= HOUR:
            self.times.popleft()
        return len(self.times) < most


class Paces:
    """Names of which each is done as often as somebody wants, `free` times in an hour, and then every `gap` seconds."""

    def __init__(self, free: int, gap: float) -> None:
        self.free, self.gap = free, gap
        self.of_name: dict[str, Hourly] = {}

    def count(self, name: str, now: float) -> None:
        """It is done. Those are forgotten of which nothing was for an hour."""
        for it in [it for it, done in self.of_name.items() if done.is_below(1, now)]:
            del self.of_name[it]
        self.of_name.setdefault(name, Hourly()).count(now)

    def is_often(self, name: str, now: float) -> bool:
        """Whether it was done so many times in the last hour."""
        done = self.of_name.get(name)
        return done is not None and not done.is_below(self.free, now)

    def waits(self, name: str, now: float) -> bool:
        return self.is_often(name, now) and now - self.of_name[name].times[-1] < self.gap


class Rests:
    """Rests of names, by a clock that only goes forward. The first rest takes `first` seconds, and each one behind it
    twice as many as the one before, up to `longest`."""

    def __init__(self, first: float, longest: float) -> None:
        self.first, self.longest = first, max(first, longest)
        self.of_name: dict[str, tuple[float, int]] = {}

    def failed(self, name: str, now: float) -> None:
        """It has failed once more, and rests from now on."""
        times = self.times(name) + 1
        self.of_name[name] = now + min(self.longest, self.first * 2.0 ** min(times - 1, 60)), times

    def over(self, name: str) -> None:
        """It went well."""
        self.of_name.pop(name, None)

    def is_resting(self, name: str, now: float) -> bool:
        return self.of_name.get(name, (0.0, 0))[0] > now

    def times(self, name: str) -> int:
        """How often it has failed since it went well."""
        return self.of_name.get(name, (0.0, 0))[1]

    def end_all(self) -> None:
        """Nothing rests any more, and all goes on as often failed as it is."""
        self.of_name = {name: (0.0, times) for name, (_, times) in self.of_name.items()}
