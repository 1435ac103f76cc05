"""The troubles of a day, by a seed: parts that are killed at random moments."""
from __future__ import annotations

import random
import threading
from collections.abc import Sequence

from companions.tests.day.stage import Stage

KILLS = 22


class Trouble(threading.Thread):
    """Does something beside what a day does, until it is ended."""

    def __init__(self) -> None:
        super().__init__(daemon=True)
        self.over = threading.Event()
        self.fault: Exception | None = None

    def run(self) -> None:
        try:
            self.go()
        except Exception as fault:  # pylint: disable=broad-except
            self.fault = fault

    def go(self) -> None:
        """What is done. Whoever waits waits for `over`."""
        raise NotImplementedError

    def end(self) -> None:
        """No more of it; what went wrong in this thread goes wrong here."""
        self.over.set()
        if self.is_alive():
            self.join()
        if self.fault is not None:
            raise self.fault


class Kills(Trouble):
    """Kills one part after another, and starts it again, most often at once. `more` are killed more often."""

    def __init__(self, stage: Stage, chance: random.Random, more: Sequence[str] = ()) -> None:
        super().__init__()
        self.stage, self.chance, self.more = stage, chance, more

    def go(self) -> None:
        # Each part is killed at least twice.
        names = [*self.stage.programs, "gate", "nginx"] * 2 + [*self.more]
        names += self.chance.choices(names, k=max(0, KILLS - len(names)))
        self.chance.shuffle(names)
        for name in names:
            if self.over.wait(self.chance.uniform(0.3, 2.2)):
                return
            self.kill(name)

    def kill(self, name: str) -> None:
        with self.stage.lock:
            self.stage.note(f"kill {name}")
            self.stage.kill(name)
            self.over.wait(self.chance.choice((0.0, 0.0, 0.2, 0.8)))
            self.stage.start(name)
            if name == "gate":
                self.stage.await_gate()
