"""Whether the gate still wants a build: this is looked at now and then, while a worker has it."""
from __future__ import annotations

import time
from collections.abc import Callable
from typing import Any

from companions.gate import Gate, NoAnswer

Reply = dict[str, Any]
# What tells one build from another that the gate gave the same number.
NAMED = ("build", "queue", "change", "revision", "job", "after", "ahead")


class Unwanted(Exception):
    """The gate doesn't want the build any more."""


class Look:
    """Looks, now and then, whether the gate still wants a build."""

    def __init__(self, gate: Gate, reply: Reply, every: float) -> None:
        self.gate, self.reply, self.every = gate, reply, every
        self.due = time.monotonic() + every

    def wanted(self) -> bool:
        """Whether the gate has this build, and wants its result. Where the gate is silent, nothing is known: it may.

        A build that somebody else has reported, as the watch, has its outcome: another result of it would be stale.
        """
        self.due = time.monotonic() + self.every
        try:
            shown = self.gate.build(self.reply["build"])
        except NoAnswer:
            return True
        if shown is None:
            return False
        if not isinstance(shown, dict) or "live" not in shown:
            return True
        alike = all(shown.get(it) == self.reply[it] for it in NAMED)
        return alike and shown["live"] is True and shown.get("outcome", "running") == "running"

    def check(self) -> None:
        """`Unwanted` where a look is due, and the gate doesn't want the build."""
        if time.monotonic() >= self.due:
            self.check_now()

    def check_now(self) -> None:
        if not self.wanted():
            raise Unwanted


class Waiting:
    """What a worker does while it waits for what a build needs: it says so once, and looks whether that is wanted."""

    def __init__(self, say: Callable[[str], None], look: Look, pause: float) -> None:
        self.say, self.look, self.pause, self.said = say, look, pause, ""

    def wait(self, what: str) -> None:
        if what != self.said:
            self.say(f"build {self.look.reply['build']}: {what}")
            self.said = what
        time.sleep(self.pause)
        self.look.check()
