"""Orders that the forge declines: how often they are tried, and what becomes of them then.

What the server refuses for good, by a hook or a rule, mustn't stop a queue for ever: the order is refused, with the
server's words for its author. Where it refuses the next change by the same words, the branch or the account is at
fault: then the queue is stopped, as every change would be refused.
"""
from __future__ import annotations

import re

from companions.gate import Order
from companions.outbox import Notes
from companions.repository import Declined, GitFault

# What differs between two tries of one order: hashes, times, and numbers that the server counts.
VARYING = re.compile(r"[0-9a-f]{7,64}|[0-9]+")


class Tries:
    """What a queue's lander knows of orders that were declined, over its restarts."""

    def __init__(self, queue: str, most: int, notes: Notes) -> None:
        self.name, self.most, self.notes = f"declined {queue}", most, notes

    def declined(self, order: Order, fault: Declined) -> str:
        """The forge has declined an order: why it is to be refused. Else it is tried again, and `GitFault` says why."""
        noted = self.notes.get(self.name) or {}
        refused = noted.get("refused")
        if refused is not None and refused["change"] != order.change and refused["words"] == fault.words:
            raise GitFault(f"the forge declines change {order.change} by the same words as change {refused['change']},"
                           f" so the branch or the account is at fault: {fault.words}")
        tried = {"change": order.change, "revision": order.revision, "words": VARYING.sub("#", fault.words)}
        same = all(noted.get(name) == value for name, value in tried.items())
        times = noted["times"] + 1 if same else 1
        if times < self.most:
            self.notes.put(self.name, {**tried, "times": times, "refused": refused})
            raise fault
        self.notes.put(self.name, {"refused": {"change": order.change, "words": fault.words}})
        return f"the forge declines it: {fault.words}"

    def landed(self) -> None:
        """The forge has taken a push: nothing is at fault."""
        if self.notes.get(self.name) is not None:
            self.notes.drop(self.name)
