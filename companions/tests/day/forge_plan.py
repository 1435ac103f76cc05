"""The plan of a day with a forge, by its seed: what is done to which requests."""
from __future__ import annotations

import random
from typing import Any

from companions.tests.day.developers import Change, Step, shuffled
from companions.tests.day.forge_developers import Proposal

# What a landing has at its end, as somebody writes it.
FORGED = "Gate-Queue: web\nGate-Place: 1\nGate-Change: 1\nGate-Revision: 1"


class Plan:
    """The requests of a day, and their steps. `past` is merged past the gate, by an act of its own."""

    def __init__(self, chance: random.Random) -> None:
        self.chance = chance
        self.numbers = {n: self.make(100 + n, "lib", f"numbers/{n}", "a number") for n in range(3, 6)}
        self.past = self.make(264, "site", "style-past", "plain", lands=None)
        early, late = [*self.ordinary(), *self.fickle(), *self.odd()], self.late()
        self.early, self.late_steps = shuffled(chance, early), shuffled(chance, late)

    def make(self, number: int, project: str, name: str, content: str, **more: Any) -> Proposal:
        return Proposal(number, project, {name: content}, **more)

    def good(self, number: int, project: str, name: str, *names: Proposal) -> list[Step]:
        return steps(self.make(number, project, name, "good", names=names), "open", "approve")

    def bad(self, number: int, project: str, name: str, content: str, *names: Proposal) -> list[Step]:
        change = self.make(number, project, name, content, names=names, lands=False, broken={1})
        return steps(change, "open", "approve")

    def ordinary(self) -> list[list[Step]]:
        """Requests that are opened and approved: good ones, broken ones, and two that conflict."""
        many = self.make(151, "lib", "numbers/500", "many", lands=False, broken={1})
        rows = [steps(many, "open", "approve"), self.bad(152, "app", "uses/98", "once"),
                self.bad(250, "site", "page", "broken"), self.bad(153, "app", "uses/500", "once", many)]
        for n, number in self.numbers.items():
            rows += [steps(number, "open", "approve"), self.good(120 + n, "app", f"uses/{n}", number),
                     self.good(200 + n, "site", f"number-{n}", *([number] if self.chance.random() < 0.7 else []))]
        # One of them lands, or, where builds were lost, none.
        for at, title in ((253, "One title"), (254, "Another title")):
            rows.append(steps(self.make(at, "site", "title", title, lands=None), "open", "approve"))
        return rows

    def fickle(self) -> list[list[Step]]:
        """Requests whose people change their minds, of what is pushed, where it is to go, or whether at all."""
        broken = steps(self.make(154, "app", "uses/99", "once", broken={1}), "open", "approve")
        mended = Step("push", broken[0].change, (("uses/2", "once"),))
        forth = self.make(166, "lib", "numbers/9", "nine", broken={2})
        hasty = self.make(168, "lib", "numbers/10", "ten", lands=None)
        return [
            [*broken, mended, *steps(broken[0].change, "approve")],
            steps(self.make(251, "site", "style-w", "plain"), "open", "approve", "withdraw", "approve"),
            steps(self.make(252, "site", "style-c", "plain", lands=None), "open", "approve", "close"),
            steps(self.make(262, "site", "style-r", "plain"), "open", "approve", "close", "reopen", "approve"),
            steps(self.make(266, "site", "style-d", "plain"), "open", "approve", "draft", "ready", "approve", "rename"),
            steps(self.make(160, "lib", "numbers/7", "seven"), "open", "approve", "aside", "home", "approve"),
            steps(self.make(161, "lib", "numbers/8", "eight"), "open", "approve", "across", "approve"),
            [*steps(forth, "open"), Step("push", forth, (("numbers/600", "many"),)), *steps(forth, "back", "approve")],
            [*steps(hasty, "open", "approve"), Step("push_late", hasty, (("numbers/11", "eleven"),))],
            steps(self.make(270, "site", "style-o", "plain"), "open", "approve", "oppose", "consent")]

    def odd(self) -> list[list[Step]]:
        """Requests with odd texts, votes of who may not, and needs that are none to the gate.

        The first request of lib was merged before there was a gate.
        """
        return [
            steps(self.make(163, "app", "uses/1", "twice", names=(self.past,), later=(self.numbers[3],)),
                  "open", "edit", "approve"),
            steps(self.make(265, "site", "style-n", "plain", names=(self.past,), text=FORGED), "open", "approve"),
            steps(self.make(269, "site", "style-g", "plain", text="Depends-On: what we said"),
                  "open", "admire", "approve"),
            steps(self.make(171, "app", "notes", "new", text="Depends-On: acme/lib#1"), "open", "approve"),
            steps(self.make(172, "lib", "names", "new", is_fork=True), "open", "approve")]

    def late(self) -> list[list[Step]]:
        """What is done once the project `tool` is there."""
        nails, number = self.make(301, "tool", "nails", "many"), self.make(106, "lib", "numbers/6", "a number")
        return [steps(nails, "open", "approve"), self.good(302, "tool", "saw", nails, self.numbers[3]),
                self.bad(303, "tool", "tool", "a stone"), self.good(206, "site", "number-6", nails),
                steps(number, "open", "approve"), self.good(126, "app", "uses/6", number, self.numbers[3])]


def steps(change: Change, *what: str) -> list[Step]:
    return [Step(it, change) for it in what]
