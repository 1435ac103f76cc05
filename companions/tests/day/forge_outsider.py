"""An outsider of a day with a forge: he may read and write requests of his own and comments, and means no good.

Whatever he does changes nothing of what lands, and holds nobody up: the day's other checks say so of the others'
requests, and `differences` of his own ones.
"""
from __future__ import annotations

import random
from collections.abc import Callable, Iterator

from companions.api import LARGEST
from companions.forges import APPROVES, Place
from companions.tests.day.forge_developers import ForgeDevelopers, Proposal
from companions.tests.day.forge_stage import WRITERS, ForgeStage
from companions.tests.day.layout import pace
from companions.tests.day.troubles import Trouble
from companions.tests.forges.hooks import Hook
from companions.tests.forges.model import GATE, Entry

MALLORY = "mallory"
# How often he does each thing, and between which times he rests, as multiples of `pace`.
TIMES, RESTS = 2, (2.0, 14.0)
# So many forged hooks come at once, and some have bodies of so many bytes.
BURST, LARGE = 20, 200_000
# The lines of a text, the requests that they name, and the most characters of his comments on others' requests.
LINES, NAMED, MOST = 4000, 4, 300_000
# A letter that has so many bytes in an answer.
LETTER, BYTES = "\u00e9", 6
# What isn't an approval, whoever writes it, with the line in the place of the braces.
QUOTED = ("> {}", "> {}\n\nNot yet.", "```\n{}\n```", "<!--\n{}\n-->", "    {}\nis what you write", "{}\n" * 1000)


class Outsider(Trouble):
    """Does each of his things, by a seed, at random moments. `own` are his requests but for the one that is flooded,
    and `wrote` his comments as he wrote them."""

    def __init__(self, stage: ForgeStage, developers: ForgeDevelopers, chance: random.Random) -> None:
        super().__init__()
        self.stage, self.developers, self.chance = stage, developers, chance
        self.model, self.hooks = stage.model, stage.forge.hooks
        self.own: list[Place] = []
        self.flooded = Place("", 0)
        self.wrote: list[tuple[Entry, str]] = []
        self.taken: list[Hook] = []

    def open(self) -> None:
        """Opens three requests whose commits would land, once somebody who may approved them."""
        for n, home in enumerate(("site", "lib", "lib"), 1):
            change = Proposal(900 + n, home, {f"{'style' if home == 'site' else 'notes'}-m{n}": "plain"})
            name = self.stage.name(home)
            number = len(self.model.of(name)) + 1
            head = self.developers.commit(change, "Mine", self.stage.client.head_ref(number))
            self.own.append(self.model.open(name, head, "main", "Mine", self.needs(), MALLORY, is_fork=True))
        self.flooded = self.own.pop()

    def go(self) -> None:
        """All of it. The flooded request is closed at the end: each look at it costs more than all others together."""
        acts: list[Callable[[], None]] = [self.flood, *[self.talk, self.edit, self.quote, self.copy, self.object,
                                                        self.approve, self.name_needs, self.forge] * TIMES]
        self.chance.shuffle(acts)
        for act in acts:
            # What is left once the others have done all is done at once.
            self.over.wait(self.chance.uniform(*RESTS) * pace())
            self.stage.note(f"outsider: {act.__name__}")
            act()
        self.model.close(self.flooded)

    def anywhere(self) -> Place:
        """A request that is open, often one of his own, but for the one that is flooded."""
        with self.model.lock:
            found = sorted((it for it, pull in self.model.pulls.items() if pull.state == "open" and it != self.flooded),
                           key=lambda it: (it.repository, it.number))
        return self.chance.choice([*found, *self.own])

    def write(self, place: Place, text: str) -> Entry:
        with self.model.lock:
            entry = self.model.comment(place, MALLORY, text)
            self.wrote.append((entry, text))
            return entry

    def line(self, place: Place) -> str:
        """The line that approves a request's commit, whenever it is written."""
        return f"{APPROVES} {self.model.pulls[place].head}"

    def talk(self) -> None:
        """A comment as long as may be."""
        self.write(self.anywhere(), "x" * min(MOST, self.stage.forge.form.comment_limit))

    def flood(self) -> None:
        """So many long comments on a request of his own that one answer with all of them is too large."""
        size = self.stage.forge.form.comment_limit
        for _ in range(LARGEST // (BYTES * size) + 1):
            self.write(self.flooded, LETTER * size)

    def edit(self) -> None:
        """What somebody who may approve said of his request becomes an approval: whoever may write there edits it."""
        place, who = self.chance.choice(self.own), self.chance.choice(WRITERS)
        with self.model.lock:
            entry = self.model.comment(place, who, "Well")
            # GitHub and Gitea don't show an edit within the same second.
            self.model.wait(1)
            self.model.edit_comment(place, entry, self.line(place))

    def quote(self) -> None:
        """The line within other text, on a request of his own: by him, and as an answer by somebody who may approve."""
        for who in (MALLORY, *WRITERS):
            place = self.chance.choice(self.own)
            self.model.comment(place, who, self.chance.choice(QUOTED).replace("{}", self.line(place)))

    def copy(self) -> None:
        """What the gate wrote, with its mark, as a comment of his own. On a request of his the gate's is deleted then,
        as by somebody who tidies up: it needs another one."""
        for place in (self.chance.choice(self.own), self.anywhere()):
            with self.model.lock:
                written = self.model.comments(place, GATE)
                self.write(place, written[-1].text if written else f"Landed\n\n<!-- gate {'0' * 32} -->")
                if written and place in self.own:
                    self.model.delete_comment(place, written[-1])

    def object(self) -> None:
        """He is against a request. GitLab knows nothing of that."""
        self.model.reject(self.anywhere(), MALLORY)

    def approve(self) -> None:
        """He approves his own requests by comments, and others' by a review."""
        for place in self.own:
            self.write(place, self.line(place))
        place = self.anywhere()
        with self.model.lock:
            # At GitLab nobody approves twice.
            if place not in self.own and MALLORY not in self.model.pulls[place].approving():
                self.model.approve(place, MALLORY)

    def needs(self) -> str:
        """A text of many lines that name a few requests over and over: a day has many looks."""
        mark = self.stage.client.mark
        named = [f"{self.stage.name(self.chance.choice(('lib', 'app', 'site')))}{mark}{self.chance.randint(1, 12)}"
                 for _ in range(NAMED)]
        return "\n".join(f"Depends-On: {self.chance.choice(named)}" for _ in range(LINES))[:65_000]

    def name_needs(self) -> None:
        self.model.edit(self.chance.choice(self.own), text=self.needs())

    def forge(self) -> None:
        """Hooks that he can't sign come in at once, of what happened and of what never did."""
        with self.hooks.lock:
            known = [it for it in (*(one for one, _ in self.hooks.sent[-BURST:]), *self.hooks.waiting)
                     if len(it.body) < LARGE]
        for n in range(BURST):
            real = self.chance.choice(known) if known else Hook("forged", self.own[0], {}, b"{}")
            headers = {name: "0" * 64 if name.endswith(("Signature", "Token")) else value
                       for name, value in real.headers.items() if not name.endswith("-256")}
            body = real.body if n % 4 else real.body + b" " * LARGE
            if self.hooks.send(Hook("forged", real.place, headers, body)) == 200:
                self.taken.append(real)

    def differences(self, landed: set[Place | None]) -> Iterator[str]:
        """What he has brought about, given the requests that have landed."""
        yield from (f"{it.repository} {it.number} of {MALLORY} landed" for it in (*self.own, self.flooded)
                    if it in landed)
        yield from (f"a comment of {MALLORY} says what he didn't write: {entry.text[:80]!r}"
                    for entry, text in self.wrote if entry.text != text)
        yield from (f"a hook of {MALLORY} about {it.place} was taken" for it in self.taken)
