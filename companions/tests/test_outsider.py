"""The outsider of the days with a forge, without a day: what he does is the same by each seed, nothing follows from it
for anybody's request, no hook of his is read, and what he might bring about is found."""
from __future__ import annotations

import json
import random
import unittest
from dataclasses import replace
from datetime import timedelta
from types import SimpleNamespace
from typing import Any

from companions.forges import APPROVES, Place, mark_of
from companions.needs import Known, needs_of
from companions.requests import Request, Revision, State, Told, tellings
from companions.settings import FORMS
from companions.tests.day.forge_outsider import BURST, MALLORY, NAMED, TIMES, Outsider
from companions.tests.day.forge_stage import WRITERS
from companions.tests.forges import StandInForge
from companions.tests.forges.model import BEGIN, GATE
from companions.tests.standin import StandIn

HEAD = "1" * 40
NAMES = ("acme/lib", "acme/app", "acme/site")


class OutsiderTest(unittest.TestCase):
    """An outsider at a forge with three requests of others, and a door at which the adapter would read hooks."""
    days: dict[str, tuple[Outsider, StandInForge]] = {}
    # How the door has answered each hook, by the form of the forge.
    answered: dict[str, list[int]] = {}

    @classmethod
    def play(cls, kind: str, seed: int = 1) -> tuple[Outsider, StandInForge]:
        """All that he does in a day, at once: there the others have done all. The gate has written on each request."""
        forge = cls.enterClassContext(StandInForge(kind))
        for name in NAMES:
            forge.model.add(name, *WRITERS)
            place = forge.model.open(name, HEAD, "main", "Add one", author="dan")
            forge.model.approve(place, WRITERS[0])
        door = cls.enterClassContext(StandIn(lambda *_: (403, {})))
        answered = cls.answered[kind] = list[int]()

        def answer(method: str, path: str, body: bytes) -> tuple[int, dict[str, str]]:
            answered.append(cls.status(forge, door.heads[-1], body))
            return answered[-1], {}

        door.answers = answer
        forge.hooks.url = f"{door.url}/hook"
        stage: Any = SimpleNamespace(model=forge.model, forge=forge, client=forge.client(), note=lambda _: None,
                                     name=lambda home: f"acme/{home}")
        developers: Any = SimpleNamespace(commit=lambda *_: HEAD)
        outsider = Outsider(stage, developers, random.Random(f"outsider {seed}"))
        outsider.open()
        for place in forge.model.pulls:
            stage.client.comment(place, None, "waits")
        outsider.over.set()
        outsider.go()
        return outsider, forge

    @classmethod
    def played(cls, kind: str) -> tuple[Outsider, StandInForge]:
        """What is left of one day, which several tests look at."""
        if kind not in cls.days:
            cls.days[kind] = cls.play(kind)
        return cls.days[kind]

    @staticmethod
    def status(forge: StandInForge, headers: dict[str, str], body: bytes) -> int:
        try:
            forge.client().place_of({name.title(): value for name, value in headers.items()}, body)
        except PermissionError:
            return 403
        return 200

    def did(self, forge: StandInForge) -> str:
        """All that he did."""
        return json.dumps([[it.text, [(one.kind, one.person, one.text) for one in it.entries]]
                           for it in forge.model.pulls.values()])

    def so(self, forge: StandInForge, place: Place) -> Request:
        so = forge.client().request(place)
        assert so is not None
        return so

    def told(self, so: Request) -> list[str]:
        """What the gate is told of a request of which people have known for long."""
        long_ago = BEGIN - timedelta(hours=1)
        known = Told(1, (Revision(so.head, ()),), shown=long_ago, sure=long_ago)
        return [it.kind for it in tellings(replace(so, moved=None), known, (), frozenset(WRITERS))]

    def test_he_does_the_same_by_each_seed(self) -> None:
        first = self.did(self.played("github")[1])
        second, other = (self.did(self.play("github", seed)[1]) for seed in (1, 2))
        self.assertTrue(first == second != other)

    def test_others_requests_are_approved_and_his_are_not(self) -> None:
        for kind in FORMS:
            with self.subTest(kind):
                outsider, forge = self.played(kind)
                for place in forge.model.pulls:
                    wanted = ["closed"] if place == outsider.flooded else [] if place in outsider.own else ["approved"]
                    self.assertEqual(self.told(self.so(forge, place)), wanted)
                # All comments of a request at Gitea are one answer.
                self.assertEqual(self.so(forge, outsider.flooded).is_cut, kind == "gitea")
                flaws = {it.flaw for place in outsider.own for it in self.so(forge, place).votes
                         if it.person in WRITERS}
                self.assertEqual(flaws, {"approved by a comment that somebody has edited",
                                         f"wrote more than the line {APPROVES}"})

    def test_a_text_of_his_costs_few_calls(self) -> None:
        outsider, forge = self.played("github")
        for place in outsider.own:
            asked: list[Place] = []

            def ask(named: Place) -> Known:
                asked.append(named)
                return Known("main", State.OPEN)

            so = self.so(forge, place)
            needs_of(so, forge.form.web, {it: it for it in NAMES}, ask, lambda named, target: (named.number, True))
            self.assertGreater(len(so.text.splitlines()), 1000)
            self.assertLessEqual(len(asked), NAMED)

    def test_no_comment_of_his_is_taken_for_the_gate_s_and_no_hook_is_read(self) -> None:
        for kind in FORMS:
            with self.subTest(kind):
                outsider, forge = self.played(kind)
                lacking = [it for it in outsider.own if not forge.model.comments(it, GATE)]
                marks = [mark_of(forge.form.secret, it) for it in lacking]
                self.assertTrue([text for _, text in outsider.wrote if text.endswith(tuple(marks))])
                client = forge.client()
                for place in forge.model.pulls.keys() - {outsider.flooded}:
                    client.comment(place, None, "waits for approval")
                    self.assertEqual(len(forge.model.comments(place, GATE)), 1)
                self.assertEqual(list(outsider.differences(set())), [])
                self.assertEqual(self.answered[kind], [403] * BURST * TIMES)
                self.assertGreaterEqual(len(outsider.wrote), 10)

    def test_it_would_be_found(self) -> None:
        outsider, forge = self.play("github", 3)
        lines = [it for place in outsider.own for it in forge.model.pulls[place].of("commented")
                 if it.person in WRITERS and APPROVES in it.text]
        self.assertEqual((len([it for it in lines if it.edited]), len(lines)), (2, 6))
        entry, text = outsider.wrote[0]
        entry.text, place = "Landed", outsider.own[1]
        outsider.taken = [forge.hooks.waiting[0]]
        self.assertEqual(list(outsider.differences({place})), [
            f"{place.repository} {place.number} of {MALLORY} landed",
            f"a comment of {MALLORY} says what he didn't write: 'Landed'",
            f"a hook of {MALLORY} about {outsider.taken[0].place} was taken"])
        self.assertNotEqual(text, "Landed")


if __name__ == "__main__":
    unittest.main()
