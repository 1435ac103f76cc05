"""What the stand-in forge does beside what its forms show: branches, troubles, and the hooks that are to be sent."""
from __future__ import annotations

import random
import unittest

from companions.api import ForgeFault
from companions.forges import SUCCESS, Place
from companions.tests.forges import StandInForge
from companions.tests.forges.case import LIB, ONE, THREE, TWO, Case
from companions.tests.standin import StandIn


class ModelTest(Case):
    """What a day needs of the model beside what the forms show."""

    def test_a_branch_merges_what_it_contains(self) -> None:
        for head, target in ((TWO, "main"), (THREE, "main"), (TWO, "next")):
            self.model.open(LIB, head, target, "Add")
        self.model.close(self.place)
        self.assertEqual(self.model.see_branch(LIB, "main", lambda it: it in (ONE, TWO), "lander"), [Place(LIB, 2)])
        self.assertEqual([it.state for it in self.model.of(LIB)], ["closed", "merged", "open", "open"])

    def test_odds_are_before_and_after(self) -> None:
        self.forge.server.odds = 0.5
        answered = 0
        for n in range(40):
            try:
                self.client.set_status(LIB, ONE, SUCCESS, f"{n}")
                answered += 1
            except ForgeFault:
                pass
        done = len(self.model.statuses)
        self.assertTrue(0 < answered < done < 40, (answered, done))


class HooksTest(Case):
    """The list of hooks that are to be sent."""

    def setUp(self) -> None:
        super().setUp()
        self.door = self.enterContext(StandIn(lambda *_: (200, {})))
        self.forge.hooks.url = self.door.url + "/hooks"
        self.hooks = self.forge.hooks
        for text in ("b", "c", "d"):
            self.model.comment(self.place, "ann", text)

    def came(self) -> list[str]:
        self.hooks.send_all()
        return [it["comment"]["body"] if "comment" in it else "a" for it in self.door.deliveries()]

    def test_as_they_happened(self) -> None:
        self.assertEqual(self.came(), ["a", "b", "c", "d"])
        self.assertEqual([status for _, status in self.hooks.sent], [200] * 4)
        self.assertEqual({path for _, path, _ in self.door.asked}, {"/hooks"})

    def test_otherwise(self) -> None:
        self.hooks.double(0)
        self.hooks.hold(2)
        self.hooks.swap()
        self.hooks.drop(1)
        self.assertEqual(self.came(), ["a", "d", "c"])
        self.hooks.release()
        self.assertEqual(self.came(), ["a", "d", "c", "b"])

    def test_by_chance(self) -> None:
        chance, seen = random.Random(3), set[str]()
        for _ in range(60):
            self.model.comment(self.place, "ann", "e")
            self.hooks.disturb(chance)
            seen |= {"held"} if self.hooks.held else set()
            self.hooks.send_all()
        seen |= {it.what for it, _ in self.hooks.sent}
        self.assertEqual(seen, {"held", "opened", "commented", "forged"})
        said = [it.body for it, _ in self.hooks.sent if it.what == "commented"]
        self.assertTrue(0 < len(set(said)) < 63)
        self.assertLess(len(set(said)), len(said))

    def test_nobody_answers(self) -> None:
        self.hooks.url = "http://127.0.0.1:9/"
        self.hooks.send_all()
        self.assertEqual([status for _, status in self.hooks.sent], [None] * 4)

    def test_forged(self) -> None:
        for kind in ("github", "gitea", "gitlab"):
            with StandInForge(kind) as forge:
                forge.model.add(LIB, "ann")
                forge.model.open(LIB, ONE, "main", "Add one")
                forged = forge.hooks.forge()
                with self.assertRaises(PermissionError):
                    forge.client().place_of(forged.headers, forged.body)
                self.assertEqual([it.what for it in forge.hooks.waiting], ["opened", "forged"])

    def test_by_itself(self) -> None:
        self.hooks.start(0.01)
        for _ in range(500):
            if len(self.hooks.sent) == 4:
                break
            self.hooks.ending.wait(0.01)
        self.hooks.stop()
        self.assertEqual(self.came(), ["a", "b", "c", "d"])


if __name__ == "__main__":
    unittest.main()
