"""Which commits stay: of requests that may land or have landed, and for some days of those that were closed."""
from __future__ import annotations

import unittest
from dataclasses import replace

from companions.leftovers import DAY
from companions.requests import State
from companions.tests.adapter_case import NEVER
from companions.tests.adapter_case import Case as AdapterCase


class Leftovers(AdapterCase):
    def setUp(self) -> None:
        self.days = 0.0
        super().setUp()

    def start(self) -> None:
        super().start()
        self.adapter.drop_at = NEVER
        self.adapter.leftovers.clock = lambda: self.days * DAY

    def drop(self, days: float) -> None:
        """So many days later all that is to be dropped is."""
        for _ in range(2):
            self.adapter.drop_at = 0.0
            self.adapter.compare_at = NEVER
            self.adapter.once(1.0)
            self.adapter.drop_at = NEVER
            self.days, days = self.days + days, 0.0

    def pushed(self) -> dict[str, str]:
        """What is pushed of changes, shortly."""
        listed = self.origin.git("for-each-ref", "--format=%(refname) %(objectname)", "refs/changes").splitlines()
        return {name.removeprefix("refs/changes/"): it for name, it in (line.split() for line in listed)}

    def is_here(self, head: int) -> bool:
        """Whether the adapter's own folder has a commit."""
        return self.adapter.looks.repositories["lib"].commit(self.commits[head]) is not None

    def test_a_commit_is_pushed_once_it_is_approved(self) -> None:
        place = self.be(12, 0, self.approve(1, person="eve"))
        self.assertEqual((self.look(place), self.pushed()), (["revision 1 1"], {}))
        self.be(12, 1)
        self.look(place)
        self.be(12, 1, self.approve(2, 1))
        self.assertEqual((self.look(place), self.pushed()), (["approved 1 2"], {"1/2": self.commits[1]}))

    def test_it_is_pushed_before_the_gate_is_told(self) -> None:
        place = self.be(12, 0)
        self.look(place)
        seen: list[dict[str, str]] = []
        answers = self.standin.answers
        self.standin.answers = lambda method, path, body: (
            seen.append(self.pushed()) if method == "POST" else None) or answers(method, path, body)
        self.be(12, 0, self.approve(1))
        self.look(place)
        self.assertEqual(seen, [{"1/1": self.commits[0]}])

    def test_one_that_was_never_approved_leaves_nothing(self) -> None:
        self.be(12, 0)
        self.look()
        self.be(12, 0, state=State.CLOSED)
        self.look()
        # It wasn't even fetched.
        self.assertEqual((self.is_here(0), self.pushed()), (False, {}))
        self.drop(29)
        self.assertEqual([it for it in self.lines() if "dropped" in it], [])
        self.drop(2)
        self.assertEqual(self.lines()[-1],
                         "adapter: change 1, acme/lib 12: closed without landing, so its commits are dropped")
        self.drop(100)
        self.assertEqual(len([it for it in self.lines() if "dropped" in it]), 1)

    def test_one_that_was_approved_and_closed_goes_some_days_later(self) -> None:
        place = self.be(12, 0, self.approve(1))
        self.look()
        self.be(12, 1, self.approve(2, 1))
        self.look(place)
        self.be(12, 1, state=State.CLOSED)
        self.look()
        self.start()
        self.drop(29)
        self.assertEqual(sorted(self.pushed()), ["1/1", "1/2"])
        self.drop(2)
        self.assertEqual((self.pushed(), self.is_here(0), self.is_here(1)), ({}, False, False))

    def test_the_days_are_a_setting(self) -> None:
        assert self.settings.adapter is not None
        self.settings = replace(self.settings, adapter=replace(self.settings.adapter, keep=2.0))
        self.start()
        self.be(12, 0, self.approve(1))
        self.look()
        self.be(12, 0, state=State.CLOSED)
        self.look()
        self.drop(1)
        self.assertEqual(len(self.pushed()), 1)
        self.drop(1)
        self.assertEqual(self.pushed(), {})

    def test_what_may_land_or_has_landed_stays(self) -> None:
        """One is queued, one's approval was taken back, one has landed, and one waits for its first approval."""
        self.be(12, 0, self.approve(1))
        self.be(13, 1, self.approve(2, 1))
        self.be(14, 2, self.approve(3, 2))
        self.be(15, 3)
        self.look()
        self.be(13, 1)
        self.gate.land(3)
        self.be(14, 2, state=State.MERGED)
        self.look()
        self.drop(1000)
        self.assertEqual((self.pushed(), [self.is_here(it) for it in range(4)]),
                         ({"1/1": self.commits[0], "2/1": self.commits[1], "3/1": self.commits[2]},
                          [True, True, True, False]))
        # Others are dropped beside them.
        self.be(16, 3, self.approve(4, 3))
        self.look()
        self.be(16, 3, state=State.CLOSED)
        self.look()
        self.drop(31)
        self.assertEqual((sorted(self.pushed()), [self.is_here(it) for it in range(4)]),
                         (["1/1", "2/1", "3/1"], [True, True, True, False]))
        self.be(13, 1, self.approve(5, 1))
        self.assertEqual(self.look(), ["approved 2 1"])

    def test_what_the_gate_may_still_land_stays(self) -> None:
        """The order is shown, so the gate hasn't taken the closing."""
        self.be(12, 0, self.approve(1))
        self.look()
        self.gate.order(1)
        self.be(12, 0, state=State.CLOSED)
        self.assertEqual(self.look(), ["closed 1 1"])
        self.drop(31)
        self.assertEqual(self.pushed(), {"1/1": self.commits[0]})
        self.gate.orders = []
        self.look()
        self.drop(0)
        self.assertEqual(self.pushed(), {})

    def test_what_a_restored_gate_has_open_stays(self) -> None:
        self.be(12, 0, self.approve(1))
        self.look()
        self.be(12, 0, state=State.CLOSED)
        self.look()
        self.gate.changes[1]["state"] = "open"
        self.drop(31)
        self.assertEqual(self.pushed(), {"1/1": self.commits[0]})

    def test_one_that_is_opened_again_is_pushed_again(self) -> None:
        place = self.be(12, 0, self.approve(1))
        self.look()
        self.be(12, 0, state=State.CLOSED)
        self.look()
        self.drop(31)
        self.be(12, 0, self.approve(1), state=State.OPEN)
        self.look(place)
        self.assertEqual((self.is_here(0), self.pushed()), (False, {}))
        self.drop(31)
        self.be(12, 0, self.approve(2), state=State.OPEN)
        self.assertEqual((self.look(place), self.pushed()), (["approved 1 2"], {"1/2": self.commits[0]}))
        self.drop(31)
        self.assertEqual(len(self.pushed()), 1)

    def test_a_request_with_another_target_keeps_its_commit_for_that(self) -> None:
        place = self.be(12, 0, self.approve(1))
        self.look()
        self.be(12, 0, target="old")
        self.look(place)
        self.drop(31)
        self.assertEqual(self.pushed(), {})
        self.be(12, 0, self.approve(2), target="old")
        self.assertEqual((self.look(place), self.pushed()), (["approved 2 1"], {"2/1": self.commits[0]}))

    def test_a_ref_that_was_moved_is_set_right_whatever_was_dropped(self) -> None:
        """An earlier revision that is being landed: the commit isn't the request's head any more."""
        place = self.be(12, 0, self.approve(1))
        self.look()
        self.be(12, 1)
        self.look(place)
        self.be(13, 2)
        self.look()
        self.be(13, 2, state=State.CLOSED)
        self.look()
        self.drop(31)
        self.assertFalse(self.is_here(2))
        self.assertEqual([self.is_here(0), self.pushed()], [True, {"1/1": self.commits[0]}])

    def test_a_forge_that_is_away_is_tried_again(self) -> None:
        self.be(12, 0, self.approve(1))
        self.look()
        self.be(12, 0, state=State.CLOSED)
        self.look()
        away = self.origin.folder.rename(self.folder / "away")
        self.drop(31)
        self.assertIn("adapter: leftovers: GitFault: git ls-remote", "\n".join(self.lines()))
        away.rename(self.origin.folder)
        self.assertEqual(len(self.pushed()), 1)
        self.drop(0)
        self.assertEqual(self.pushed(), {})


del AdapterCase

if __name__ == "__main__":
    unittest.main()
