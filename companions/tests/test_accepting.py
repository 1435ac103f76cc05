"""Whether a gate accepts deliveries, as the watch finds it out and shows it."""
from __future__ import annotations

import unittest

from companions.accepting import BUSY, IDLE, REFUSING, UNKNOWN
from companions.tests.watch_case import OTHER, WatchCase


class AcceptingTest(WatchCase):
    def test_a_gate_that_answers_and_accepts_nothing_is_shown(self) -> None:
        self.gate.give(1, outcome="success")
        self.look(1000.0)
        self.assertEqual((self.figure("gated_accepts"), len(self.gate.stale)), ("1", 1))
        self.assertEqual({it: self.gate.stale[0][it] for it in ("kind", "build", "outcome")},
                         {"kind": "result", "build": 1, "outcome": "lost"})
        self.gate.accepts = False
        self.gate.items = [" 7 101 1 - ok unit=running"]
        self.look(1000.0 + BUSY - 1)
        self.assertEqual(self.figure("gated_accepts"), "1")
        self.assertEqual(self.look(1000.0 + BUSY), "watch: the gate answers, and accepts no deliveries: its disk is"
                                                   " full, or has failed\n")
        self.assertEqual((self.figure("gated_accepts"), self.figure("gated_up")), ("0", "1"))
        self.assertEqual(self.look(1000.0 + BUSY + REFUSING), "")
        self.gate.accepts = True
        self.assertEqual(self.look(1000.0 + BUSY + 2 * REFUSING), "watch: the gate accepts deliveries again\n")
        self.assertEqual((self.figure("gated_accepts"), len(self.gate.stale)), ("1", 2))

    def test_a_gate_is_asked_whether_it_accepts_where_nobody_else_does(self) -> None:
        self.gate.give(1, outcome="success")
        self.look(1000.0)
        self.gate.stale.append({"id": OTHER})
        self.look(1000.0 + IDLE)
        self.assertEqual((self.figure("gated_accepts"), len(self.gate.stale)), ("1", 2))
        self.look(1000.0 + 2 * IDLE)
        self.assertEqual((self.figure("gated_accepts"), len(self.gate.stale)), ("1", 3))

    def test_whether_a_gate_accepts_is_not_known_before_a_build_has_ended(self) -> None:
        for running in (False, True):
            if running:
                self.gate.give(1)
            self.look(1000.0 + UNKNOWN * running)
            self.assertIsNone(self.figure("gated_accepts"))
        self.assertEqual((self.gate.stale, self.gate.told), ([], []))


if __name__ == "__main__":
    unittest.main()
