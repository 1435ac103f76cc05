"""What an adapter tells a gate that was restored, or that has another file."""
from __future__ import annotations

import copy

from companions.tests.adapter_case import Case


class Files(Case):
    def test_a_restored_gate_is_told_again_what_still_holds(self) -> None:
        self.be(13, 1)
        self.look()
        before = copy.deepcopy(self.gate)
        place = self.be(12, 0, self.approve(1))
        self.look()
        self.gate = before
        self.assertEqual(self.look(place), ["revision 1 1", "revision 2 1", "approved 2 1"])
        self.assertEqual(self.gate.changes[2]["order"], 1)
        self.assertIn("adapter: the gate has an earlier state of its file: what still holds is told again",
                      self.lines())

    def test_what_a_restored_gate_lacks_is_told_though_nothing_is_new(self) -> None:
        self.be(12, 0)
        self.look()
        before = copy.deepcopy(self.gate)
        place = self.be(12, 0, self.approve(1))
        self.look(place)
        self.gate = before
        self.assertEqual(self.look(place), [])
        self.assertEqual(self.look(), ["revision 1 1", "approved 1 1"])
        self.assertEqual(self.gate.changes[1]["order"], 1)

    def test_a_new_file_is_told_anew_and_needs_new_votes(self) -> None:
        place = self.be(12, 0, self.approve(1))
        self.look()
        self.gate.__init__()  # type: ignore[misc]
        self.start()
        self.assertEqual((self.look(), self.look()), (["revision 1 2"], []))
        self.be(12, 0, self.approve(1), self.approve(2))
        self.assertEqual(self.look(place), ["approved 1 2"])

    def test_ids_are_of_the_gate_s_first_delivery_once_there_is_one(self) -> None:
        place = self.be(12, 0)
        self.look()
        self.look(place)
        first = self.adapter.gate.first()
        self.assertEqual(self.adapter.outbox.get("file"), {"first": first, "ids": first})


if __name__ == "__main__":
    import unittest
    unittest.main()
