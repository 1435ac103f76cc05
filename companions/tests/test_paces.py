"""How often an adapter looks at a request that hooks name all the time, as somebody's comments may bring about."""
from __future__ import annotations

import unittest

from companions.forges import Place
from companions.rests import Paces
from companions.tests.adapter_case import NEVER, Case

BEGIN = 1000.0


class PacesTest(unittest.TestCase):
    def test_each_is_free_for_some_times_and_waits_then(self) -> None:
        paces, done = Paces(3, 60.0), list[int]()
        for second in range(3800):
            if not paces.waits("a", float(second)):
                done.append(second)
                paces.count("a", float(second))
        self.assertEqual(done[:6], [0, 1, 2, 62, 122, 182])
        self.assertEqual((done[-1] - done[-2], len(done)), (60, 3 + 63))
        self.assertFalse(paces.waits("b", 3800.0))

    def test_what_was_done_long_ago_is_forgotten(self) -> None:
        paces = Paces(1, 60.0)
        for number in range(100):
            paces.count(str(number), float(number))
        paces.count("a", 3650.0)
        self.assertEqual([*paces.of_name], [*map(str, range(51, 100)), "a"])


class HooksTest(Case):
    def looks(self, place: Place, *seconds: int) -> list[int]:
        """The seconds at which a request is looked at that a hook names at each of these."""
        found = []
        for second in seconds:
            self.adapter.hints.put(place)
            before = self.forge.asked.count(place)
            self.adapter.once(BEGIN + second)
            found += [second] * (self.forge.asked.count(place) - before)
        return found

    def test_one_that_somebody_writes_on_all_the_time_leaves_calls_to_the_others(self) -> None:
        busy, other = self.be(12, 0), self.be(13, 1)
        self.look(busy, other)
        self.adapter.once(BEGIN - 100)
        self.adapter.compare_at = NEVER
        found = self.looks(busy, *range(0, 1800, 2))
        # Twenty at once, of which that by its comparison is none, and then each minute.
        self.assertEqual((found[:19], found[19:22]), ([*range(0, 38, 2)], [96, 156, 216]))
        self.assertEqual(len(found), 19 + 29)
        self.be(13, 2)
        self.be(12, 3)
        self.assertEqual(self.looks(other, 1801), [1801])
        self.assertEqual(self.gate.changes[2]["revision"], 2)
        # What has changed there is told all the same, a minute later at most.
        self.adapter.once(BEGIN + 1860)
        self.assertEqual(self.gate.changes[1]["revision"], 2)
        # An hour later it is as any other.
        self.assertEqual(self.looks(busy, *range(5600, 5605)), [*range(5600, 5605)])


del Case

if __name__ == "__main__":
    unittest.main()
