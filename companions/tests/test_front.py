"""What makes room for a change at the front of its queue, and what an operator is shown of that before it is done."""
from __future__ import annotations

import tempfile
import unittest
from pathlib import Path
from typing import Any
from unittest import mock

from companions import operator
from companions.front import front_of
from companions.gate import Gate, Order, QueueStatus, Status
from companions.settings import read
from companions.tests.adapter_case import SETTINGS


class PretendGate(Gate):
    """`items` stand in core, each a change at revision 1 whose order has ten times its number; `needs` are those of
    changes, and `shown` the changes whose orders are shown."""

    def __init__(self, items: tuple[int, ...], needs: dict[int, list[int]], shown: tuple[int, ...] = ()) -> None:
        super().__init__("http://127.0.0.1:9", None)
        self.items, self.needs, self.shown, self.asked = items, needs, shown, set[int]()

    def status(self) -> Status:
        rows = [[str(10 * it), str(it), "1", "-", "ok"] for it in self.items]
        return Status([QueueStatus("web", 3, 0, [["7", "99", "1", "-", "ok"]]), QueueStatus("core", 3, 0, rows)], [])

    def orders(self) -> list[Order]:
        return [Order("core", 10 * it, "lib", it, 1) for it in self.shown]

    def change(self, number: int) -> dict[str, Any] | None:
        self.asked.add(number)
        return {"change": number, "queue": "core", "revision": 1,
                "order": 10 * number if number in self.items else None,
                "needs": [{"change": it} for it in self.needs.get(number, ())]}


class FrontTest(unittest.TestCase):
    def front(self, change: int, items: tuple[int, ...], needs: dict[int, list[int]] | None = None,
              shown: tuple[int, ...] = ()) -> tuple[tuple[int, ...], bool, list[int]]:
        gate = PretendGate(items, needs or {}, shown)
        found = front_of(gate, "core", change)
        self.assertEqual({at for _, at in found.others} - {1}, set())
        # Of what doesn't stand in the queue nobody asks.
        self.assertLessEqual(gate.asked, {change, *items})
        return found.landing, found.stands, [it for it, _ in found.others]

    def test_all_others_make_room(self) -> None:
        self.assertEqual(self.front(3, (1, 2, 3, 4)), ((), True, [1, 2, 4]))
        self.assertEqual(self.front(5, (1, 2)), ((), False, [1, 2]))
        self.assertEqual(self.front(5, ()), ((), False, []))

    def test_what_is_being_landed_stays(self) -> None:
        self.assertEqual(self.front(3, (1, 2, 3), shown=(1,)), ((1,), True, [2]))

    def test_what_it_needs_stays_also_over_others(self) -> None:
        self.assertEqual(self.front(4, (1, 2, 3, 4, 5), {4: [3, 99], 3: [1]}), ((), True, [2, 5]))

    def test_one_that_stands_first_makes_nobody_leave(self) -> None:
        self.assertEqual(self.front(1, (1, 2, 3)), ((), True, []))
        self.assertEqual(self.front(2, (1, 2, 3), shown=(1,)), ((1,), True, []))
        self.assertEqual(self.front(2, (1, 2, 3), {2: [1]}), ((), True, []))
        # One that needs it stands behind it anyway.
        self.assertEqual(self.front(2, (1, 2, 3), {3: [2]}), ((), True, [1, 3]))


class ShownTest(unittest.TestCase):
    """By whom builds are lost, as an operator reads it before it is done."""

    def shown(self, change: int, needs: dict[int, list[int]], shown: tuple[int, ...] = ()) -> list[str]:
        with tempfile.TemporaryDirectory() as folder:
            file = Path(folder) / "companions.toml"
            file.write_text(SETTINGS.format(folder=folder, gate="http://127.0.0.1:9"))
            with mock.patch.object(operator, "Gate", lambda *it, **more: PretendGate((1, 2, 3, 4), needs, shown)):
                return list(operator.shown(read(file), "promote", change))

    def test_what_it_needs_loses_no_builds(self) -> None:
        self.assertEqual(self.shown(4, {4: [2]}), [
            "change 4, revision 1, stands at place 4 of 4 in core",
            "change 4 goes first in core, behind what it needs of it",
            "these follow, in this order, and lose their builds: 1, 3"])

    def test_what_is_being_landed_is_named(self) -> None:
        self.assertEqual(self.shown(3, {}, (1,))[1:], [
            "change 1 is being landed: it stays first", "change 3 goes first in core, behind what it needs of it",
            "these follow, in this order, and lose their builds: 2, 4"])

    def test_one_that_stands_first(self) -> None:
        self.assertEqual(self.shown(1, {})[1:], [
            "change 1 stands first in core already, behind what it needs of it: nothing changes"])


if __name__ == "__main__":
    unittest.main()
