"""What the watch counts: landings and how long they took, what left and why, and what was built in vain."""
from __future__ import annotations

import dataclasses
import json
import unittest
from typing import Any
from unittest import mock

from companions.links import Link, Links
from companions.settings import Adapter
from companions.tests.watch_case import WatchCase

ITEM = "{0} {1} 1 - ok unit=running"


def built(*outcomes: str, job: str = "unit", live: bool = True) -> list[dict[str, Any]]:
    return [{"build": at, "job": job, "live": live, "outcome": it} for at, it in enumerate(outcomes, 1)]


class Counting(WatchCase):
    def be(self, *changes: int) -> None:
        """These changes stand in core, each under an order of its own number."""
        self.gate.items = [ITEM.format(it, it) for it in changes]

    def leave(self, change: int, verdict: str, builds: list[dict[str, Any]] | None = None) -> None:
        """It leaves core."""
        self.gate.items = [it for it in self.gate.items if it.split()[0] != str(change)]
        self.gate.landed += verdict == "landed"
        self.gate.reports.append(f"{change} {change} 1 {verdict} {self.gate.landed if verdict == 'landed' else '-'}")
        self.gate.left[change] = builds or []

    def took(self, bound: str) -> str | None:
        return self.figure(f'gated_approval_to_landing_seconds_bucket{{queue="core",le="{bound}"}}')

    def left(self, verdict: str) -> str | None:
        return self.figure(f'gated_items_left_total{{queue="core",verdict="{verdict}"}}')


class Landings(Counting):
    def test_the_time_from_approval_to_landing(self) -> None:
        self.look(100.0)
        self.be(1)
        self.look(110.0)
        self.gate.waiting = {2: "core"}
        self.look(120.0)
        self.be(1, 2)
        self.gate.waiting = {}
        self.look(130.0)
        self.leave(1, "landed")
        self.look(165.0)
        self.leave(2, "landed")
        self.look(400.0)
        self.assertEqual([self.took(it) for it in ("60", "120", "300", "86400", "+Inf")], ["1", "1", "2", "2", "2"])
        self.assertEqual(self.figure('gated_approval_to_landing_seconds_sum{queue="core"}'), "335")
        self.assertEqual(self.figure('gated_approval_to_landing_seconds_count{queue="core"}'), "2")
        self.assertEqual(self.left("landed"), "2")

    def test_what_came_and_went_between_two_looks_was_approved_since(self) -> None:
        self.look(100.0)
        self.leave(1, "landed")
        self.look(105.0)
        self.assertEqual(self.figure('gated_approval_to_landing_seconds_sum{queue="core"}'), "5")

    def test_what_was_approved_before_somebody_looked_has_no_time(self) -> None:
        """At the first look, behind a gap, and in another boot: its landing is counted without."""
        self.be(1, 2, 3)
        self.look(100.0)
        self.leave(1, "landed")
        self.look(110.0)
        self.be(2, 3, 4)
        self.look(300.0)
        self.leave(4, "landed")
        self.look(310.0)
        self.look(10.0, "two")
        self.leave(2, "landed")
        self.look(20.0, "two")
        self.assertEqual(self.left("landed"), "3")
        self.assertIsNone(self.figure('gated_approval_to_landing_seconds_count{queue="core"}'))

    def test_one_that_was_withdrawn_counts_from_its_next_approval(self) -> None:
        self.look(100.0)
        self.gate.waiting = {1: "core"}
        self.look(110.0)
        self.gate.waiting = {}
        self.look(120.0)
        self.be(1)
        self.look(170.0)
        self.leave(1, "landed")
        self.look(180.0)
        self.assertEqual(self.figure('gated_approval_to_landing_seconds_sum{queue="core"}'), "10")


class Leaving(Counting):
    def test_each_verdict_and_the_jobs_that_failed(self) -> None:
        self.be(1, 2, 3, 4)
        self.look(100.0)
        self.leave(1, "failed", built("failure") + built("success", job="docs") + built("lost", "success", job="lint"))
        self.leave(2, "failed", built("lost", "lost", "lost", job="docs") + built("failure"))
        self.leave(3, "refused", built("success"))
        self.look(110.0)
        verdicts = ("landed", "failed", "refused", "needs", "superseded", "withdrawn", "closed")
        self.assertEqual([self.left(it) for it in verdicts], ["0", "2", "1", "0", "0", "0", "0"])
        failed = [self.figure(f'gated_jobs_failed_total{{queue="core",job="{it}"}}') for it in ("unit", "docs", "lint")]
        self.assertEqual(failed, ["2", "1", None])

    def test_builds_that_did_not_count(self) -> None:
        self.be(1)
        self.look(100.0)
        self.leave(1, "landed", built("success", "running", live=False) + built("success"))
        self.look(110.0)
        self.assertEqual(self.figure('gated_builds_discarded_total{queue="core",job="unit"}'), "2")

    def test_a_window_that_shrinks(self) -> None:
        name = 'gated_window_shrinks_total{queue="core"}'
        real, window = self.gate.text, 8

        def text(path: str) -> str | None:
            said = real(path)
            return said.replace("core window 4", f"core window {window}") if path == "/status" and said else said

        self.gate.text = text  # type: ignore[assignment]
        for window, shrinks in ((8, "0"), (4, "1"), (5, "1"), (3, "2"), (3, "2")):
            self.look(100.0)
            self.assertEqual(self.figure(name), shrinks)

    def test_what_left_before_the_first_look_is_not_counted(self) -> None:
        for change in range(1, 2001):
            self.leave(change, "landed")
        self.look(100.0)
        self.look(300.0)
        self.assertEqual(self.left("landed"), "0")
        self.leave(2001, "landed")
        self.look(310.0)
        self.assertEqual(self.left("landed"), "1")
        self.assertEqual([it for it in self.gate.asked if it.startswith(("/history/core", "/items/"))], [
            "/history/core/1000000000000000", "/history/core/2000", "/history/core/2000", "/history/core/2000",
            "/items/2001"])

    def test_all_of_many_is_counted(self) -> None:
        self.look(100.0)
        for change in range(1, 2501):
            self.leave(change, "failed", built("failure"))
        self.look(161.0)
        self.assertEqual(self.left("failed"), "2500")
        for at in range(60):
            self.look(162.0 + at)
        # Of so many at once those are asked about that left last.
        self.assertEqual(self.figure('gated_jobs_failed_total{queue="core",job="unit"}'), "1000")


class Keeping(Counting):
    def test_counts_stay_over_restarts(self) -> None:
        self.look(100.0)
        self.be(1)
        self.look(110.0)
        self.start_again()
        self.leave(1, "landed")
        self.look(125.0)
        self.assertEqual((self.left("landed"), self.took("60")), ("1", "1"))
        self.start_again()
        self.look(130.0)
        self.assertEqual((self.left("landed"), self.took("60")), ("1", "1"))

    def test_an_item_is_asked_about_until_the_gate_answers(self) -> None:
        self.be(1)
        self.look(100.0)
        self.leave(1, "failed", built("failure"))
        real = self.gate.text
        self.gate.text = (  # type: ignore[assignment]
            lambda path: "no JSON" if path.startswith("/items/") else real(path))
        self.assertIn("watch: can't count what the gate did: no answer of the gate: GET /items/1: no JSON",
                      self.look(110.0))
        self.assertEqual((self.left("failed"), self.look(120.0)), ("1", ""))
        self.gate.text = real  # type: ignore[assignment]
        self.start_again()
        self.look(130.0)
        self.assertEqual(self.figure('gated_jobs_failed_total{queue="core",job="unit"}'), "1")
        self.look(140.0)
        self.assertEqual(self.figure('gated_jobs_failed_total{queue="core",job="unit"}'), "1")

    def test_what_another_file_has_already_is_not_counted(self) -> None:
        self.look(100.0)
        self.leave(1, "landed")
        self.look(110.0)
        self.gate.reports = [f"{it} {it} 1 failed -" for it in range(7, 20)]
        self.look(171.0)
        self.assertEqual((self.left("landed"), self.left("failed")), ("1", "0"))
        self.leave(20, "failed")
        self.look(232.0)
        self.assertEqual((self.left("landed"), self.left("failed")), ("1", "1"))

    def test_a_gate_where_nothing_leaves_is_asked_for_no_history_but_once_a_minute(self) -> None:
        self.be(1)
        self.look(100.0)
        self.gate.asked.clear()
        for at in range(101, 160):
            self.look(float(at))
        self.assertEqual([it for it in self.gate.asked if "history" in it], [])
        self.look(161.0)
        self.assertEqual([it for it in self.gate.asked if "history" in it], ["/history/core/1", "/history/web/1"])


class Running(WatchCase):
    """Since when builds run, for the page."""

    def setUp(self) -> None:
        super().setUp()
        self.page = self.file.parent.parent / "page"
        self.page.mkdir()
        adapter = Adapter("gitea", "u", "w", "t", "s", "b", "127.0.0.1", 0, None, 300.0, 5.0, 60.0, None,
                          page=self.page)
        self.settings = dataclasses.replace(self.settings, adapter=adapter)
        self.start_again()

    def since(self) -> dict[str, int]:
        return dict(json.loads((self.page / "running.json").read_text())["builds"])

    def test_each_build_has_the_second_in_which_it_was_first_seen(self) -> None:
        self.gate.give(7)
        with mock.patch("time.time", return_value=50000.4):
            self.look(1000.0)
        self.gate.give(8)
        with mock.patch("time.time", return_value=50100.6):
            self.look(1100.0)
        self.assertEqual(self.since(), {"7": 50000, "8": 50101})
        self.start_again()
        self.gate.builds[7]["outcome"] = "success"
        with mock.patch("time.time", return_value=50200.6):
            self.look(1200.0)
        self.assertEqual(self.since(), {"8": 50101})

    def test_it_is_written_where_other_builds_run(self) -> None:
        self.gate.give(7)
        self.look(1000.0)
        before = (self.page / "running.json").stat().st_ino
        self.look(1001.0)
        self.assertEqual((self.page / "running.json").stat().st_ino, before)

    def test_the_logs_that_a_ci_has_are_written_beside_it(self) -> None:
        link = Link(7, 101, 1, "unit", "https://ci.example/7")
        Links(self.settings.folder).put(link)
        self.look(1000.0)
        self.assertEqual(json.loads((self.page / "links.json").read_text()), {"builds": [dataclasses.asdict(link)]})

    def test_losses_are_reported_where_it_cant_be_written(self) -> None:
        self.page.rmdir()
        self.gate.give(7)
        self.assertIn("watch: can't write the figures: ", self.look(1000.0))
        self.assertIn("reported as lost", self.look(1100.0))


if __name__ == "__main__":
    unittest.main()
