"""The watch before a stand-in of a gate, at times that the tests say."""
from __future__ import annotations

import contextlib
import dataclasses
import io
import itertools
import json
import unittest
import unittest.mock
from pathlib import Path
from typing import Any

from companions.answers import Answers
from companions.compared import Compared, Repository, file_in, write
from companions.figures import QueueFigures, text_of
from companions.moments import Moment
from companions.tests.watch_case import ONE, OTHER, WatchCase
from companions.watch import run

FIGURES = """\
# HELP gated_up Whether the gate answers.
# TYPE gated_up gauge
gated_up 1
# HELP gated_accepts Whether the gate accepts deliveries.
# TYPE gated_accepts gauge
gated_accepts 1
# HELP gated_items Items that stand in the queue.
# TYPE gated_items gauge
gated_items{queue="core"} 3
gated_items{queue="web.2"} 0
# HELP gated_waiting Approved changes that wait to enter the queue.
# TYPE gated_waiting gauge
gated_waiting{queue="core"} 1
gated_waiting{queue="web.2"} 2
# HELP gated_running Builds of the queue that run and are wanted.
# TYPE gated_running gauge
gated_running{queue="core"} 4
gated_running{queue="web.2"} 0
# HELP gated_oldest_seconds For how long the first item of the queue has been its first, 0 where there is none.
# TYPE gated_oldest_seconds gauge
gated_oldest_seconds{queue="core"} 75
gated_oldest_seconds{queue="web.2"} 0
# HELP gated_landed Landings of the queue.
# TYPE gated_landed gauge
gated_landed{queue="core"} 12
gated_landed{queue="web.2"} 7
# HELP gated_window Items from the front that may get builds, 0 for all of them.
# TYPE gated_window gauge
gated_window{queue="core"} 20
gated_window{queue="web.2"} 3
# HELP gated_lander_stopped Whether the lander doesn't land what the queue has for it.
# TYPE gated_lander_stopped gauge
gated_lander_stopped{queue="core"} 1
# HELP gated_adapter_blind_seconds For how long the adapter hasn't seen the repository.
# TYPE gated_adapter_blind_seconds gauge
gated_adapter_blind_seconds{repository="acme/lib"} 912
gated_adapter_blind_seconds{repository="o\\"\\\\ne"} 0
# HELP gated_builds_lost_total Builds that the watch has reported as lost.
# TYPE gated_builds_lost_total counter
gated_builds_lost_total 5
"""
SILENT = """\
# HELP gated_up Whether the gate answers.
# TYPE gated_up gauge
gated_up 0
# HELP gated_builds_lost_total Builds that the watch has reported as lost.
# TYPE gated_builds_lost_total counter
gated_builds_lost_total 5
"""


class WatchTest(WatchCase):
    def test_figures_are_a_text_of_prometheus(self) -> None:
        core = QueueFigures("core", items=3, waiting=1, running=4, oldest_seconds=75, landed=12, window=20,
                            lander_stopped=1)
        web = QueueFigures("web.2", items=0, waiting=2, running=0, oldest_seconds=0, landed=7, window=3)
        blind = {'o"\\ne': 0, "acme/lib": 912}
        self.assertEqual(text_of([core, web], 5, blind, True), FIGURES)
        self.assertEqual(text_of([core, web], 5, blind, False), FIGURES.replace("gated_accepts 1", "gated_accepts 0"))
        self.assertEqual(text_of(None, 5, {}), SILENT)

    def test_figures_are_what_the_gate_shows(self) -> None:
        self.gate.items = ["     7       101    1      - ok      unit=running docs=waiting",
                           "     8       102    1      7 ok      unit=waiting"]
        self.gate.landed, self.gate.waiting = 5, {103: "core", 201: "web", 202: "web"}
        self.gate.give(1)
        self.look(1000.0)
        self.look(1040.9)
        wanted = {'items{queue="core"}': "2", 'items{queue="web"}': "0", 'waiting{queue="core"}': "1",
                  'waiting{queue="web"}': "2", 'running{queue="core"}': "1", 'running{queue="web"}': "0",
                  'oldest_seconds{queue="core"}': "40", 'oldest_seconds{queue="web"}': "0", 'landed{queue="core"}': "5",
                  'window{queue="core"}': "4", 'window{queue="web"}': "3", "builds_lost_total": "0", "up": "1"}
        self.assertEqual({it: self.figure(f"gated_{it}") for it in wanted}, wanted)
        self.assertEqual([it.name for it in self.file.parent.glob("gated*")], ["gated.prom"])

    def test_a_lander_that_has_stopped_a_queue_is_shown(self) -> None:
        figure = 'gated_lander_stopped{queue="core"}'
        self.look(1000.0)
        self.assertIsNone(self.figure(figure))
        lander = Answers(self.settings.folder)
        for why, shown in (("somebody pushed past the gate", "1"), (None, "0")):
            lander.stop("core", why)
            self.look(1000.0)
            self.assertEqual(self.figure(figure), shown)

    def test_for_how_long_the_adapter_was_blind_is_shown(self) -> None:
        figure = 'gated_adapter_blind_seconds{repository="acme/lib"}'
        projects = {"lib": dataclasses.replace(self.settings.projects["lib"], forge="acme/lib")}
        self.settings = dataclasses.replace(self.settings, projects=projects)
        self.start_again()
        self.look(1000.0)
        self.assertIsNone(self.figure(figure))
        seen = Repository(0, None, Moment("one", 100.0))
        write(file_in(self.settings.folder), Compared(None, None, {"acme/lib": seen}, {}))
        self.assertEqual((self.look(1000.0), self.figure(figure)), ("", "900"))
        self.assertEqual((self.look(1001.0), self.figure(figure)), (
            "watch: acme/lib: the adapter hasn't seen it for 901 seconds, so nothing lands in core: its own lines say"
            " why\n", "901"))

    def test_figures_in_a_folder_of_their_own(self) -> None:
        """What can't be written there is told once, and the watch goes on."""
        folder = Path(self.settings.folder) / "figures"
        self.settings = dataclasses.replace(self.settings, figures=folder)
        self.start_again()
        self.assertRegex(self.look(1000.0), "^watch: can't write the figures: .*No such file or directory.*\n$")
        self.assertEqual(self.look(1001.0), "")
        folder.mkdir()
        self.look(1002.0)
        self.assertIn("gated_up 1\n", (folder / "gated.prom").read_text())
        self.assertEqual([[it.name for it in of.glob("gated*")] for of in (folder, self.file.parent)],
                         [["gated.prom"], []])
        (folder / "gated.prom").unlink()
        folder.rmdir()
        self.assertRegex(self.look(1003.0), "^watch: can't write the figures")

    def test_a_gate_that_does_not_answer_has_no_figures(self) -> None:
        self.gate.items = [" 7 101 1 - ok unit=running"]
        self.look(1000.0)
        self.gate.answers = False
        self.assertRegex(self.look(1001.0), "^watch: can't look: no answer of the gate: .*502")
        self.assertEqual(self.look(1002.0), "")
        self.assertEqual(self.figure("gated_up"), "0")
        # Counts stay what they are.
        shown = {it.partition("{")[0] for it in self.file.read_text().splitlines() if "queue=" in it}
        self.assertEqual(shown, {"gated_items_left_total", "gated_window_shrinks_total"})
        self.gate.answers = True
        self.assertEqual(self.look(1003.0), "watch: the gate answers again\n")
        self.assertEqual(self.figure('gated_oldest_seconds{queue="core"}'), "3")

    def test_a_waiting_change_is_asked_for_once(self) -> None:
        self.gate.waiting = {201: "web"}
        self.look(1000.0)
        self.look(1001.0)
        self.gate.waiting[202] = "web"
        self.look(1002.0)
        self.assertEqual([it for it in self.gate.asked if "changes" in it], ["/changes/201", "/changes/202"])
        self.gate.waiting = {}
        self.look(1003.0)
        self.assertEqual(self.watch.queue_of, {})

    def test_a_build_beyond_limit_and_grace_is_lost_once(self) -> None:
        self.gate.give(1)
        self.gate.give(2, job="docs")
        self.look(1000.0)
        self.assertEqual(self.look(1090.0), "")
        self.assertEqual(self.look(1090.5), "watch: build 1, unit of change 101 at revision 1, ran beyond its limit:"
                                            " reported as lost: noted\n")
        self.look(1091.0)
        self.assertEqual([(it["kind"], it["build"], it["outcome"]) for it in self.gate.told], [("result", 1, "lost")])
        self.assertEqual(self.figure("gated_builds_lost_total"), "1")
        self.start_again()
        self.look(1092.0)
        self.assertEqual(self.figure("gated_builds_lost_total"), "1")

    def test_what_is_not_that_build_any_more_is_not_reported(self) -> None:
        others: list[dict[str, Any]] = [{"live": False}, {"outcome": "success"}, {"change": 102}, {"revision": 2},
                                        {"job": "docs"}]
        for different in others:
            with self.subTest(different):
                self.gate.give(1)
                self.look(1000.0)
                text = self.gate.text("/running")
                self.gate.give(1, **different)
                with unittest.mock.patch.object(self.watch.people, "running", lambda: json.loads(text or "")["builds"]):
                    self.look(2000.0)
                self.assertEqual(self.gate.told, [])

    def test_a_build_of_another_file_is_not_reported(self) -> None:
        self.gate.give(1)
        self.gate.give(2)
        self.look(1000.0)
        self.gate.first = OTHER
        self.assertEqual(self.look(1100.0), "watch: the gate has another file: all that was noted is dropped\n")
        self.assertEqual(self.gate.told, [])
        self.look(1101.0)
        self.look(1191.0)
        self.assertEqual(self.gate.told, [])
        self.look(1191.5)
        self.assertEqual([it["build"] for it in self.gate.told], [1, 2])

    def test_notes_of_another_file_go_after_a_silence(self) -> None:
        self.gate.give(1)
        self.look(1000.0)
        self.gate.answers = False
        self.look(1001.0)
        self.gate.answers, self.gate.first = True, OTHER
        self.look(1002.0)
        self.assertEqual(self.watch.notes.get("seen")["builds"], {"1/101/1": 1002.0})

    def test_an_earlier_state_of_the_file_has_builds_of_its_own(self) -> None:
        self.gate.landed = 5
        self.gate.give(1)
        self.look(1000.0)
        self.gate.landed = 4
        self.look(1091.0)
        self.assertEqual(self.gate.told, [])
        self.look(1181.5)
        self.assertEqual(len(self.gate.told), 1)

    def test_a_gate_that_has_accepted_nothing_is_up(self) -> None:
        self.gate.first = None
        self.assertEqual(self.look(1000.0), "")
        self.assertEqual(self.figure("gated_up"), "1")
        self.gate.first = ONE
        self.assertEqual(self.look(1001.0), "")
        self.assertEqual(self.watch.notes.get("seen")["first"], ONE)

    def test_a_restart_keeps_when_a_build_was_seen(self) -> None:
        self.gate.give(1)
        self.look(1000.0)
        self.start_again()
        self.look(1090.5)
        self.assertEqual(len(self.gate.told), 1)

    def test_a_build_that_was_seen_in_another_boot_counts_from_now(self) -> None:
        self.gate.items = ["7 101 1 - ok unit=running"]
        self.gate.give(1)
        self.look(1000.0)
        self.start_again()
        self.assertEqual(self.look(5000.0, "two"), "")
        self.assertEqual(self.figure('gated_oldest_seconds{queue="core"}'), "0")
        self.look(5090.0, "two")
        self.assertEqual(self.gate.told, [])
        self.look(5090.5, "two")
        self.assertEqual(len(self.gate.told), 1)

    def test_a_clock_of_the_day_that_is_set_makes_no_age_wrong(self) -> None:
        """Three days ahead and 4,000 seconds back, while the machine's own clock goes on by a second a look."""
        self.gate.items = ["7 101 1 - ok unit=running"]
        self.gate.give(1)
        told: list[int] = []
        uptime = iter(range(1000, 1093))
        days = itertools.cycle((0.0, 3 * 86400.0, -4000.0))

        def look_again(_: float) -> None:
            told.append(len(self.gate.told))

        self.enterContext(unittest.mock.patch("time.time", lambda: 1.8e9 + next(days)))
        self.enterContext(unittest.mock.patch("companions.watch.time.sleep", look_again))
        with contextlib.redirect_stderr(io.StringIO()), self.assertRaises(StopIteration):
            run(self.settings, lambda: Moment("one", float(next(uptime))))
        self.assertEqual(told, [0] * 91 + [1] * 2)
        self.assertEqual(self.figure('gated_oldest_seconds{queue="core"}'), "92")

    def test_a_report_without_an_answer_is_sent_again(self) -> None:
        self.gate.give(1)
        self.look(1000.0)

        def tell(said: dict[str, Any]) -> str:
            self.gate.told.append(said)
            return "<html></html>"

        with unittest.mock.patch.object(self.gate, "tell", tell):
            self.assertIn("can't report what is lost: no answer of the gate", self.look(1091.0))
        self.assertEqual(self.figure("gated_up"), "1")
        self.look(1092.0)
        self.assertEqual(len(self.gate.told), 2)
        self.assertEqual(self.gate.told[0], self.gate.told[1])

    def test_a_job_that_the_settings_lack_is_told_once(self) -> None:
        self.gate.give(1, job="lint")
        self.assertEqual(self.look(1000.0), "watch: core: no project of the settings has a job lint, so its builds"
                                            " aren't reported as lost\n")
        self.assertEqual(self.look(9000.0), "")

    def test_a_first_item_that_stands_is_told_now_and_then(self) -> None:
        self.gate.items = ["     7       101    1      - ok      unit=running docs=success"]
        self.assertEqual([self.look(it) for it in (1000.0, 2000.0)], ["", ""])
        self.assertEqual(self.look(2001.0), "watch: core: change 101 at revision 1, order 7, has stood first for"
                                            " 1001 seconds: ok unit=running docs=success\n")
        self.start_again()
        self.assertEqual([self.look(it) for it in (2002.0, 3001.0)], ["", ""])
        self.assertIn("has stood first for 2002 seconds", self.look(3002.0))
        self.gate.items = [" 8 102 1 - ok unit=running"]
        self.assertEqual(self.look(3100.0), "")
        self.assertEqual(self.figure('gated_oldest_seconds{queue="core"}'), "0")

    def test_notes_do_not_grow_with_the_past(self) -> None:
        for number in range(1, 50):
            self.gate.builds = {}
            self.gate.give(number)
            self.gate.items = [f" {number} 101 {number} - ok unit=running"]
            self.gate.landed += 1
            self.look(1000.0 + number)
            self.gate.reports.append(f"{number} 101 {number} landed {number}")
        self.assertEqual(self.watch.notes.names(""), ["counts", "seen"])
        self.assertLess(len(json.dumps(self.watch.notes.get("counts"))), 2000)
        seen = self.watch.notes.get("seen")
        self.assertEqual((list(seen["builds"]), list(seen["firsts"])), (["49/101/1"], ["core"]))


if __name__ == "__main__":
    unittest.main()
