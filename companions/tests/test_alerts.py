"""The figures, the alerts about them and the picture of them, as Prometheus' own promtool takes them."""
from __future__ import annotations

import json
import re
import shutil
import subprocess
import tempfile
import unittest
from pathlib import Path
from typing import Any

from companions.counted import BUCKETS
from companions.figures import OfWorkers, QueueFigures, counted, text_of
from companions.tests.service import SERVICE, TOP

ALERTS, DASHBOARD = SERVICE / "alerts.yml", SERVICE / "dashboard.json"
TESTS = Path(__file__).with_name("alerts.yml")
# Each alert with series that raise it from a minute on, and not before: what it is about, that minute, and the labels
# that it then has.
RAISED: dict[str, tuple[str, str, int, dict[str, str]]] = {
    "GateDown": ('gated_up{instance="gate"}', "1x10 0x20", 13, {}),
    "GateWatchDead": ('node_textfile_mtime_seconds{instance="gate",file="/x/gated.prom"}', "0+60x10 600x20", 14,
                      {"file": "/x/gated.prom"}),
    "GateAcceptsNothing": ('gated_accepts{instance="gate"}', "1x10 0x20", 12, {}),
    "GateQueueStands": ('gated_oldest_seconds{instance="gate",queue="core"}', "0+700x20", 11, {"queue": "core"}),
    "GateChangesWait": ('gated_waiting{instance="gate",queue="core"}', "1x60 8x500", 420, {"queue": "core"}),
    "GateHasOtherFile": ('gated_landed{instance="gate",queue="core"}', "900x30 890x20", 31, {"queue": "core"}),
    "GateManyFail": ('gated_items_left_total{instance="gate",queue="core",verdict="failed"}', "0x30 0+1x60", 50,
                     {"queue": "core"}),
    "GateLanderStopped": ('gated_lander_stopped{instance="gate",queue="core"}', "0x10 1x20", 16, {"queue": "core"}),
    "GateAdapterBlind": ('gated_adapter_blind_seconds{instance="gate",repository="acme/lib"}', "0+60x20", 16,
                         {"repository": "acme/lib"}),
    "GateWorkerSilent": ('gated_workers_heard{instance="gate"}', "4x30 3x30", 46, {}),
    "GateBuildsHeld": ('gated_builds_held{instance="gate"}', "0x10 1x20", 21, {}),
    "GateBuildsLost": ('gated_builds_lost_total{instance="gate"}', "2x10 3x20", 11, {}),
}
# And those that are about two figures, or compare them.
BESIDE = {"GateManyFail": [('gated_items_left_total{instance="gate",queue="core",verdict="landed"}', "0x90")]}
TWO = {"GateNobodyBuilds": (('gated_items{instance="gate",queue="core"}', "3x40"),
                            ('gated_running{instance="gate",queue="core"}', "1x10 0x30"), 26, {"queue": "core"}),
       "GateWindowShrinks": (('gated_window{instance="gate",queue="core"}', "3x60"),
                             ('gated_window_shrinks_total{instance="gate",queue="core"}', "0x10 0+1x50"), 22,
                             {"queue": "core"})}
COUNTS: dict[str, Any] = {
    "left": {"core": {"landed": 3, "failed": 1}}, "failed": {"core": {"unit": 1}}, "discarded": {"core": {"unit": 2}},
    "shrank": {"core": 1}, "took": {"core": {"buckets": [1] * len(BUCKETS), "sum": 90.5, "count": 2}}}


def promtool(*words: str | Path, given: str = "") -> subprocess.CompletedProcess[str]:
    program = shutil.which("promtool")
    if program is None:
        raise AssertionError("promtool isn't there: it is in Debian's package prometheus")
    return subprocess.run([program, *words], input=given, capture_output=True, text=True, check=False, timeout=120)


def all_figures() -> str:
    queue = QueueFigures("core", 3, 1, 2, 60, 17, 20, 0)
    return text_of([queue], 1, {"acme/lib": 30}, True, OfWorkers(4, 0)) + counted(COUNTS, BUCKETS)


def metrics_of(text: str) -> set[str]:
    return set(re.findall(r"\b(?:gated|node)_[a-z_]+", text))


class FiguresTest(unittest.TestCase):
    def test_they_are_as_prometheus_wants_them(self) -> None:
        ran = promtool("check", "metrics", given=all_figures())
        self.assertEqual((ran.returncode, ran.stdout + ran.stderr), (0, ""))

    def test_what_isnt_so_is_found(self) -> None:
        self.assertNotEqual(promtool("check", "metrics", given=all_figures().replace("_total", "")).returncode, 0)

    def test_a_histogram_counts_what_is_below_each_bound(self) -> None:
        rows = [it for it in all_figures().splitlines() if it.startswith("gated_approval_to_landing_seconds")]
        self.assertEqual(rows[:1] + rows[-4:], [
            'gated_approval_to_landing_seconds_bucket{queue="core",le="60"} 1',
            'gated_approval_to_landing_seconds_bucket{queue="core",le="86400"} 1',
            'gated_approval_to_landing_seconds_bucket{queue="core",le="+Inf"} 2',
            'gated_approval_to_landing_seconds_sum{queue="core"} 90.5',
            'gated_approval_to_landing_seconds_count{queue="core"} 2'])


class AlertsTest(unittest.TestCase):
    def setUp(self) -> None:
        self.names = re.findall(r"^ *- alert: (\w+)$", ALERTS.read_text(), re.MULTILINE)

    def test_they_are_rules(self) -> None:
        ran = promtool("check", "rules", ALERTS)
        self.assertEqual(ran.returncode, 0, ran.stderr)
        self.assertIn(f"SUCCESS: {len(self.names)} rules found", ran.stdout)

    def test_a_gate_that_is_well_raises_none(self) -> None:
        self.assertEqual(sorted(re.findall(r"alertname: (\w+)", TESTS.read_text())), sorted(self.names))
        ran = promtool("test", "rules", TESTS)
        self.assertEqual(ran.returncode, 0, ran.stdout + ran.stderr)

    def test_each_is_raised_by_what_it_is_for(self) -> None:
        """From the minute on that its question and its time say, and no other one by that."""
        self.assertEqual(sorted([*RAISED, *TWO]), sorted(self.names))
        tests = [self.raised(name, [(series, values), *BESIDE.get(name, ())], at, labels)
                 for name, (series, values, at, labels) in RAISED.items()]
        tests += [self.raised(name, [*both], at, labels) for name, (*both, at, labels) in TWO.items()]
        with tempfile.NamedTemporaryFile("w", suffix=".yml") as file:
            json.dump({"rule_files": [str(ALERTS)], "evaluation_interval": "1m", "tests": tests}, file)
            file.flush()
            ran = promtool("test", "rules", Path(file.name))
        self.assertEqual(ran.returncode, 0, ran.stdout + ran.stderr)

    def raised(self, name: str, series: list[tuple[str, str]], at: int, labels: dict[str, str]) -> dict[str, Any]:
        """A test by which these series raise an alert from a minute on."""
        severity = re.search(rf"alert: {name}\n(?:.*\n)*? *labels: {{severity: (\w+)}}", ALERTS.read_text())
        assert severity is not None
        found = {"alertname": name, "alertstate": "firing", "instance": "gate", "severity": severity[1], **labels}
        shown = "ALERTS{" + ",".join(f'{label}="{value}"' for label, value in found.items()) + "}"
        asked = {"expr": 'ALERTS{alertstate="firing"}'}
        return {"name": name, "interval": "1m",
                "input_series": [{"series": it, "values": values} for it, values in series],
                "promql_expr_test": [{**asked, "eval_time": f"{at - 1}m", "exp_samples": []},
                                     {**asked, "eval_time": f"{at}m",
                                      "exp_samples": [{"labels": shown, "value": 1}]}]}

    def test_they_and_the_dashboard_are_about_figures_that_are_written(self) -> None:
        written = metrics_of(all_figures()) | {"node_textfile_mtime_seconds"}
        for file in (ALERTS, DASHBOARD):
            self.assertLessEqual(metrics_of(file.read_text()), written, file)

    def test_each_figure_that_operators_are_to_watch_has_an_alert(self) -> None:
        page = (TOP / "docs" / "OPERATING.md").read_text()
        table = page[page.index("| metric | alert when |"):].partition("\n\n")[0]
        watched = {name for row in table.splitlines()[2:] for name in metrics_of(row.split("|")[1])}
        self.assertGreater(len(watched), 10)
        self.assertLessEqual(watched, metrics_of(ALERTS.read_text()))


class DashboardTest(unittest.TestCase):
    def test_each_panel_asks_for_what_prometheus_reads(self) -> None:
        said = json.loads(DASHBOARD.read_text())
        questions = [target["expr"] for panel in said["panels"] for target in panel.get("targets", [])]
        self.assertGreater(len(questions), 8)
        rules = {"groups": [{"name": "asked", "rules": [
            {"record": f"asked:{at}", "expr": it.replace("$__rate_interval", "5m").replace("$__range", "1d")}
            for at, it in enumerate(questions)]}]}
        with tempfile.NamedTemporaryFile("w", suffix=".yml") as file:
            json.dump(rules, file)
            file.flush()
            ran = promtool("check", "rules", Path(file.name))
        self.assertEqual(ran.returncode, 0, ran.stdout + ran.stderr)
        self.assertEqual(len({it["id"] for it in said["panels"]}), len(said["panels"]))

    def test_it_shows_all_figures(self) -> None:
        shown, took = metrics_of(DASHBOARD.read_text()), "gated_approval_to_landing_seconds"
        left_out = {took, f"{took}_sum", f"{took}_count"}
        self.assertEqual(metrics_of(all_figures()) - left_out - shown, set())


if __name__ == "__main__":
    unittest.main()
