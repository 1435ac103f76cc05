"""The figures and plots of docs/CAPACITY.md: each run that they come from, and what is written where."""
import concurrent.futures
import json
import os
import re
import time

import costs
import cuts
import measures
import plot
import settings as given
from simulate import run_gate, run_models

TOP = os.path.abspath(os.path.join(os.path.dirname(os.path.abspath(__file__)), "..", ".."))
PAGE = os.path.join(TOP, "docs", "CAPACITY.md")
PICTURES = os.path.join(TOP, "docs", "capacity")

HOURS = int(os.environ.get("HOURS", 12))
RATES = [0.01, 0.05, 0.10, 0.20]
FLEETS = [10, 20, 40, 80, 160]
FAST_RATES, FAST_FLEETS = [0.05, 0.20], [100, 30]

FIXED = {"increase": "exponential", "increase_by": 1, "decrease": "exponential", "decrease_by": 1}
RULES = {
    "no bound": {"window": 0},
    "fixed at 20": {"window": 20, **FIXED},
    "halving: + 1, / 2": {"window": 20},
    "linear: + 1, - 2": {"window": 20, "decrease": "linear", "decrease_by": 2},
    "exponential: x 2, / 2": {"window": 20, "increase": "exponential", "increase_by": 2},
}
DEFAULT, WIDE, FIXED_20 = "halving: + 1, / 2", "no bound", "fixed at 20"


def forge(rate, queue=None, fast=False, workers=100, **more):
    """A queue that is told more than it can land at the higher failure rates."""
    return given.read(over={
        "hours": HOURS,
        "workers": workers,
        "stream": {"by_hour": [40], "breaks": rate * 0.8, "conflicts": rate * 0.2, "needs": 0.02},
        "authors": {"again": 0},
        "queues": {"core": queue or {}},
        "projects": {
            "lib": {
                "queue": "core",
                "fail_fast": fast,
                "jobs": {"unit": {"minutes": 10}, "whole": {"minutes": 30}},
            }
        },
        "variants": {},
        **more,
    })


def one(program, name, settings):
    """A run of the real gate, with the other models over the same stream where no name is given."""
    if name is None:
        return list(run_models(settings))
    return run_gate(program, name, settings)


class Suite:
    """Runs in processes of their own, so many at a time; each is made once."""

    def __init__(self, program, jobs):
        self.program, self.pool = program, concurrent.futures.ProcessPoolExecutor(jobs)
        self.made, self.due = {}, {}

    def ask(self, key, settings, name):
        """Runs of the same settings are one run."""
        said = json.dumps([name is None, settings])
        if said not in self.made:
            self.made[said] = self.pool.submit(one, self.program, name, settings)
        self.due[key] = self.made[said]

    def get(self, key):
        return self.due[key].result()


def percent(rate):
    return f"{100 * rate:.0f} %"


def table(rows, picture=None, says=""):
    """A table, and a plot below it."""
    return measures.as_markdown(rows) + (f"\n\n![{says}](capacity/{picture}.svg)" if picture else "")


def ask_for_all(suite):
    for rate in RATES:
        for rule, queue in RULES.items():
            suite.ask(("rule", rule, rate), forge(rate, queue), f"{rule}, {percent(rate)}")
        suite.ask(("others", rate), forge(rate), None)
    for workers in FAST_FLEETS:
        for rate in FAST_RATES:
            for fast in (False, True):
                settings = forge(rate, None, fast, workers)
                suite.ask(("fast", fast, workers, rate), settings, f"{workers} workers, fast {fast}, {percent(rate)}")
    for workers in FLEETS:
        suite.ask(("fleet", workers), forge(0.05, None, workers=workers), f"{workers} workers")
    cuts.ask_for_all(suite)


def fleets(suite):
    """How many workers a forge wants."""
    rows = [["workers", "landings an hour", "median minutes", "95 of 100 within", "thrown away, a landing", "busy"]]
    for workers in FLEETS:
        run = suite.get(("fleet", workers))[0]
        rows.append([str(workers), f"{run['rate']:.0f}", f"{run['median'] / 60:.0f}", f"{run['late'] / 60:.0f}",
                     f"{run['thrown'] / max(run['landed'], 1):.1f}", percent(run["busy"])])
    for run in suite.get(("others", 0.05)):
        if run["gate"] == "the limit":
            rows.append(["100, the limit", f"{run['rate']:.0f}", f"{run['median'] / 60:.0f}",
                         f"{run['late'] / 60:.0f}", "0", percent(run["busy"])])
    return table(rows)


def windows(suite):
    """Landings an hour against builds thrown away, by rule and failure rate."""
    runs = {(rule, rate): suite.get(("rule", rule, rate))[0] for rule in RULES for rate in RATES}
    head = ["rule of the window"] + [f"{percent(rate)} fail" for rate in RATES]
    rows = [head]
    for rule in RULES:
        cells = []
        for rate in RATES:
            run = runs[rule, rate]
            cells.append(f"{run['rate']:.0f}, {run['thrown'] / max(run['landed'], 1):.1f}, {run['median'] / 60:.0f}")
        rows.append([rule] + cells)
    series = [(rule, [(runs[rule, rate]["thrown"] / max(runs[rule, rate]["landed"], 1), runs[rule, rate]["rate"])
                      for rate in RATES]) for rule in RULES]
    plot.lines(os.path.join(PICTURES, "windows.svg"), "Rules of the window, from 1 to 20 % failing (left to right)",
               "builds thrown away, a landing", "landings an hour", series)
    return table(rows, "windows", "Rules of the window")


def fast(suite):
    rows = [["workers", "failing", "fail_fast", "landings an hour", "median minutes", "worker hours a landing",
             "busy", "results that authors of failed changes lack"]]
    groups = []
    for workers in FAST_FLEETS:
        for rate in FAST_RATES:
            values = []
            for is_fast in (False, True):
                run = suite.get(("fast", is_fast, workers, rate))[0]
                each = run["worker_hours"] / max(run["landed"], 1)
                values.append(each)
                rows.append([str(workers), percent(rate), "yes" if is_fast else "no", f"{run['rate']:.1f}",
                             f"{run['median'] / 60:.0f}", f"{each:.2f}", percent(run["busy"]),
                             f"{run['untold']} of {run['results']}"])
            groups.append((f"{workers}, {percent(rate)}", values))
    plot.bars(os.path.join(PICTURES, "fail_fast.svg"), "Worker hours a landing, by workers and failure rate",
              "worker hours a landing", groups, ["without fail_fast", "with fail_fast"])
    return table(rows, "fail_fast", "Worker hours a landing")


def others(suite):
    """The real gate with three windows beside the models."""
    found = {}
    for rate in RATES:
        for rule in (WIDE, DEFAULT, FIXED_20):
            found["gated, " + rule, rate] = suite.get(("rule", rule, rate))[0]
        for run in suite.get(("others", rate)):
            found[run["gate"], rate] = run
    names = list(dict.fromkeys(name for name, _ in found))
    rows = [["gate"] + [f"{percent(rate)} fail" for rate in RATES]]
    for name in names:
        runs = [found[name, rate] for rate in RATES]
        rows.append([name] + [f"{run['rate']:.1f}, {run['started'] / max(run['landed'], 1):.1f},"
                              f" {run['median'] / 60:.0f}" for run in runs])
    series = [(name, [(100 * rate, found[name, rate]["rate"]) for rate in RATES]) for name in names]
    plot.lines(os.path.join(PICTURES, "others.svg"), "Landings an hour beside other gates", "of 100 changes fail",
               "landings an hour", series)
    return table(rows, "others", "Landings an hour beside other gates")


def reach(program, suite):
    """How far one file goes, by what its deliveries take, at four speeds of a disk: with nothing else at work."""
    settings = forge(0.05, RULES[DEFAULT])
    figures, lines = run_gate(program, "alone", settings)
    assert figures["landed"] == suite.get(("rule", DEFAULT, 0.05))[0]["landed"], "the same run landed other changes"
    found = costs.measured(program, given.gate_text(settings), lines)
    assert found[0]["landings"] == figures["landed"], "the same deliveries landed other changes"
    landed = figures["landed"]
    served = figures["seconds"] / landed
    rows = [["a sync takes", "`deliver`: seconds for all", "landings an hour, `deliver`",
             "landings an hour, `serve`, with its questions"]]
    series = [("deliver, measured", []), ("serve, worked out", [])]
    for run in found:
        sync = run["microseconds"] / 1e6
        told = 3600 * landed / run["seconds"]
        asked = 3600 / (served + run["syncs"] / landed * sync)
        rows.append([f"{run['microseconds'] / 1000:g} ms", f"{run['seconds']:.1f}", rounded(told), rounded(asked)])
        if sync:
            series[0][1].append((1000 * sync, told))
            series[1][1].append((1000 * sync, asked))
    for name, rate in TOLD.items():
        series.append((name, [(1000 * run["microseconds"] / 1e6, rate) for run in found if run["microseconds"]]))
    plot.lines(os.path.join(PICTURES, "reach.svg"), "Landings an hour of one file", "a sync takes, milliseconds",
               "landings an hour", series, x_powers=True, y_powers=True)
    first = found[0]
    costs_rows = [
        ["of the run", "value"],
        ["deliveries a landing, accepted", f"{first['accepted'] / landed:.1f}"],
        ["deliveries a landing, a `take` that found nothing", f"{(first['lines'] - first['accepted']) / landed:.1f}"],
        ["questions a landing", f"{(figures['asked'] * HOURS - first['lines'] + first['accepted']) / landed:.1f}"],
        ["syncs an accepted delivery", f"{first['syncs'] / first['accepted']:.2f}"],
        ["processor time a delivery, `deliver`", f"{1000 * first['processor'] / first['lines']:.2f} ms"],
        ["processor time a landing, `deliver`", f"{1000 * first['processor'] / landed:.1f} ms"],
        ["processor time a landing, `serve`, with its questions", f"{1000 * served:.1f} ms"],
    ]
    shown = table(rows, "reach", "Landings an hour of one file")
    return table(costs_rows), shown, first["syncs"] / first["accepted"]


# Landings an hour that were told in public, spread over the 24 hours of a day.
TOLD = {"told: Google, 2016": 40000 / 24}


def rounded(value):
    """To two digits: the third is the machine's."""
    digits = 10 ** max(len(str(int(value))) - 2, 0)
    return f"{round(value / digits) * digits:,}"


def put(text, name, block):
    """The block between the marks of its name in the page."""
    pattern = re.compile(rf"(<!-- {name} -->\n).*?(<!-- end -->)", re.S)
    assert len(pattern.findall(text)) == 1, f"docs/CAPACITY.md has no place for {name}"
    return pattern.sub(lambda found: f"{found[1]}\n{block}\n\n{found[2]}", text)


def main(program):
    jobs = int(os.environ.get("JOBS", os.cpu_count() or 1))
    os.makedirs(PICTURES, exist_ok=True)
    suite = Suite(program, jobs)
    ask_for_all(suite)
    blocks = {"fleets": fleets(suite), "windows": windows(suite), "fast": fast(suite), "others": others(suite)}
    many = cuts.runs(suite)
    blocks["costs"], blocks["reach"], syncs = reach(program, suite)
    gates, blocks["outage"] = map(table, cuts.tables(many, PICTURES, syncs))
    blocks["cuts"] = gates + "\n\n![Landings an hour once the busiest gate is full](capacity/gates.svg)"
    runs = [due.result()[0] for said, due in suite.made.items() if not json.loads(said)[0]]
    blocks["made"] = (
        f"Figures of {time.strftime('%d %B %Y', time.gmtime())}, made by runs of {HOURS} hours, those of several gates"
        f" of {cuts.HOURS:g}:\n{len(runs)} runs in which {sum(run['landed'] for run in runs):,} changes landed, shown"
        f" by {sum(run['shown'] for run in runs):,} builds. Every check passed."
    )
    with open(PAGE, encoding="utf-8") as file:
        page = file.read()
    for name, block in blocks.items():
        page = put(page, name, block)
    with open(PAGE, "w", encoding="utf-8") as file:
        file.write(page)
    print(f"wrote {os.path.relpath(PAGE, TOP)} and {os.path.relpath(PICTURES, TOP)}/*.svg")
