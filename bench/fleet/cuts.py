"""A forge of 1,000 projects, cut into gates that share nothing: each a file and a process, with workers of its own.

Projects that need each other are a family, and stay together: 125 families of eight. A gate has a queue a family, where
its settings allow as many: 32 queues and 256 projects. One gate for all has four families in a queue, and four
projects under one name.
"""
import os
import random

import measures
import plot
import settings as given

PROJECTS, FAMILY, GATES = 1000, 8, [1, 4, 16, 64]
RATE, WORKERS, QUEUES, NAMES = 500, 320, 32, 256
HOURS = int(os.environ.get("HOURS", 12)) / 4
OUTAGE = {"hour": HOURS / 3, "minutes": 20 * HOURS}
DISKS = [0.1, 1, 5]


def changes():
    """The same for each cut: the hour, the project, whether it fails, and whether it needs the one before it."""
    source = random.Random("projects")
    projects = list(range(PROJECTS))
    source.shuffle(projects)
    shares = [1 / (place + 1) ** 0.8 for place in range(PROJECTS)]
    hour, found = 0.0, []
    while True:
        hour += source.expovariate(RATE)
        if hour >= HOURS:
            return found
        project = source.choices(projects, shares)[0]
        found.append((hour, project, source.random() < 0.05, source.random() < 0.05))


def gates_of_families(count, stream):
    """The busiest family first, each to the gate that has least so far."""
    load = [0] * (PROJECTS // FAMILY)
    for _, project, _, _ in stream:
        load[project // FAMILY] += 1
    gates = [[0, []] for _ in range(count)]
    for family in sorted(range(len(load)), key=lambda family: -load[family]):
        roomy = [gate for gate in gates if len(gate[1]) < NAMES // FAMILY] if count > 1 else gates
        least = min(roomy, key=lambda gate: gate[0])
        least[0] += load[family]
        least[1].append(family)
    return [families for _, families in gates]


def gate_kept_settings(families, stream, outage=None):
    """The forge as this gate sees it."""
    is_folded = len(families) > QUEUES
    queue = {family: f"q{place % QUEUES if is_folded else place}" for place, family in enumerate(families)}

    def name(project):
        return f"p{project // 4 if is_folded else project}"

    rows, last = [], {}
    for hour, project, fails, needs in stream:
        family = project // FAMILY
        if family in queue:
            row = {"hour": hour, "project": name(project), "breaks": "unit" if fails else ""}
            if needs and family in last:
                row["needs"] = [last[family]]
            rows.append(row)
            last[family] = len(rows)
    owned = [project for family in families for project in range(family * FAMILY, (family + 1) * FAMILY)]
    return given.read(over={
        "hours": HOURS,
        "workers": max(1, round(WORKERS * len(rows) / len(stream))),
        "stream": {"recorded": rows, "conflicts": 0},
        "outage": outage or {},
        "queues": {name: {} for name in dict.fromkeys(queue.values())},
        "projects": {
            name(project): {"queue": queue[project // FAMILY], "jobs": {"unit": {"minutes": 15}}} for project in owned
        },
        "variants": {},
    })


def busiest(cut, stream):
    """The gate with most changes."""
    return max(range(len(cut)), key=lambda gate: sum(project // FAMILY in cut[gate] for _, project, _, _ in stream))


def ask_for_all(suite):
    stream = changes()
    for count in GATES:
        cut = gates_of_families(count, stream)
        for gate, families in enumerate(cut):
            suite.ask(("cut", count, gate), gate_kept_settings(families, stream), f"gate {gate + 1} of {count}")
        lost = busiest(cut, stream)
        suite.ask(("lost", count), gate_kept_settings(cut[lost], stream, OUTAGE), f"{count} gates, one lost")


def runs(suite):
    """For each cut the figures of its gates, which gate is lost, and that one's figures then."""
    stream, found = changes(), {}
    for count in GATES:
        cut = gates_of_families(count, stream)
        figures = [suite.get(("cut", count, gate))[0] for gate in range(count)]
        found[count] = figures, busiest(cut, stream), suite.get(("lost", count))[0]
    return found


def load(run, syncs, milliseconds):
    """The share of its time that a gate is at work: its processor time, and the syncs of its deliveries."""
    return (run["seconds"] + run["told"] * HOURS * syncs * milliseconds / 1000) / (HOURS * 3600)


def tables(found, pictures, syncs):
    rows = [["gates", "queues", "landings an hour", "median minutes", "95 of 100 within", "thrown away, a landing",
             "deliveries an hour, the busiest gate", "its share of all", "it is at work, at 1 ms a sync"]]
    outages = [["gates", "landed", "landed, the busiest gate out of reach for a third of the time", "95 of 100 within",
                "95 of 100 within, lost"]]
    series = [(f"{disk:g} ms a sync", []) for disk in DISKS]
    for count, (figures, lost, run) in found.items():
        landed = sum(figure["landed"] for figure in figures)
        late = [latency for figure in figures for latency in figure["latencies"]]
        told = max(figure["told"] for figure in figures)
        busy = max(load(figure, syncs, 1) for figure in figures)
        thrown = sum(figure["thrown"] for figure in figures) / landed
        rows.append([
            str(count), str(sum(figure["queues"] for figure in figures)), f"{landed / HOURS:,.0f}",
            f"{measures.quantile(late, 0.5) / 60:.0f}", f"{measures.quantile(late, 0.95) / 60:.0f}", f"{thrown:.1f}",
            f"{told:,.0f}", f"{100 * told / sum(figure['told'] for figure in figures):.0f} %", f"{100 * busy:.2g} %",
        ])
        for (_, points), disk in zip(series, DISKS):
            points.append((count, landed / HOURS / max(load(figure, syncs, disk) for figure in figures)))
        rest = [figure for gate, figure in enumerate(figures) if gate != lost] + [run]
        late_lost = [latency for figure in rest for latency in figure["latencies"]]
        outages.append([
            str(count), f"{landed:,}", f"{sum(figure['landed'] for figure in rest):,}",
            f"{measures.quantile(late, 0.95) / 60:.0f}", f"{measures.quantile(late_lost, 0.95) / 60:.0f}",
        ])
    plot.lines(os.path.join(pictures, "gates.svg"), "Landings an hour once the busiest gate is full", "gates",
               "landings an hour", series, x_powers=True, y_powers=True)
    return rows, outages
