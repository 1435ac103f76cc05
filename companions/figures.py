"""A gate's figures as a text file that Prometheus reads, by node_exporter's textfile collector.

When the watch itself is dead the file just gets older: alert on `node_textfile_mtime_seconds` too.
"""
from __future__ import annotations

import os
from collections.abc import Iterable, Mapping, Sequence
from dataclasses import dataclass
from pathlib import Path
from typing import Any

# Of each figure by queue: its name behind `gated_`, and what it says.
OF_QUEUES = (
    ("items", "Items that stand in the queue."),
    ("waiting", "Approved changes that wait to enter the queue."),
    ("running", "Builds of the queue that run and are wanted."),
    ("oldest_seconds", "For how long the first item of the queue has been its first, 0 where there is none."),
    ("landed", "Landings of the queue."),
    ("window", "Items from the front that may get builds, 0 for all of them."),
    ("lander_stopped", "Whether the lander doesn't land what the queue has for it."),
)


@dataclass(frozen=True)
class QueueFigures:
    """What is told of one queue. A queue's name has no character that a label would have to escape.

    `lander_stopped` is none where no lander says so in this folder.
    """
    queue: str
    items: int
    waiting: int
    running: int
    oldest_seconds: int
    landed: int
    window: int
    lander_stopped: int | None = None


@dataclass(frozen=True)
class OfWorkers:
    """What is told of workers: how many are heard, and how many builds they hold."""
    heard: int
    held: int


def text_of(queues: list[QueueFigures] | None, lost: int, blind: Mapping[str, int], accepts: bool | None = None,
            workers: OfWorkers | None = None) -> str:
    """The text of all figures: the queues, how many builds were lost, for how many seconds the adapter hasn't seen each
    repository, whether the gate accepts deliveries, where that is known, and what is heard of workers, where somebody
    hears them. Where the gate doesn't answer there are no queues, and no number of them is told."""
    blocks = [block("up", "gauge", "Whether the gate answers.", [f" {0 if queues is None else 1}"])]
    known = [] if accepts is None else [f" {int(accepts)}"]
    blocks.append(block("accepts", "gauge", "Whether the gate accepts deliveries.", known))
    for name, says in OF_QUEUES:
        rows = [f'{{queue="{it.queue}"}} {getattr(it, name)}' for it in queues or () if getattr(it, name) is not None]
        blocks.append(block(name, "gauge", says, rows))
    blocks.append(block("adapter_blind_seconds", "gauge", "For how long the adapter hasn't seen the repository.",
                        (f'{{repository="{escaped(name)}"}} {seconds}' for name, seconds in sorted(blind.items()))))
    told = ("workers_heard", "Workers that the watch hears."), ("builds_held", "Builds that wait for the settings.")
    for (name, says), number in zip(told, (workers.heard, workers.held) if workers is not None else ()):
        blocks.append(block(name, "gauge", says, [f" {number}"]))
    blocks.append(block("builds_lost_total", "counter", "Builds that the watch has reported as lost.", [f" {lost}"]))
    return "".join(blocks)


def counted(counts: Mapping[str, Any], most: Sequence[int]) -> str:
    """The text of what is counted: by queue, and by verdict or job within it. `most` are the bounds of the buckets."""
    def by(name: str, label: str) -> list[str]:
        return [f'{{queue="{queue}",{label}="{it}"}} {number}' for queue, of in sorted(counts[name].items())
                for it, number in sorted(of.items())]

    took, rows = "approval_to_landing_seconds", list[str]()
    for queue, it in sorted(counts["took"].items()):
        bounds = [*map(str, most), "+Inf"]
        rows += [f'_bucket{{queue="{queue}",le="{bound}"}} {number}'
                 for bound, number in zip(bounds, [*it["buckets"], it["count"]])]
        rows += [f'_sum{{queue="{queue}"}} {it["sum"]:g}', f'_count{{queue="{queue}"}} {it["count"]}']
    return "".join((
        block("items_left_total", "counter", "Items that left the queue, by what became of them.",
              by("left", "verdict")),
        block("jobs_failed_total", "counter", "Items that left as failed, by each job of theirs that failed.",
              by("failed", "job")),
        block("builds_discarded_total", "counter", "Builds of items that left which didn't count, since what they ran"
              " on didn't come true.", by("discarded", "job")),
        block("window_shrinks_total", "counter", "Looks at which the window was smaller than at the look before.",
              [f'{{queue="{queue}"}} {number}' for queue, number in sorted(counts["shrank"].items())]),
        block(took, "histogram", "Seconds from approval to landing, as the watch saw them.", rows)))


def block(name: str, kind: str, says: str, rows: Iterable[str]) -> str:
    """A figure's rows behind its head, or nothing where it has no rows."""
    told = "".join(f"gated_{name}{row}\n" for row in rows)
    return told and f"# HELP gated_{name} {says}\n# TYPE gated_{name} {kind}\n{told}"


def escaped(name: str) -> str:
    """A label's value. The settings don't say of which characters the name of a repository is."""
    return name.replace("\\", "\\\\").replace('"', '\\"').replace("\n", "\\n")


def write(file: Path, text: str) -> None:
    """Writes under a name that no collector reads, and renames: so nobody ever reads a half-written file."""
    new = file.with_name(file.name + ".new")
    new.write_text(text, encoding="utf-8")
    os.replace(new, file)
