"""The figures of a run, of the real gate and of each model alike, and their table."""
import math

COLUMNS = [
    ("gate", "gate"),
    ("landed", "landed"),
    ("landings an hour", "rate"),
    ("median minutes", "median"),
    ("95 of 100 within", "late"),
    ("good ones out", "out"),
    ("builds", "started"),
    ("used", "used"),
    ("thrown away", "thrown"),
    ("workers busy", "busy"),
    ("longest queue", "longest"),
    ("deliveries an hour", "told"),
    ("questions an hour", "asked"),
]

# Of the heads: a good one that is out left the queue though it fails on nothing that had landed; a build is used if it
# counted to the end, and thrown away if the gate no longer wanted it; a question is a GET, or a `take` that found none.


def quantile(values, share):
    """The least value that is no less than this share of them; none of no values."""
    return sorted(values)[math.ceil(share * len(values)) - 1] if values else None


def measured(name, settings, run, use, told=None, asked=None):
    """`run` is a fleet or a model: both keep what landed, when, and how long workers were busy."""
    hours, workers = settings["hours"], settings["workers"]
    return {
        "gate": name,
        "landed": len(run.landed),
        "rate": len(run.landed) / hours,
        "median": quantile(run.latencies, 0.5),
        "late": quantile(run.latencies, 0.95),
        "out": run.good_ones_out,
        "started": sum(use.values()),
        "used": use["used"],
        "thrown": use["thrown away"],
        "lost": use["lost"],
        "busy": run.busy / (workers * hours * 3600),
        "longest": run.longest,
        "worker_hours": run.busy / 3600,
        "told": (sum(told.values()) - told["idle"]) / hours if told else None,
        "asked": (sum(asked.values()) + told["idle"]) / hours if told else None,
    }


def shown(key, value):
    if value is None:
        return "-"
    if key in ("median", "late"):
        return f"{value / 60:.0f}"
    if key == "busy":
        return f"{100 * value:.0f} %"
    if key == "rate":
        return f"{value:.1f}"
    return f"{value:.0f}" if isinstance(value, float) else str(value)


def rows_of(runs):
    return [[head for head, _ in COLUMNS]] + [[shown(key, run[key]) for _, key in COLUMNS] for run in runs]


def as_text(rows):
    """A table for a terminal: the first column left, the others right, heads broken over lines."""
    heads = [head.split(" ") for head in rows[0]]
    deep = max(map(len, heads))
    lines = [[(head[at] if at < len(head) else "") for head in heads] for at in range(deep)] + rows[1:]
    widths = [max(len(line[at]) for line in lines) for at in range(len(heads))]
    return "\n".join(
        "  ".join(cell.rjust(width) if at else cell.ljust(width) for at, (cell, width) in enumerate(zip(line, widths)))
        for line in lines
    )


def as_markdown(rows):
    lines = ["| " + " | ".join(row) + " |" for row in rows]
    return "\n".join([lines[0], "|" + "---|" * len(rows[0]), *lines[1:]])
