"""The settings of a simulated forge: defaults, a file of one's own over them, variants, and the gate's own settings."""
import copy
import json

# Changes an hour, by the hour of the day: an office that works from seven to six.
DAY = [2, 1, 1, 1, 2, 4, 8, 14, 20, 24, 24, 20, 18, 22, 24, 22, 18, 12, 8, 6, 5, 4, 3, 2]

DEFAULTS = {
    "seed": 1,
    "hours": 24,
    "workers": 30,
    "ask_seconds": 15,
    "watch_seconds": 60,
    "outage": {"hour": 0, "minutes": 0},
    "stream": {"by_hour": DAY, "recorded": [], "breaks": 0.08, "conflicts": 0.02, "needs": 0.05},
    "builds": {"spread": 0.35, "lost": 0.005, "told_after_minutes": 10},
    "forge": {"ask_seconds": 5, "merge_seconds": 10, "refuses": 0.005},
    "authors": {"again": 0.8, "after_minutes": 90, "retry_minutes": 10, "tries": 5},
    "others": {"batch": 16},
    "queues": {"core": {"window": 20, "floor": 3}, "web": {"window": 20, "floor": 3}},
    "projects": {
        "lib": {
            "queue": "core",
            "share": 4,
            "jobs": {"unit": {"minutes": 12}, "whole": {"minutes": 30}, "docs": {"minutes": 4, "voting": False}},
        },
        "app": {"queue": "core", "share": 3, "jobs": {"unit": {"minutes": 10}, "whole": {"minutes": 30}}},
        "site": {"queue": "web", "share": 2, "jobs": {"unit": {"minutes": 8}}},
    },
    "variants": {
        "window 20, halving": {},
        "no bound": {"queues": {"*": {"window": 0}}},
        "window 20, fixed": {"queues": {"*": {"increase": "exponential", "increase_by": 1, "decrease_by": 1}}},
        "window 20, halving, failing fast": {"projects": {"*": {"fail_fast": True}}},
    },
}

QUEUE = {"window": 20, "floor": 3, "increase": "linear", "increase_by": 1, "decrease": "exponential", "decrease_by": 2}
PROJECT = {"queue": "", "share": 1, "fail_fast": False, "jobs": {}}
JOB = {"minutes": 10, "voting": True}

# A file of one's own names all of these where it names one.
WHOLE = ("queues", "projects", "variants")


class BadSettings(Exception):
    """The settings can't be simulated."""


def laid_over(under, over, where="settings"):
    """The members of `over` in place of those of `under`; a name that isn't there is a slip of the pen."""
    for name, value in over.items():
        if name not in under:
            raise BadSettings(f"{where}: no member {name}; there are {', '.join(under)}")
        if isinstance(under[name], dict) and name not in WHOLE:
            laid_over(under[name], value, f"{where}, {name}")
        elif isinstance(value, (list, dict)) != isinstance(under[name], (list, dict)) and name != "recorded":
            raise BadSettings(f"{where}: {name} is to be as {under[name]!r}")
        else:
            under[name] = value
    return under


def filled(settings):
    """With the defaults of each queue, project and job."""
    for name, queue in settings["queues"].items():
        settings["queues"][name] = laid_over(dict(QUEUE), queue, f"queue {name}")
    for name, project in settings["projects"].items():
        project = {**PROJECT, **project}
        if set(project) != set(PROJECT) or project["queue"] not in settings["queues"]:
            raise BadSettings(f"project {name}: has {', '.join(PROJECT)}, and a queue that is there")
        jobs = {job: laid_over(dict(JOB), given, f"job {job} of {name}") for job, given in project["jobs"].items()}
        settings["projects"][name] = {**project, "jobs": jobs}
    return settings


def read(path=None, over=None):
    """The settings of a file, or the defaults, with some members laid over."""
    settings = copy.deepcopy(DEFAULTS)
    if path:
        with open(path, encoding="utf-8") as file:
            laid_over(settings, json.load(file))
    return filled(laid_over(settings, copy.deepcopy(over or {})))


def merged(under, over):
    """A variant: members of members too, and `*` for each one there."""
    result = dict(under)
    for name, value in over.items():
        for key in list(under) if name == "*" else [name]:
            if key not in under:
                raise BadSettings(f"a variant has {key}, which is in none of {', '.join(under)}")
            result[key] = merged(under[key], value) if isinstance(value, dict) else value
    return result


def variants(settings):
    """Each variant's name and settings."""
    return [(name, merged(settings, over)) for name, over in settings["variants"].items()] or [("gated", settings)]


def gate_text(settings):
    """The settings file of the gate itself."""
    parts = ['[forge]\nbase = "https://forge/c/"\n']
    for name, queue in settings["queues"].items():
        members = "".join(f"{member} = {json.dumps(value)}\n" for member, value in queue.items())
        parts.append(f'[[queue]]\nname = "{name}"\n{members}')
    for name, project in settings["projects"].items():
        fast = json.dumps(project["fail_fast"])
        parts.append(f'[[project]]\nname = "{name}"\nqueue = "{project["queue"]}"\nfail_fast = {fast}\n')
        for job, given in project["jobs"].items():
            parts.append(f'[[project.job]]\nname = "{job}"\nvoting = {json.dumps(given["voting"])}\n')
    return "\n".join(parts)


def voting_jobs(project):
    return [job for job, given in project["jobs"].items() if given["voting"]]
