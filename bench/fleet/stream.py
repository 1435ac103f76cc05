"""What a forge is faced with, drawn from a seed alone: changes, what is wrong with them, and how long builds take.

Nothing here depends on the gate, so each gate and each model of another one meets the same.
"""
import json
import random
from collections import defaultdict, namedtuple

import settings as given

# The change comes at so many seconds, and needs others by number.
Change = namedtuple("Change", "number project at needs")

# A job that it breaks by itself; a change with which it breaks a job, and which job; whether it can't be merged.
Truth = namedtuple("Truth", "breaks rival rival_job refused")

# How long a build takes, when in this time a failure shows, and whether its worker is lost.
Length = namedtuple("Length", "seconds fails_at lost")


class Stream:
    def __init__(self, settings):
        self.settings = settings
        self.projects = settings["projects"]
        self.truths = {}
        self.rivals = defaultdict(list)
        self.changes = {}
        recorded = settings["stream"]["recorded"]
        for number, (at, project, needs, breaks) in enumerate(self.recorded(recorded) if recorded else self.drawn(), 1):
            self.changes[number] = Change(number, project, at, needs)
            self.truths[number, 1] = self.first_truth(number, project, breaks)
            if self.truths[number, 1].rival:
                self.rivals[self.truths[number, 1].rival].append(number)

    def random(self, *words):
        """A source of its own for each question, so that the answer doesn't depend on what was asked before."""
        return random.Random(" ".join(str(word) for word in (self.settings["seed"], *words)))

    def times(self):
        """A Poisson stream by the rates of the hours."""
        source, at, end = self.random("times"), 0.0, self.settings["hours"] * 3600
        rates = self.settings["stream"]["by_hour"]
        while True:
            due = source.expovariate(1)
            while True:
                rate, hour_end = rates[int(at // 3600) % len(rates)] / 3600, (at // 3600 + 1) * 3600
                if rate * (hour_end - at) >= due:
                    at += due / rate
                    break
                due, at = due - rate * (hour_end - at), hour_end
                if at >= end:
                    return
            if at >= end:
                return
            yield at

    def drawn(self):
        names, shares = list(self.projects), [project["share"] for project in self.projects.values()]
        source, chance = self.random("stream"), self.settings["stream"]["needs"]
        for number, at in enumerate(self.times(), 1):
            project = source.choices(names, shares)[0]
            need = source.random() < chance and number > 1
            yield at, project, [source.randint(max(1, number - 5), number - 1)] if need else [], None

    def recorded(self, rows):
        """Objects with `hour` and `project`, and perhaps `needs` and the job that the change `breaks`, "" for none."""
        if isinstance(rows, str):
            with open(rows, encoding="utf-8") as file:
                rows = json.load(file)
        for row in sorted(rows, key=lambda row: row["hour"]):
            if row["project"] not in self.projects:
                raise given.BadSettings(f"recorded: no project {row['project']}")
            yield row["hour"] * 3600, row["project"], row.get("needs", []), row.get("breaks")

    def first_truth(self, number, project, breaks):
        """What is wrong with a first revision; a rival is one of the ten changes of its queue before it."""
        truth = self.drawn_truth(number, 1, project)
        source, rival = self.random("rival", number), None
        queue = self.projects[project]["queue"]
        near = [other for other in range(max(1, number - 20), number)
                if self.projects[self.changes[other].project]["queue"] == queue][-10:]
        if near and source.random() < self.settings["stream"]["conflicts"]:
            rival = source.choice(near)
        job = source.choice(given.voting_jobs(self.projects[project]))
        breaks = truth.breaks if breaks is None else breaks or None
        return truth._replace(breaks=breaks, rival=rival, rival_job=job)

    def drawn_truth(self, number, revision, project):
        source = self.random("truth", number, revision)
        breaks = source.random() < self.settings["stream"]["breaks"]
        job = source.choice(given.voting_jobs(self.projects[project]))
        refused = source.random() < self.settings["forge"]["refuses"]
        return Truth(job if breaks else None, None, None, refused)

    def truth(self, number, revision):
        """A later revision has a chance of its own to break a job, and no rival."""
        if (number, revision) not in self.truths:
            self.truths[number, revision] = self.drawn_truth(number, revision, self.changes[number].project)
        return self.truths[number, revision]

    def fails(self, job, fresh, landed):
        """Whether a build of this job fails on what has landed and then on `fresh`: both give a change's revision."""
        for number, revision in fresh.items():
            if self.truth(number, revision).breaks == job:
                return True
            if revision == 1 and any(
                job == broken and (fresh.get(other) or landed(other)) == 1 for other, broken in self.pairs(number)
            ):
                return True
        return False

    def pairs(self, number):
        """The rivals of a change in its first revision, each with the job that the two break together."""
        own = self.truths[number, 1]
        if own.rival:
            yield own.rival, own.rival_job
        for other in self.rivals[number]:
            yield other, self.truths[other, 1].rival_job

    def is_guilty(self, number, revision, landed):
        """Whether this revision can't land: it breaks a voting job on what has landed, or it can't be merged."""
        jobs = given.voting_jobs(self.projects[self.changes[number].project])
        return self.truth(number, revision).refused or any(
            self.fails(job, {number: revision}, landed) for job in jobs
        )

    def length(self, number, revision, job, place):
        """Of the build at this place among those of the job and the revision."""
        builds = self.settings["builds"]
        source = self.random("length", number, revision, job, place)
        median = self.projects[self.changes[number].project]["jobs"][job]["minutes"] * 60
        seconds = median * source.lognormvariate(0, builds["spread"])
        return Length(seconds, seconds * source.random(), source.random() < builds["lost"])

    def comes_back(self, number, revision, guilty, tries, now):
        """When and as which revision a change that left comes back; None if its author gives up."""
        authors = self.settings["authors"]
        source = self.random("back", number, revision, tries)
        if tries >= authors["tries"] or source.random() >= authors["again"]:
            return None
        minutes = authors["after_minutes"] if guilty else authors["retry_minutes"]
        return now + minutes * 60 * source.lognormvariate(0, 0.5), revision + (1 if guilty else 0)
