"""Other gates over the same stream, each as its model says, in the same virtual time; none is the program of that name.

- One after another: the change at the front of each queue is built on what has landed, and lands or leaves.
- Batches: all that wait, up to a number, are built as one on what has landed. A batch that passes lands whole; one
  that fails is halved, the first half next; one change that fails leaves. Changes that can't be merged leave before.
- The limit: it knows which changes fail or can't be merged, and builds none of these. Each other change is built once,
  with what lands before it, as soon as a worker is free, no worker is lost, and it lands once those before it have.

A change enters once what it needs has landed.
"""
from collections import defaultdict, deque

from clock import Clock
from settings import voting_jobs


class Model:
    """What the models share: changes that come and come back, builds by so many workers, landings, measures."""

    name, loses = "", True

    def __init__(self, settings, stream):
        self.settings, self.stream = settings, stream
        self.clock = Clock(settings["hours"] * 3600, self.name)
        self.free, self.jobs = settings["workers"], deque()
        self.built, self.tries, self.approved_at = defaultdict(int), defaultdict(int), {}
        self.landed, self.latencies, self.good_ones_out = {}, [], 0
        self.busy, self.longest, self.use = 0.0, 0, dict.fromkeys(("used", "thrown away", "lost", "running"), 0)
        self.queues = {queue: deque() for queue in settings["queues"]}
        self.blocked = []

    def run(self):
        for change in self.stream.changes.values():
            self.clock.at(change.at, self.come, change.number, 1)
        self.clock.go(lambda: f"{len(self.landed)} landed")
        self.use["running"] += self.settings["workers"] - self.free
        return self

    def queue_of(self, number):
        return self.settings["projects"][self.stream.changes[number].project]["queue"]

    def come(self, number, revision):
        self.approved_at.setdefault((number, revision), self.clock.now)
        self.tries[number] += 1
        self.blocked.append((number, revision))
        self.admit()

    def admit(self):
        """Those whose needs have landed enter."""
        for entry in list(self.blocked):
            if all(need in self.landed for need in self.stream.changes[entry[0]].needs):
                queue = self.queues[self.queue_of(entry[0])]
                self.blocked.remove(entry)
                queue.append(entry)
                self.longest = max(self.longest, len(queue))
                self.enter(entry)

    def leave(self, number, revision, guilty):
        self.good_ones_out += not guilty
        back = self.stream.comes_back(number, revision, guilty, self.tries[number], self.clock.now)
        if back:
            self.clock.at(back[0], self.come, number, back[1])

    def land(self, number, revision):
        self.landed[number] = revision
        self.latencies.append(self.clock.now - self.approved_at[number, revision])

    def build(self, entry, job, fresh, done):
        """A build of a job of this change on what has landed and on `fresh`; `done` is told whether it passed."""
        self.jobs.append((entry, job, fresh, done, 1))
        self.give_out()

    def give_out(self):
        while self.free and self.jobs:
            entry, job, fresh, done, round_ = self.jobs.popleft()
            self.free -= 1
            length = self.stream.length(*entry, job, self.built[entry, job])
            self.built[entry, job] += 1
            failed, lost = self.stream.fails(job, fresh, self.landed.get), length.lost and self.loses
            seconds = length.fails_at if failed or lost else length.seconds
            if lost:
                seconds += self.settings["builds"]["told_after_minutes"] * 60
            self.busy += min(seconds, self.clock.end - self.clock.now)
            self.clock.at(self.clock.now + seconds, self.end, lost, failed, (entry, job, fresh, done, round_))

    def end(self, lost, failed, build):
        entry, job, fresh, done, round_ = build
        self.free += 1
        if lost:
            self.use["lost"] += 1
        if lost and round_ < 3:
            self.jobs.appendleft((entry, job, fresh, done, round_ + 1))
        else:
            done(not failed and not lost, lost)
        self.give_out()


class Batches(Model):
    """One after another is batches of one."""

    name, size = "batches", None

    def __init__(self, settings, stream):
        super().__init__(settings, stream)
        self.size = self.size or settings["others"]["batch"]
        self.halves = {queue: deque() for queue in settings["queues"]}
        self.at_work = set()

    def enter(self, entry):
        self.begin(self.queue_of(entry[0]))

    def begin(self, queue):
        if queue in self.at_work or not (self.halves[queue] or self.queues[queue]):
            return
        self.at_work.add(queue)
        if self.halves[queue]:
            batch = self.halves[queue].popleft()
        else:
            batch = list(self.queues[queue])[: self.size]
        if self.size > 1:
            batch = self.merged(queue, batch)
        if not batch:
            self.at_work.discard(queue)
            self.begin(queue)
            return
        # A job that several projects have is built once a batch, as the last change that has it.
        jobs = {job: entry for entry in batch for job in self.settings["projects"][self.project(entry)]["jobs"]}
        left = {"jobs": len(jobs), "failed": False, "lost": False, "count": len(jobs)}
        for job, entry in jobs.items():
            votes = any(job in voting_jobs(self.settings["projects"][self.project(other)]) for other in batch)
            self.build(entry, job, dict(batch), lambda *how, votes=votes: self.hear(queue, batch, left, votes, *how))

    def project(self, entry):
        return self.stream.changes[entry[0]].project

    def merged(self, queue, batch):
        """Without those that can't be merged."""
        for entry in [entry for entry in batch if self.stream.truth(*entry).refused]:
            batch.remove(entry)
            self.queues[queue].remove(entry)
            self.leave(*entry, True)
        return batch

    def hear(self, queue, batch, left, votes, passed, lost):
        left["jobs"] -= 1
        left["failed"] |= votes and not passed
        left["lost"] |= lost
        if left["jobs"]:
            return
        if left["failed"] and len(batch) > 1:
            self.use["thrown away"] += left["count"]
            half = (len(batch) + 1) // 2
            self.halves[queue].extendleft([batch[half:], batch[:half]])
            self.next(queue)
        elif left["failed"]:
            self.use["used"] += left["count"]
            self.queues[queue].remove(batch[0])
            self.leave(*batch[0], self.stream.is_guilty(*batch[0], self.landed.get))
            self.next(queue)
        else:
            self.use["used"] += left["count"]
            self.clock.at(self.clock.now + self.settings["forge"]["merge_seconds"], self.merge, queue, batch)

    def merge(self, queue, batch):
        for entry in batch:
            self.queues[queue].remove(entry)
            if self.stream.truth(*entry).refused:
                self.leave(*entry, True)
            else:
                self.land(*entry)
        self.next(queue)

    def next(self, queue):
        self.at_work.discard(queue)
        self.admit()
        self.begin(queue)


class OneAfterAnother(Batches):
    name, size = "one after another", 1


class Limit(Model):
    name, loses = "the limit", False

    def __init__(self, settings, stream):
        super().__init__(settings, stream)
        self.waits, self.good, self.merging = {}, {}, set()

    def enter(self, entry):
        queue = self.queue_of(entry[0])
        ahead = {**self.landed, **{number: revision for number, revision in self.queues[queue] if number != entry[0]}}
        if self.stream.is_guilty(*entry, ahead.get):
            self.queues[queue].remove(entry)
            self.leave(*entry, True)
            return
        jobs = self.settings["projects"][self.stream.changes[entry[0]].project]["jobs"]
        self.waits[entry] = len(jobs)
        for job in jobs:
            self.build(entry, job, {}, lambda passed, lost: self.hear(entry))

    def hear(self, entry):
        self.use["used"] += 1
        self.waits[entry] -= 1
        self.land_those_at_front(self.queue_of(entry[0]))

    def land_those_at_front(self, queue):
        if queue in self.merging or not self.queues[queue] or self.waits[self.queues[queue][0]]:
            return
        self.merging.add(queue)
        self.clock.at(self.clock.now + self.settings["forge"]["merge_seconds"], self.merge, queue)

    def merge(self, queue):
        self.merging.discard(queue)
        self.land(*self.queues[queue].popleft())
        self.admit()
        self.land_those_at_front(queue)


MODELS = [OneAfterAnother, Batches, Limit]
