"""Works out by docs/RULES.md what the scenes of `crates/limit_tests` that are named below expect: each delivery is told
to a gate that rescans its queue, and its answers and texts have to be those that the tests write from formulas.

sizes.py [SCENE..]: prints a line for each scene.
"""
import sys

FULL, LISTED = 1000, 1000


class Gate:
    """Queues by name with their windows, and the queue and the jobs of each project. All jobs vote."""

    def __init__(self, windows, projects):
        self.windows, self.projects = dict(windows), projects
        self.items, self.landed = {it: [] for it in windows}, {it: [] for it in windows}
        self.reports, self.changes, self.ready = {it: [] for it in windows}, {}, {}
        self.builds, self.orders, self.approvals, self.lines = [], 0, 0, {}

    def line(self, before, change):
        """A number for the list of changes that is another list with one more."""
        return self.lines.setdefault((before, change), len(self.lines) + 1)

    def queue_of(self, change):
        return self.projects[self.changes[change]["project"]][0]

    def item_of(self, change):
        return next((it for it in self.items[self.queue_of(change)] if it["change"] == change), None)

    def slot(self, item, job):
        """What a job has come to by the builds that count; a blocked item has none."""
        told = [it["outcome"] for it in item["live"] if it["job"] == job]
        return next((it for it in ("success", "failure", "running") if it in told), "waiting")

    def settle(self, queue):
        """Rebases and sweeps a queue: no build lives on that ran on another line, and items leave."""
        fine, stays, before, windows = set(), [], 0, self.windows
        there = {it for it, known in self.changes.items() if known["state"] == "landed"}
        for change in self.landed[queue]:
            before = self.line(before, change)
        for item in self.items[queue]:
            needs, line = item["needs"], self.line(before, item["change"])
            blocked = not needs <= fine | there if needs else False
            for build in item["live"]:
                build["live"] = not blocked and build["line"] == line
            item["live"] = [it for it in item["live"] if it["live"]]
            slots = {self.slot(item, job) for job in item["jobs"]} if item["live"] else {"waiting"}
            failing = "failure" in slots
            if needs and not needs <= {it["change"] for it in stays} | there:
                self.leave(queue, item, "needs")
            elif failing and not blocked and not fine and not {"running", "waiting"} & slots:
                windows[queue] = windows[queue] and max(1, windows[queue] // 2)
                self.leave(queue, item, "failed")
            else:
                stays.append(item)
            item.update(line=line, blocked=blocked, fine=not failing and not blocked)
            if item["fine"]:
                fine.add(item["change"])
                before = line
        self.items[queue] = stays

    def leave(self, queue, item, verdict):
        for build in item["live"]:
            build["live"] = False
        item["live"] = []
        self.reports[queue].append((item["order"], item["change"], item["revision"], verdict))

    def admit(self):
        """The first by approval who may enter does, until nobody may."""
        inside = {queue: {it["change"] for it in items} for queue, items in self.items.items()}
        there = {it for it, known in self.changes.items() if known["state"] == "landed"}
        while True:
            for change in self.ready:
                known, queue = self.changes[change], self.queue_of(change)
                if len(inside[queue]) < FULL and known["needs"] <= inside[queue] | there:
                    break
            else:
                return
            del self.ready[change]
            self.orders += 1
            inside[queue].add(change)
            self.items[queue].append({"order": self.orders, "change": change, "revision": known["revision"], "live": [],
                                      "needs": known["needs"], "jobs": self.projects[known["project"]][1]})
            self.settle(queue)

    def take_out(self, change, verdict):
        """Takes a change out of its queue, if it is there."""
        item, queue = self.item_of(change), self.queue_of(change)
        if item:
            self.items[queue].remove(item)
            self.leave(queue, item, verdict)
            self.settle(queue)
            self.admit()
        return item

    def revision(self, change, project="lib", revision=1, needs=()):
        if change in self.changes:
            self.take_out(change, "superseded")
        self.changes[change] = {"project": project, "revision": revision, "needs": set(needs), "state": "open"}
        return "recorded"

    def approved(self, change):
        self.approvals += 1
        self.ready[change] = self.approvals
        self.admit()
        item = self.item_of(change)
        return item["order"] if item else "waiting"

    def withdrawn(self, change):
        return "removed" if self.take_out(change, "withdrawn") else "recorded"

    def closed(self, change):
        self.changes[change]["state"] = "closed"
        return "recorded"

    def take(self):
        """The queue, the change, the job and the changes ahead of the build that a worker is given."""
        for queue, items in self.items.items():
            ahead = []
            for item in items[:self.windows[queue] or None]:
                for job in item["jobs"]:
                    if not item["blocked"] and self.slot(item, job) == "waiting":
                        build = {"number": len(self.builds) + 1, "order": item["order"], "job": job, "live": True,
                                 "line": item["line"], "outcome": "running", "queue": queue, "change": item["change"]}
                        self.builds.append(build)
                        item["live"].append(build)
                        return queue, item["change"], job, ahead
                if item["fine"]:
                    ahead = ahead + [item["change"]]
        return None

    def result(self, number, outcome):
        build = self.builds[number - 1]
        build["outcome"] = outcome
        self.settle(build["queue"])
        self.admit()
        return "noted"

    def landed_by(self, change):
        item, queue = self.item_of(change), self.queue_of(change)
        self.items[queue].remove(item)
        self.landed[queue].append(change)
        self.leave(queue, item, "landed")
        self.changes[change]["state"] = "landed"
        self.settle(queue)
        self.admit()
        return len(self.landed[queue])

    def running(self):
        """The live builds that run, as `/running` lists them."""
        return [it["number"] for items in self.items.values() for item in items for it in item["live"]
                if it["outcome"] == "running"]


JOBS = [f"job-{n}" for n in range(1, 33)]
ONE, TWO = {"core": 2}, {"core": 2, "web": 2}
UNBOUNDED = {"core": 0, "web": 0}
PROJECTS = {"lib": ("core", ["unit"]), "site": ("web", ["unit"])}
LARGE = {"app": ("core", ["unit"]), "lib": ("core", JOBS), "site": ("web", JOBS)}


def crowds():
    """One of 1,300 changes enters a full queue, beside a queue of 300, once there is room."""
    gate = Gate(TWO, PROJECTS)
    for n in range(1, 2301):
        gate.revision(n)
        assert gate.approved(n) == (n if n <= 1000 else "waiting")
    for n in range(1, 301):
        gate.revision(n + 3000, "site")
        assert gate.approved(n + 3000) == n + 1000
    assert list(gate.ready) == list(range(1001, 2301))
    gate.revision(1, "lib", 2)
    assert gate.take() == ("core", 2, "unit", []) and len(gate.items["core"]) == FULL
    assert gate.item_of(1001)["order"] == 1301 and gate.ready[2300] == 2300 and 1001 not in gate.ready


def histories():
    """One change enters a queue and is withdrawn 10,000 times."""
    gate = Gate(ONE, PROJECTS)
    gate.revision(101)
    for n in range(1, 10_001):
        assert gate.approved(101) == n and gate.withdrawn(101) == "removed"
    assert gate.reports["core"] == [(n, 101, 1, "withdrawn") for n in range(1, 10_001)]


def needed():
    """650 changes enter a queue with the one that they need, and 999 leave it as that fails."""
    gate = Gate(ONE, PROJECTS)
    for n in range(2, 652):
        gate.revision(n, needs=[1])
        assert gate.approved(n) == "waiting"
    gate.revision(1)
    assert gate.approved(1) == 1 and [it["order"] for it in gate.items["core"]] == list(range(1, 652))
    for n in range(652, 1001):
        gate.revision(n, needs=[1])
        assert gate.approved(n) == n
    assert gate.take() == ("core", 1, "unit", []) and gate.result(1, "failure") == "noted"
    assert gate.reports["core"] == [(n, n, 1, "failed" if n == 1 else "needs") for n in range(1, 1001)]
    assert gate.items["core"] == [] and gate.windows["core"] == 1


def needs():
    """One change needs 32 others, which are in all states."""
    gate = Gate(TWO, PROJECTS)
    for n in [*range(9, 15), *range(15, 21)]:
        gate.revision(n, needs=[1] if n > 14 else [])
        assert n < 15 or gate.approved(n) == "waiting"
    for n in range(21, 26):
        gate.revision(n)
        gate.closed(n)
    gate.revision(32, "site")
    assert gate.approved(32) == 1 and gate.take() == ("web", 32, "unit", [])
    assert gate.result(1, "success") == "noted" and gate.landed_by(32) == 1
    for n in range(26, 32):
        gate.revision(n, "lib" if n < 29 else "site")
        assert gate.approved(n) == n - 24
    gate.revision(33, needs=range(1, 33))
    assert gate.approved(33) == "waiting" and gate.ready[33] == 14
    assert [gate.ready.get(n) for n in range(15, 21)] == list(range(1, 7))
    assert [gate.item_of(n) is not None for n in range(9, 33)] == [26 <= n < 32 for n in range(9, 33)]


def rebuilt():
    """One item of 32 jobs is built anew as each of 32 items before it fails."""
    gate, drawn = Gate(UNBOUNDED, LARGE), 0
    for n in range(1, 34):
        gate.revision(n, "app" if n < 33 else "lib")
        assert gate.approved(n) == n
    for turn in range(1, 33):
        for n in range(turn, 33):
            assert gate.take() == ("core", n, "unit", list(range(turn, n)))
        for n in JOBS:
            assert gate.take() == ("core", 33, n, list(range(turn, 33)))
        assert gate.result(drawn + 1, "failure") == "noted"
        drawn += 33 - turn + 32
    numbers, before = [], 0
    for turn in range(1, 33):
        before += 33 - turn
        numbers += range(before + 1, before + 33)
        before += 32
    ours = [it for it in gate.builds if it["order"] == 33]
    assert [it["number"] for it in ours] == numbers and len(ours) == 1024
    assert not any(it["live"] for it in ours) and [it["job"] for it in ours[-LISTED:]][0] == "job-25"


def running():
    """1,001 builds run in two queues."""
    gate = Gate(UNBOUNDED, LARGE)
    for n in range(1, 33):
        gate.revision(n, "lib" if n < 17 else "site")
        assert gate.approved(n) == n
    for n in range(1, 1002):
        change, first = (n - 1) // 32 + 1, 1 if n <= 512 else 17
        assert gate.take() == ("core" if n <= 512 else "web", change, JOBS[(n - 1) % 32], list(range(first, change)))
    assert gate.running() == list(range(1, 1002))


SCENES = {it.__name__: it for it in (crowds, histories, needed, needs, rebuilt, running)}

for scene in sys.argv[1:] or SCENES:
    SCENES[scene]()
    print(f"{scene}: as the tests say", flush=True)
