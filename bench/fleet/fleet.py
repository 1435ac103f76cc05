"""A forge, its authors and its workers in virtual time around the real gate; no rule of the gate stands here.

What may be built and what may land is asked of the gate. The fleet knows from replies what it told; it looks at the
status once a minute where something happened, and asks for the builds that look unwanted there.
"""
from collections import defaultdict

from clock import Clock, next_tick
from gate import IDLE, parse_status


class Fleet:
    def __init__(self, settings, stream, gate, name):
        self.settings, self.stream, self.gate = settings, stream, gate
        self.clock = Clock(settings["hours"] * 3600, name)
        outage = settings["outage"]
        self.clock.closed = (outage["hour"] * 3600, outage["hour"] * 3600 + outage["minutes"] * 60)
        # changes: those that the gate has, by revision; how often each came; the first approval of each revision
        self.inside, self.tries, self.approved_at = {}, defaultdict(int), {}
        self.landed, self.places, self.latencies, self.good_ones_out = {}, defaultdict(dict), [], 0
        # workers
        period, count = settings["ask_seconds"], settings["workers"]
        self.phases = [period * (worker * 0.618034 % 1) for worker in range(count)]
        self.idle, self.hungry, self.asking = set(range(count)), False, False
        self.running, self.newest, self.built = {}, {}, defaultdict(int)
        self.builds, self.busy, self.stopped = {}, 0.0, 0
        # the forge
        self.merging, self.looking, self.watching = set(), False, False
        self.longest, self.windows = 0, []

    def run(self):
        for change in self.stream.changes.values():
            self.clock.at(change.at, self.come, change.number, 1)
        self.clock.go(lambda: f"{len(self.landed)} landed, {len(self.inside)} in the gate")
        for worker, since, _ in self.running.values():
            self.busy += self.clock.end - since

    def changed(self):
        """A delivery was accepted: whoever asks the gate now and then may hear something new."""
        self.hungry = True
        self.wake()
        if not self.looking:
            self.looking = True
            self.clock.at(next_tick(self.clock.now, self.settings["forge"]["ask_seconds"]), self.look_for_orders)
        if not self.watching:
            self.watching = True
            self.clock.at(next_tick(self.clock.now, self.settings["watch_seconds"]), self.watch)

    # Authors

    def come(self, number, revision):
        """A change comes and is approved, for the first time or again."""
        change = self.stream.changes[number]
        if (number, revision) not in self.approved_at:
            footers = "".join(f"Depends-On: https://forge/c/{need}\n" for need in change.needs)
            members = {"change": number, "project": change.project, "revision": revision}
            assert self.gate.tell("revision", message=f"A change\n\n{footers}", **members)["reply"] == "recorded"
            self.approved_at[number, revision] = self.clock.now
        reply = self.gate.tell("approved", change=number, revision=revision)["reply"]
        assert reply in ("queued", "waiting"), f"approval of {number}: {reply}"
        self.inside[number] = revision
        self.tries[number] += 1
        self.changed()

    def leave(self, number):
        """The author hears that a change left, mends it or has it approved again, or gives up."""
        revision = self.inside.pop(number)
        guilty = self.stream.is_guilty(number, revision, self.landed.get)
        self.good_ones_out += not guilty
        back = self.stream.comes_back(number, revision, guilty, self.tries[number], self.clock.now)
        if back:
            self.clock.at(back[0], self.come, number, back[1])

    # Workers

    def wake(self):
        """The idle worker that asks next; the others ask in turn while there is something to build."""
        if self.idle and self.hungry and not self.asking:
            self.asking = True
            period = self.settings["ask_seconds"]
            due, worker = min((next_tick(self.clock.now, period, self.phases[idle]), idle) for idle in self.idle)
            self.clock.at(due, self.ask, worker)

    def ask(self, worker):
        self.asking = False
        if worker in self.idle and self.hungry:
            self.take(worker)
        self.wake()

    def take(self, worker):
        reply = self.gate.tell("take", worker=f"w{worker}")
        if reply == IDLE:
            self.hungry = False
            self.idle.add(worker)
            return
        self.idle.discard(worker)
        number, build = reply["build"], (reply["change"], reply["revision"], reply["job"])
        length = self.stream.length(*build, self.built[build])
        self.built[build] += 1
        self.newest[build] = number
        self.builds[number] = build
        outcome, seconds = self.outcome(reply, length)
        self.running[number] = (worker, self.clock.now, build)
        self.clock.at(self.clock.now + seconds, self.end_build, number, outcome)

    def outcome(self, reply, length):
        """How the build ends, by what it runs on, and after how long."""
        if length.lost:
            return "lost", length.fails_at + self.settings["builds"]["told_after_minutes"] * 60
        places, after = self.places[reply["queue"]], reply["after"]
        fresh = dict(reply["ahead"] + [[reply["change"], reply["revision"]]])
        fails = self.stream.fails(
            reply["job"], fresh, lambda change: self.landed[change] if places.get(change, after) < after else None
        )
        return ("failure", length.fails_at) if fails else ("success", length.seconds)

    def end_build(self, number, outcome):
        if number not in self.running:
            return
        self.free(number)
        reply = self.gate.tell("result", build=number, outcome=outcome)["reply"]
        if reply != "stale":
            self.changed()

    def free(self, number):
        """The build of a worker is over, and it asks for another at once."""
        worker, since, _ = self.running.pop(number)
        self.busy += self.clock.now - since
        self.idle.add(worker)
        self.clock.at(self.clock.now, self.ask_at_once, worker)

    def ask_at_once(self, worker):
        if worker in self.idle and self.hungry:
            self.take(worker)

    # The forge

    def look_for_orders(self):
        self.looking = False
        self.see_orders()

    def see_orders(self):
        for order in self.gate.ask_json("/orders"):
            if order["order"] not in self.merging:
                self.merging.add(order["order"])
                self.clock.at(self.clock.now + self.settings["forge"]["merge_seconds"], self.merge, order)

    def merge(self, order):
        number, revision = order["change"], order["revision"]
        if self.stream.truth(number, revision).refused:
            assert self.gate.tell("refused", order=order["order"])["reply"] == "removed"
            self.leave(number)
        else:
            reply = self.gate.tell("landed", order=order["order"])
            places = self.places[order["queue"]]
            places[number] = len(places)
            assert reply == {"n": len(places), "reply": "landed"}, reply
            self.inside.pop(number)
            self.landed[number] = revision
            self.latencies.append(self.clock.now - self.approved_at[number, revision])
        self.changed()
        self.see_orders()

    def watch(self):
        """Who left, which builds look unwanted, and how long the queues are."""
        self.watching = False
        queues, waiting = parse_status(self.gate.ask("/status"))
        slots = {(item[0], item[1]): item[3] for queue in queues.values() for item in queue["items"]}
        self.longest = max(self.longest, max(len(queue["items"]) for queue in queues.values()))
        self.windows.append((self.clock.now, [queue["window"] for queue in queues.values()]))
        seen = {number for number, _ in slots} | {number for number, _ in waiting}
        for number in [number for number in self.inside if number not in seen]:
            self.leave(number)
        for number, (_, _, build) in list(self.running.items()):
            change, revision, job = build
            is_seen = slots.get((change, revision), {}).get(job) == "running" and self.newest[build] == number
            if not is_seen and not self.gate.ask_json(f"/builds/{number}")["live"]:
                self.stopped += 1
                self.free(number)
