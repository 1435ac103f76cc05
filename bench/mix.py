"""Talks to `gated replay` as a forge and three workers would, and keeps the lines that it sent.

mix.py PROGRAM SETTINGS LINES LENGTH FILE: so many lines, over a queue that is kept at this length.
"""
import json
import random
import subprocess
import sys


class Gate:
    """The program, a line at a time."""

    def __init__(self, program, settings, kept):
        self.program = subprocess.Popen([program, "replay", settings], stdin=subprocess.PIPE, stdout=subprocess.PIPE)
        self.kept = kept
        self.sent = 0

    def tell(self, **members):
        self.sent += 1
        line = {"id": f"{self.sent:08x}-0000-4000-8000-000000000000", **members}
        text = json.dumps(line, separators=(",", ":")).encode() + b"\n"
        self.kept.write(text)
        self.program.stdin.write(text)
        self.program.stdin.flush()
        return json.loads(self.program.stdout.readline())


class Queue:
    """The forge's side: which changes stand in the queue, in order, and which of them are failing."""

    def __init__(self, gate):
        self.gate = gate
        self.changes = 0
        self.orders = {}
        self.failing = set()
        self.passed = set()
        self.running = {}

    def add(self):
        self.changes += 1
        change = self.changes
        self.gate.tell(kind="revision", change=change, project="lib", revision=1, message="A change")
        reply = self.gate.tell(kind="approved", change=change, revision=1)
        assert reply["reply"] == "queued", reply
        self.orders[change] = reply["order"]

    def take(self):
        reply = self.gate.tell(kind="take", worker="w1")
        if reply.get("reply") == "build":
            self.running[reply["build"]] = reply["change"]
            return True
        return False

    def leave(self, change):
        self.orders.pop(change)
        self.failing.discard(change)
        self.passed.discard(change)

    def drop_failed_front(self):
        """What fails with nothing good before it leaves."""
        for change in list(self.orders):
            if change not in self.failing:
                return
            self.leave(change)

    def report(self):
        build = random.choice(list(self.running))
        change = self.running.pop(build)
        failed = random.random() < 0.1
        reply = self.gate.tell(kind="result", build=build, outcome="failure" if failed else "success")
        if reply["reply"] == "stale" or change not in self.orders:
            return
        if not failed:
            self.passed.add(change)
            return
        # what stands behind was built on this change: it is built anew
        self.failing.add(change)
        behind = [other for other in self.orders if self.orders[other] > self.orders[change]]
        self.passed.difference_update(behind)
        self.failing.difference_update(behind)
        self.drop_failed_front()

    def land(self):
        while self.orders:
            change = next(iter(self.orders))
            if change not in self.passed:
                return
            reply = self.gate.tell(kind="landed", order=self.orders[change])
            assert reply.get("reply") == "landed", reply
            self.leave(change)
            self.drop_failed_front()


def main():
    program, settings, lines, length, path = sys.argv[1:]
    random.seed(1)
    with open(path, "wb") as kept:
        gate = Gate(program, settings, kept)
        queue = Queue(gate)
        while gate.sent < int(lines):
            while len(queue.orders) < int(length):
                queue.add()
            while len(queue.running) < 20 and queue.take():
                pass
            queue.report()
            queue.land()
        gate.program.stdin.close()
        gate.program.wait()


main()
