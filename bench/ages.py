"""What a delivery of each kind costs as a gate ages: scenes over files, a kind at a time, counted by callgrind."""
import json
import os
import re
import subprocess
import sys
from collections.abc import Callable

from counted import counted, counted_behind, serving
from paged import made

# Changes whose deliveries are counted in each scene.
CHANGES = 10

# Of a day: the length of the queue, the lines behind which a line is counted, and up to which, and all lines.
SIZES = {
    "whole": {"day": ((10, 1000, 5000, 20000), (1000, 5000, 9000, 20000)), "opening": (1000, 4000, 16000),
              "age": (100, 10000), "length": (10, 100, 990), "waiting": (0, 100, 1000), "chain": (10, 100, 1000),
              "needs": (10,), "asked": (100, 10000), "running": (10, 100, 997)},
    "small": {"day": ((10, 50, 100, 200),), "opening": (10, 20), "age": (10, 20), "length": (10, 20),
              "waiting": (0, 10), "chain": (10, 20), "needs": (10,), "asked": (10, 20), "running": (10, 20)},
}


class Gate:
    """A file of the program, and the lines that were sent to it."""

    def __init__(self, program, settings, folder):
        self.program, self.settings = program, settings
        self.file = os.path.join(folder, "gate.db")
        self.profile = os.path.join(folder, "profile")
        self.sent = self.change = 0
        for end in ("", "-wal", "-shm"):
            if os.path.exists(self.file + end):
                os.remove(self.file + end)
        made(program, settings, self.file)

    def lines(self, deliveries):
        """Deliveries as lines, each under an id of its own."""
        texts = []
        for delivery in deliveries:
            self.sent += 1
            texts.append(json.dumps({"id": f"00000000-0000-4000-8000-{self.sent:012}", **delivery}))
        return ("\n".join(texts) + "\n" if texts else "").encode()

    def words(self):
        return [self.program, "deliver", self.settings, self.file]

    def tell(self, deliveries):
        """The replies to deliveries that aren't counted."""
        done = subprocess.run(self.words(), input=self.lines(deliveries), capture_output=True, check=True)
        return [json.loads(line) for line in done.stdout.splitlines()]

    def count(self, deliveries, behind=()):
        """What deliveries cost, without opening the file and those that they come behind, and the replies. Those are
        sent twice."""
        before = self.lines(behind).splitlines(keepends=True)
        idle, _ = counted_behind(self.words(), before, b"", self.profile)
        before = self.lines(behind).splitlines(keepends=True)
        busy, output = counted_behind(self.words(), before, self.lines(deliveries), self.profile)
        replies = [json.loads(line) for line in output.splitlines()]
        refused = [reply for reply in replies if "error" in reply]
        if refused:
            raise SystemExit(f"refused: {refused[0]}")
        return busy.over(idle, len(deliveries)), replies

    def unbound(self):
        """From now on as many items are built as there are, whatever the settings say."""
        with open(self.settings, encoding="utf-8") as file:
            text = file.read()
        self.settings = os.path.join(os.path.dirname(self.file), "unbound.toml")
        with open(self.settings, "w", encoding="utf-8") as file:
            file.write(re.sub("window = .*\nfloor = .*", "window = 0", text))

    def polled(self, *deliveries):
        """What a `take` costs that finds nothing, behind these deliveries, over what they cost by themselves. They
        have to be given twice: a file takes each once."""
        (alone, both) = deliveries or ([], [])
        before, _ = counted(self.words(), self.lines(alone), self.profile)
        behind, output = counted(self.words(), self.lines([*both, take()]), self.profile)
        if json.loads(output.splitlines()[-1]).get("error") != "idle":
            raise SystemExit(f"not idle: {output[-200:]}")
        return behind.over(before, 1)

    def served(self, *paths):
        """What the last of these paths costs a gate that has answered those before it."""
        words = [self.program, "serve", self.settings, self.file]
        before = serving(words, [("GET", path, None) for path in ("/", *paths[:-1])], self.profile)
        return serving(words, [("GET", path, None) for path in ("/", *paths)], self.profile).over(before, 1)

    def served_after(self, path, once, again):
        """What this path costs a gate that has answered it, and then a delivery. It has to be given twice: a file takes
        each once."""
        words = [self.program, "serve", self.settings, self.file]
        asked = [("GET", "/", None), ("GET", path, None)]
        before = serving(words, [*asked, ("POST", "/worker", self.lines([once]))], self.profile)
        after = [*asked, ("POST", "/worker", self.lines([again])), ("GET", path, None)]
        return serving(words, after, self.profile).over(before, 1)

    def opening(self):
        return counted(self.words(), b"", self.profile)[0]

    def get(self, path):
        """What asking for a path costs, without opening the file."""
        words = [self.program, "get", self.settings, self.file]
        idle, _ = counted(words + ["/"], b"", self.profile, status=1)
        busy, _ = counted(words + [path], b"", self.profile)
        return busy.over(idle, 1)

    def fresh(self, count):
        """Numbers of changes that are new."""
        first = self.change + 1
        self.change += count
        return range(first, first + count)


def revision(change, needs=()):
    message = "\n".join(f"Depends-On: https://forge/c/{need}" for need in needs)
    return {"kind": "revision", "change": change, "project": "lib", "revision": 1, "message": message}


def approved(change):
    return {"kind": "approved", "change": change, "revision": 1}


def take():
    return {"kind": "take", "worker": "w"}


def result(build, outcome="success"):
    return {"kind": "result", "build": build, "outcome": outcome}


def landed(order):
    return {"kind": "landed", "order": order}


def admit(gate, count):
    """New changes come and are approved: their orders."""
    changes = gate.fresh(count)
    gate.tell([revision(change) for change in changes])
    return [reply["order"] for reply in gate.tell([approved(change) for change in changes])]


def live(gate, count):
    """Changes come, pass and land, one behind another, the first that the gate sees: so builds and orders are numbered
    as the changes are."""
    deliveries = []
    for number in gate.fresh(count):
        deliveries += [revision(number), approved(number), take(), result(number), landed(number)]
    refused = [reply for reply in gate.tell(deliveries) if "error" in reply]
    if refused:
        raise SystemExit(f"refused: {refused[0]}")


def wait(gate, count):
    """Approved changes that need one that is unknown."""
    changes = gate.fresh(count)
    gate.tell([revision(change, [999999999]) for change in changes])
    gate.tell([approved(change) for change in changes])


def kinds(gate, orders, line):
    """Counts the way of ten changes, a kind at a time, over a queue of these orders, none of which has a build. `line`
    says where."""
    changes = gate.fresh(CHANGES)
    told = {}
    told["revision"], _ = gate.count([revision(change) for change in changes])
    told["approved"], replies = gate.count([approved(change) for change in changes])
    orders = orders + [reply["order"] for reply in replies]
    told["take"], replies = gate.count([take() for _ in range(CHANGES)])
    told["result"], _ = gate.count([result(reply["build"]) for reply in replies])
    told["landed"], _ = gate.count([landed(order) for order in orders[:CHANGES]])
    for kind, cost in told.items():
        print(f"{line:28} {kind:9} {cost}", flush=True)


def day(make: Callable[[], Gate], size: tuple[int, int, int, int]) -> None:
    """A line of a generated day, what opening the file costs at its end, and how large it is."""
    length, first, last, count = size
    mix = os.path.join(os.path.dirname(os.path.abspath(__file__)), "mix.py")
    gate = make()
    path = gate.file + ".lines"
    subprocess.run([sys.executable, mix, gate.program, gate.settings, str(count), str(length), path], check=True)
    with open(path, "rb") as file:
        lines = file.read().splitlines(keepends=True)
    idle, _ = counted_behind(gate.words(), lines[:first], b"", gate.profile)
    gate = make()
    busy, _ = counted_behind(gate.words(), lines[:first], b"".join(lines[first:last]), gate.profile)
    said = f"a day, a queue of {length}".ljust(28)
    print(said, f"a line, {first} to {last}", busy.over(idle, last - first), flush=True)
    subprocess.run(gate.words(), input=b"".join(lines[last:]), capture_output=True, check=True)
    print(said, f"opening, {len(lines)} lines", gate.opening(), f"{os.path.getsize(gate.file)} bytes", flush=True)


def opening(make, size):
    gate = make()
    live(gate, size)
    print(f"opening, {size} landed".ljust(28), gate.opening(), f"{os.path.getsize(gate.file)} bytes", flush=True)


def age(make, size):
    gate = make()
    live(gate, size)
    kinds(gate, admit(gate, 10), f"{size} landed")


def length(make, size):
    gate = make()
    kinds(gate, admit(gate, size), f"a queue of {size}")


def waiting(make, size):
    gate = make()
    wait(gate, size)
    kinds(gate, admit(gate, 10), f"{size} waiting")


def needs(make, size):
    """Changes that wait for an unknown one: their approvals, then revisions that need the same, and another."""
    gate = make()
    changes = gate.fresh(size)
    gate.tell([revision(change, [999999999]) for change in changes])
    told = {}
    told["approved"], _ = gate.count([approved(change) for change in changes])
    for number, need, line in ((2, 999999999, "the same need"), (3, 999999998, "another need")):
        told[line], _ = gate.count([{**revision(change, [need]), "revision": number} for change in changes])
    for kind, cost in told.items():
        print(f"{size} with an unknown need".ljust(28), f"{kind:13}", cost, flush=True)


def chain(make, size):
    """Each change needs the one before; the first one fails, and all leave."""
    gate = make()
    changes = gate.fresh(size)
    gate.tell([revision(change, [change - 1] if change > 1 else []) for change in changes])
    gate.tell([approved(change) for change in changes])
    build = gate.tell([take()])[0]["build"]
    cost, _ = gate.count([result(build, "failure")])
    print(f"a chain of {size}".ljust(28), "a change", cost.part(size), flush=True)


def asked(make, size):
    """What a gate that runs is asked: of a change and an item of long ago, of a queued one, of one that waits, of the
    last ten reports and the last ten deliveries, and of deliveries where none is new."""
    gate = make()
    live(gate, size)
    orders = admit(gate, 10)
    wait(gate, 1)
    last = f"00000000-0000-4000-8000-{gate.sent:012}"
    tenth = f"00000000-0000-4000-8000-{gate.sent - 10:012}"
    paths = {"a landed change": "/changes/5", "one that waits": f"/changes/{gate.change}", "a landed item": "/items/5",
             "a queued item": f"/items/{orders[-1]}", "ten reports": f"/history/core/{size - 9}",
             "ten deliveries": f"/deliveries/{tenth}", "no delivery": f"/deliveries/{last}", "what runs": "/running"}
    for name, path in paths.items():
        print(f"{size} landed".ljust(28), f"{name:15}", gate.get(path), flush=True)


def running(make, size):
    """Polls of a gate whose items are all being built, and the delivery of one more item's build: the first one after
    the start, which reads the file, and later ones."""
    gate = make()
    gate.unbound()
    admit(gate, size)
    builds = [reply["build"] for reply in gate.tell([take() for _ in range(size)])]
    middle = len(builds) // 2
    ended = [result(build) for build in builds[middle:] + builds[:middle]]
    told = {"take, idle, first": gate.polled(), "take, idle, again": gate.polled([take()], [take()]),
            "take, idle, after a result": gate.polled([take(), ended[0]], [take(), ended[1]])}
    told["result"], _ = gate.count([ended[2]], [take()])
    for number, path in enumerate(("/status", "/orders", "/running")):
        told[f"{path}, first"], told[f"{path}, again"] = gate.served(path), gate.served(path, path)
        told[f"{path}, after a result"] = gate.served_after(path, ended[3 + 2 * number], ended[4 + 2 * number])
    admit(gate, 3)
    told["take behind them"], _ = gate.count([take()], [take()])
    for name, cost in told.items():
        print(f"{size} running".ljust(28), f"{name:26}", cost, flush=True)


CASES = {"day": day, "opening": opening, "age": age, "length": length, "waiting": waiting, "needs": needs,
         "chain": chain, "asked": asked, "running": running}


def main(program, settings, folder, sizes, cases):
    for case in cases:
        for size in SIZES[sizes][case]:
            CASES[case](lambda: Gate(program, settings, folder), size)


main(*sys.argv[1:5], sys.argv[5:])
