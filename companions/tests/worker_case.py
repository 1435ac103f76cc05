"""A worker before a gate that only gives out builds, over a real repository."""
from __future__ import annotations

import contextlib
import io
import json
import tempfile
import time
import unittest
from collections.abc import Callable
from pathlib import Path
from typing import Any

from companions import settings
from companions.ids import success_id
from companions.keeping import Clock
from companions.outbox import Notes
from companions.tests.boxes import boxed
from companions.tests.forge import Origin
from companions.tests.standin import StandIn
from companions.worker import Worker

Said = tuple[int, Any] | None
IDLE = (404, {"code": "E12", "error": "idle"})


class PretendGate:
    """Gives out builds as the gate does: an id that was answered gets the same again."""

    def __init__(self, builds: list[dict[str, Any]]) -> None:
        self.left, self.taken = builds, dict[str, dict[str, Any]]()
        self.shown: dict[int, dict[str, Any]] = {}
        self.results: list[dict[str, Any]] = []
        self.before: Callable[[str, dict[str, Any]], Said] = lambda kind, said: None
        self.before_build: Callable[[int], Any] = lambda number: None

    def answer(self, method: str, path: str, body: bytes) -> Said:
        if method == "GET" and path.startswith("/changes/"):
            return 200, {"project": "lib"}
        if method == "GET":
            self.before_build(int(path.rpartition("/")[2]))
            shown = self.shown.get(int(path.rpartition("/")[2]))
            return (200, shown) if shown else (404, {"code": "E11", "error": "unknown-build"})
        said = json.loads(body)
        other = self.before(said["kind"], said)
        if other is not None:
            return other if other[0] else None
        return self.take(said["id"]) if said["kind"] == "take" else self.result(said)

    def take(self, take: str) -> Said:
        if take not in self.taken:
            if not self.left:
                return IDLE
            self.taken[take] = self.left.pop(0)
            self.show(self.taken[take])
        return 200, self.taken[take]

    def show(self, reply: dict[str, Any], **other: Any) -> None:
        rest = {name: value for name, value in reply.items() if name != "reply"}
        self.shown[reply["build"]] = {**rest, "live": True, "outcome": "running", **other}

    def result(self, said: dict[str, Any]) -> Said:
        self.results.append(said)
        return 200, {"reply": "noted"}


class PretendClock(Clock):
    """Goes on while somebody sleeps, and only then. `meanwhile` is called each time, with the seconds so far."""

    def __init__(self) -> None:
        self.so_far, self.slept = 0.0, list[float]()
        self.meanwhile: Callable[[float], Any] = lambda seconds: None

    def now(self) -> float:
        return 1e9 + self.so_far

    def sleep(self, seconds: float) -> None:
        self.so_far += seconds
        self.slept.append(seconds)
        self.meanwhile(self.so_far)


class WorkerCase(unittest.TestCase):
    clock, look = Clock(), 0.1
    command = "cat text; test -e own"
    # Jobs have sandboxes, where the kernel grants them. Then the other members of a job, and of `worker`.
    sandbox = True
    more = room = ""

    def setUp(self) -> None:
        temporary = tempfile.TemporaryDirectory()
        self.addCleanup(temporary.cleanup)
        self.folder = Path(temporary.name)
        self.origin = Origin(self.folder / "lib.git")
        self.head = self.origin.commit({"text": "0\n"})
        self.origin.name("refs/heads/main", self.head)
        self.origin.first("core", self.head)
        for change in (103, 104):
            self.origin.revision(change, 1, self.origin.commit({"own": f"{change}"}, self.head))
        self.gate = PretendGate([self.reply(7, 103)])
        self.standin = self.enterContext(StandIn(lambda *asked: self.gate.answer(*asked)))
        self.errors = self.enterContext(contextlib.redirect_stderr(io.StringIO()))
        self.worker = self.start()

    def reply(self, number: int, change: int, **other: Any) -> dict[str, Any]:
        return {"after": 0, "ahead": [], "build": number, "change": change, "job": "unit", "queue": "core",
                "reply": "build", "revision": 1, **other}

    def write_settings(self, command: str | None = None, limit: float = 60.0) -> Path:
        file = self.folder / "companions.toml"
        file.write_text(f"""
            folder = "{self.folder}/state"
            [gate]
            url = "{self.standin.url}"
            pause = 0.02
            worker = {{ user = "w", password = "p" }}
            [worker]
            look = {self.look}
            sandbox = {str(self.sandbox and boxed()).lower()}
            {self.room}
            [[project]]
            name = "lib"
            queue = "core"
            repository = "{self.origin.folder}"
            [[project.job]]
            name = "unit"
            command = '''{command or self.command}'''
            limit = {limit}
            {self.more}
            """)
        return file

    def start(self, command: str | None = None, limit: float = 60.0) -> Worker:
        """A worker as after a start, on what an earlier one has left."""
        started = Worker(settings.read(self.write_settings(command, limit)), "w1", self.clock)
        started.begin()
        return started

    def kinds(self) -> list[str]:
        return [it["kind"] for it in self.standin.deliveries()]

    def held(self) -> Any:
        return Notes(self.folder / "state/worker/w1/notes.db").get("held")

    def records(self) -> list[dict[str, Any]]:
        file = self.folder / "state/worker/w1/builds.jsonl"
        return [json.loads(line) for line in file.read_text().splitlines()] if file.exists() else []

    def success(self, change: int) -> str:
        """The id of the success of build 7, of a change, by the commit that its record has."""
        [commit] = {it["commit"] for it in self.records() if it["change"] == change}
        return success_id(7, "core", change, 1, "unit", commit)

    def log(self) -> str:
        [log] = (self.folder / "state/worker/w1/logs").glob("*-7.log")
        return log.read_text()

    def outcomes(self) -> list[tuple[int, str]]:
        return [(it["build"], it["outcome"]) for it in self.gate.results]

    def until(self, true: Callable[[], Any]) -> Any:
        for _ in range(2000):
            if got := true():
                return got
            time.sleep(0.01)
        raise AssertionError("never")
