"""`companions.ci` before a gate that only gives out builds, over real repositories and a stand-in forge."""
from __future__ import annotations

import contextlib
import io
import json
import subprocess
import tempfile
import time
import unittest
from collections.abc import Callable
from pathlib import Path
from typing import Any

from companions import settings
from companions.beats import Beat, beat_of
from companions.ci import Ci
from companions.tests.boxes import boxed
from companions.tests.forge import Origin
from companions.tests.forges import StandInForge
from companions.tests.forges.model import Status
from companions.tests.forges.ran import CiRun
from companions.tests.standin import StandIn
from companions.tests.worker_case import PretendGate, Said

LIB, APP = "acme/lib", "acme/app"


class CiGate(PretendGate):
    """Its changes from 200 on are of the project `app`, all others of `lib`. Beats come to it too."""

    def __init__(self) -> None:
        super().__init__([])
        self.beats: list[Beat] = []

    def answer(self, method: str, path: str, body: bytes) -> Said:
        if method == "GET" and path.startswith("/changes/"):
            return 200, {"project": "app" if int(path.rpartition("/")[2]) >= 200 else "lib"}
        if path == "/beat":
            self.beats.append(beat_of(body))
            return 204, ""
        return super().answer(method, path, body)


class CiCase(unittest.TestCase):
    """Two projects of one queue. `jobs` are the tables of the first one's jobs, `more` the rest of the settings. The
    forge is asked about each run every `asks` seconds, by default in each turn: so what hasn't come after some turns
    was looked at, and wasn't believed."""
    kind = "github"
    jobs = '[[project.job]]\nname = "unit"\nstatus = "ci/unit"\nlimit = 60\n'
    parallel, begins, look, asks, more = 20, 900.0, 0.05, 0.0001, ""

    def setUp(self) -> None:
        temporary = tempfile.TemporaryDirectory()
        self.addCleanup(temporary.cleanup)
        self.folder = Path(temporary.name)
        self.forge = self.enterContext(StandInForge(self.kind))
        self.model = self.forge.model
        self.origins = {name: self.origin(name) for name in ("lib", "app")}
        self.lib, self.app = self.origins["lib"], self.origins["app"]
        self.lib.first("core", self.lib.git("rev-parse", "main"))
        self.app.first("core", self.app.git("rev-parse", "main"))
        self.heads = {name: it.git("rev-parse", "main") for name, it in self.origins.items()}
        for change in (103, 104, 105):
            self.lib.revision(change, 1, self.lib.commit({f"own-{change}": f"{change}"}, self.heads["lib"]))
        self.app.revision(203, 1, self.app.commit({"own-203": "203"}, self.heads["app"]))
        self.gate = CiGate()
        self.standin = self.enterContext(StandIn(lambda *asked: self.gate.answer(*asked)))
        self.errors = self.enterContext(contextlib.redirect_stderr(io.StringIO()))
        self.ci = self.start()

    def origin(self, name: str) -> Origin:
        origin = Origin(self.folder / f"{name}.git")
        origin.name("refs/heads/main", origin.commit({"text": "0\n"}))
        self.model.add(f"acme/{name}", "ann", "mallory", "buildbot")
        return origin

    def write_settings(self, **changed: Any) -> Path:
        file = self.folder / "companions.toml"
        given = {"jobs": self.jobs, "parallel": self.parallel, "begins": self.begins, "more": self.more, **changed}
        file.write_text(f"""
folder = "{self.folder}/state"
[gate]
url = "{self.standin.url}"
pause = 0.02
[worker]
look = {self.look}
sandbox = {str(boxed()).lower()}
[ci]
form = "{self.kind}"
url = "{self.forge.url}"
token = "{self.forge.token}"
secret = "{self.forge.secret}"
trusted = ["buildbot"]
parallel = {given["parallel"]}
begins = {given["begins"]}
look = {self.asks}
{given["more"]}
[[project]]
name = "lib"
forge = "acme/lib"
queue = "core"
repository = "{self.lib.folder}"
{given["jobs"]}
[[project]]
name = "app"
forge = "acme/app"
queue = "core"
repository = "{self.app.folder}"
[[project.job]]
name = "unit"
status = "ci/unit"
""")
        return file

    def start(self, **changed: Any) -> Ci:
        """One as after a start, on what an earlier one has left."""
        started = Ci(settings.read(self.write_settings(**changed)), "ci1")
        started.begin()
        return started

    def again(self, **changed: Any) -> None:
        """It was killed, and is started again."""
        self.rest()
        self.ci = self.start(**changed)

    def rest(self) -> None:
        for it in self.ci.at_work.values():
            it.result()

    def tearDown(self) -> None:
        self.rest()
        self.ci.end()

    def reply(self, number: int, change: int, job: str = "unit", **other: Any) -> dict[str, Any]:
        return {"after": 0, "ahead": [], "build": number, "change": change, "job": job, "queue": "core",
                "reply": "build", "revision": 1, **other}

    def give(self, *replies: dict[str, Any]) -> None:
        self.gate.left += replies

    def turn(self, times: int = 1) -> None:
        for _ in range(times):
            self.ci.turn()
            self.rest()

    def until(self, true: Callable[[], Any], seconds: float = 60.0) -> Any:
        """Turns until something is so."""
        end = time.monotonic() + seconds
        while time.monotonic() < end:
            self.turn()
            if got := true():
                return got
            time.sleep(0.01)
        raise AssertionError(f"never: {self.errors.getvalue()}")

    def branches(self, project: str = "lib", pattern: str = "refs/heads/gate refs/gate") -> dict[str, str]:
        """The names of runs in a repository, with their commits."""
        listed = self.origins[project].git("for-each-ref", "--format=%(refname) %(objectname)", *pattern.split())
        return dict(line.split(" ") for line in listed.splitlines())

    def pushed(self, number: int, project: str = "lib") -> tuple[str, str]:
        """Waits for the branch of a build's run: its name without refs/heads/, and its commit."""
        name, commit = self.until(lambda: next((
            (name, it) for name, it in self.branches(project).items()
            if name.startswith("refs/heads/") and name.endswith(f"-{number}")), None))
        # A forge knows what was pushed.
        self.model.pushed.add((f"acme/{project}", commit))
        # Its push is noted, too.
        self.turn()
        return name.removeprefix("refs/heads/"), commit

    def run_of(self, number: int, project: str = "lib", **other: Any) -> CiRun:
        """The forge runs what it finds on the branch of a build."""
        branch, commit = self.pushed(number, project)
        run = CiRun(500 + len(self.model.ran), f"acme/{project}", branch, commit, **other)
        self.model.ran.append(run)
        return run

    def status(self, commit: str, state: str, by: str = "buildbot", context: str = "ci/unit", project: str = "lib",
               link: str | None = None) -> None:
        self.model.set_status(Status(f"acme/{project}", commit, state, "", by, context=context, link=link))

    def outcomes(self) -> list[tuple[int, str]]:
        return [(it["build"], it["outcome"]) for it in self.gate.results]

    def ended(self, number: int) -> str:
        """Waits for the result of a build."""
        return self.until(lambda: next((outcome for build, outcome in self.outcomes() if build == number), None))

    def records(self) -> list[dict[str, Any]]:
        file = self.folder / "state/ci/ci1/builds.jsonl"
        return [json.loads(line) for line in file.read_text().splitlines()] if file.exists() else []

    def why(self, number: int) -> str:
        return [it["why"] for it in self.records() if it["build"] == number][-1]

    def unwanted(self, number: int) -> None:
        """The gate doesn't want a build any more."""
        self.gate.shown[number]["live"] = False

    def contains(self, project: str, commit: str) -> bool:
        words = ["git", "-C", str(self.origins[project].folder), "cat-file", "-e", commit]
        return subprocess.run(words, capture_output=True, check=False).returncode == 0
