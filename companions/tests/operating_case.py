"""What tests of an operator share: an adapter before the real gate, over a forge in memory and a real repository."""
from __future__ import annotations

import contextlib
import copy
import io
import shutil
import subprocess
import tempfile
import uuid
from pathlib import Path
from typing import Any

from companions import operator
from companions.adapter import Adapter
from companions.forges import Place
from companions.gate import Gate
from companions.settings import read
from companions.tests.adapter_case import NEVER, SETTINGS, Case, Forge
from companions.tests.service import PROGRAM, end

GATE = """[forge]
base = "https://forge/c/"
[[queue]]
name = "core"
window = 9
floor = 1
[[queue]]
name = "web"
window = 9
floor = 1
[[project]]
name = "lib"
queue = "core"
[[project.job]]
name = "unit"
[[project]]
name = "old"
queue = "web"
[[project.job]]
name = "unit"
"""


class Killed(Exception):
    """The adapter is killed."""


class Operating(Case):
    """Requests 11 to 16, all of `main`, are changes 1 to 6. Those that are approved stand in this order."""

    def setUp(self) -> None:
        temporary = tempfile.TemporaryDirectory()
        self.addCleanup(temporary.cleanup)
        self.folder = Path(temporary.name)
        shutil.copytree(self.made, self.folder, dirs_exist_ok=True)
        self.origin = copy.copy(self.made_origin)
        self.origin.folder = self.folder / "lib.git"
        self.serve()
        self.forge = Forge()
        self.file = self.folder / "companions.toml"
        self.file.write_text(SETTINGS.format(folder=self.folder, gate=self.url).replace("pause = 30.0", "pause = 0.01"))
        self.settings = read(self.file)
        self.said = self.enterContext(contextlib.redirect_stderr(io.StringIO()))
        self.begin()

    def serve(self) -> None:
        (self.folder / "gate.toml").write_text(GATE)
        words: list[str | Path] = [PROGRAM, "serve", self.folder / "gate.toml", self.folder / "it.gate", "--port", "0",
                                   "--count", "100000"]
        subprocess.run([PROGRAM, "init", self.folder / "gate.toml", self.folder / "it.gate"], check=True)
        process = subprocess.Popen(words, stdout=subprocess.PIPE, stderr=subprocess.DEVNULL, text=True,
                                   start_new_session=True)
        self.addCleanup(end, process)
        assert process.stdout is not None
        self.url = f"http://{process.stdout.readline().split()[1]}"
        self.real = Gate(self.url, None)
        # Somebody has told the first delivery of its file.
        self.real.post("forge", {"id": new_id(), "kind": "revision", "change": 999999999, "project": "old",
                                 "revision": 1, "message": "Begin"})

    def begin(self) -> None:
        """An adapter that is started, in the place of one that was killed."""
        self.adapter = Adapter(self.settings, self.forge)
        self.adapter.look_at = self.adapter.drop_at = NEVER

    def round(self, *places: Place) -> None:
        for it in places:
            self.adapter.hints.put(it)
        self.adapter.rests.end_all()
        self.adapter.operated.due = 0.0
        self.adapter.once(1.0)

    def stand(self, count: int, **more: Any) -> list[Place]:
        """So many changes stand in the queue."""
        places = [self.be(11 + at, at % 4, self.approve(at + 1, at % 4), **more) for at in range(count)]
        for it in places:
            self.round(it)
        self.assertEqual(self.queue(), list(range(1, count + 1)))
        return places

    def queue(self, name: str = "core") -> list[int]:
        return next([int(it[1]) for it in queue.items] for queue in self.real.status().queues if queue.name == name)

    def promote(self, change: int, what: str = "promote") -> list[str]:
        """What was done, after a round."""
        identity = operator.ask(self.settings.folder, what, change)
        self.round()
        return next((it["said"] for it in operator.done(self.settings.folder) if it["id"] == identity), [])

    def build(self, outcome: str) -> dict[str, Any]:
        """A worker takes a build, and says how it ended."""
        took = self.real.post("worker", {"id": new_id(), "kind": "take", "worker": "w"}).said
        self.real.post("worker", {"id": new_id(), "kind": "result", "build": took["build"], "outcome": outcome})
        return took


def new_id() -> str:
    return str(uuid.uuid4())
