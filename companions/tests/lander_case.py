"""What the tests of the lander share: repositories, a gate that says what a scene has it say, and a worker's trees."""
from __future__ import annotations

import contextlib
import io
import subprocess
import tempfile
import unittest
import uuid
from pathlib import Path
from typing import Any

from companions.answers import Answers
from companions.conflicts import Conflict
from companions.gate import Answer, NoAnswer, Order, QueueStatus, Status
from companions.ids import revision_id, success_id
from companions.lander import QueueLander
from companions.outbox import Notes
from companions.settings import Project, Settings
from companions.trees import Build, Trees

FIRST = "0b000000-0000-4000-8000-000000000001"


class GateOfAScene:
    """Shows orders, takes what is told of them, and can lose what it took.

    One that is `strict` knows only those revisions and successes that it was told; another one has accepted all ids.
    """

    def __init__(self, is_strict: bool = False) -> None:
        self.file, self.is_strict = FIRST, is_strict
        self.shown: list[Order] = []
        self.landed: list[Order] = []
        self.taken: dict[str, dict[str, Any]] = {}
        self.told: list[dict[str, Any]] = []
        self.changes: dict[int, dict[str, Any]] = {}
        # Of each order its builds, as the gate shows them.
        self.builds: dict[int, list[dict[str, Any]]] = {}
        # What it has accepted, in order, as its log has it.
        self.log: list[dict[str, Any]] = []
        self.silent = False

    def accept(self, identity: str, said: dict[str, Any], reply: dict[str, Any]) -> None:
        self.taken[identity] = reply
        self.log.append({"id": uuid.UUID(identity).hex, **said})

    def orders(self) -> list[Order]:
        return list(self.shown)

    def first(self) -> str | None:
        return self.file

    def knows(self, delivery: str) -> bool:
        return delivery in self.taken

    def change(self, number: int) -> dict[str, Any] | None:
        return self.changes.get(number, None if self.is_strict else {"revision": 1, "needs": []})

    def json(self, path: str) -> Any:
        order = next((it for it in self.shown if path == f"/items/{it.order}"), None)
        if order is None:
            return None
        jobs = [{"job": "unit", "slot": "success", "voting": True}, {"job": "docs", "slot": "failure", "voting": False}]
        return {"builds": self.builds.get(order.order, []), "change": order.change, "order": order.order,
                "jobs": jobs if self.is_strict else [], "queue": order.queue, "revision": order.revision,
                "verdict": None}

    def status(self) -> Status:
        return Status([QueueStatus("core", 4, len(self.landed), [])], [])

    def post(self, door: str, delivery: dict[str, Any]) -> Answer:
        if delivery.get("order") == 10 ** 15:
            is_spent = delivery["id"] in self.taken or not self.is_strict
            return Answer({"code": "E4", "error": "id-reused"} if is_spent else {"code": "E10", "error": "no-order"})
        self.told.append(delivery)
        if self.silent:
            raise NoAnswer("silent")
        order = next((it for it in self.shown if it.order == delivery["order"]), None)
        if order is None:
            return Answer({"code": "E10", "error": "no-order"})
        self.shown.remove(order)
        if delivery["kind"] == "landed":
            self.landed.append(order)
        said = {"n": len(self.landed), "reply": "landed"} if delivery["kind"] == "landed" else {"reply": "removed"}
        self.accept(delivery["id"], delivery, said)
        return Answer(said)


def no_wait(what: str) -> None:
    raise AssertionError(what)


class LanderCase(unittest.TestCase):
    """Two projects of one queue. What is approved was told, and what is ordered was tested, unless a scene says so."""
    has_adapter = False

    def setUp(self) -> None:
        folder = tempfile.TemporaryDirectory()
        self.addCleanup(folder.cleanup)
        self.folder = Path(folder.name)
        for name in ("lib", "app"):
            self.git(name, "init", "--quiet", "--bare", "--initial-branch=main", str(self.folder / name))
            self.commit(name, "main", {"file": "one"}, [])
        projects = {it: Project(it, "core", str(self.folder / it), "main", {}) for it in ("lib", "app")}
        self.settings = Settings("http://localhost", {}, self.folder / "companions", projects, 1, 1, 1, 1, "gate <g@l>",
                                 has_adapter=self.has_adapter)
        self.gate = GateOfAScene(is_strict=True)
        self.errors = self.enterContext(contextlib.redirect_stderr(io.StringIO()))
        self.lander, self.trees = self.start(), self.start_worker()

    def start(self) -> QueueLander:
        """A lander, started anew."""
        notes = Notes(self.settings.folder / "lander" / "notes.db")
        self.addCleanup(notes.tables.close)
        answers = Answers(self.settings.folder)
        lander = QueueLander("core", self.settings, self.gate, notes, answers)  # type: ignore[arg-type]
        lander.begin()
        return lander

    def start_worker(self) -> Trees:
        """A worker's trees, started anew."""
        folder = self.folder / "worker"
        notes = Notes(folder / "notes.db")
        self.addCleanup(notes.tables.close)
        return Trees(self.settings, folder, notes, "GATED_WORKER=test",
                     lambda it: (self.gate.change(it) or {}).get("project"))

    def git(self, name: str, *words: str, given: str | None = None) -> str:
        where = [] if words[0] == "init" else ["-C", str(self.folder / name)]
        who = ["-c", "user.name=ann", "-c", "user.email=ann@localhost"]
        return subprocess.run(["git", *where, *who, *words], check=True, capture_output=True, text=True,
                              input=given).stdout.strip()

    def commit(self, name: str, ref: str, files: dict[str, str], onto: list[str]) -> str:
        """A commit of these files alone, at a name."""
        entries = [f"100644 blob {self.git(name, 'hash-object', '-w', '--stdin', given=text)}\t{file}\n"
                   for file, text in sorted(files.items())]
        tree = self.git(name, "mktree", given="".join(entries))
        parents = [word for it in onto for word in ("-p", it)]
        made = self.git(name, "commit-tree", tree, *parents, "-m", f"Make {ref}")
        self.git(name, "update-ref", ref if ref.startswith("refs/") else f"refs/heads/{ref}", made)
        return made

    def root(self, name: str) -> str:
        return self.git(name, "rev-list", "--max-parents=0", "main")

    def change(self, number: int, name: str = "lib", text: str | None = None) -> str:
        """Revision 1 of a change adds a file, or turns the one that is there, from the first commit of the branch."""
        files = {"file": "one", f"file-{number}": "new"} if text is None else {"file": text}
        made = self.commit(name, f"refs/changes/{number}/1", files, [self.root(name)])
        self.tell(number, name, made)
        return made

    def tell(self, number: int, name: str, commit: str, needs: tuple[int, ...] = ()) -> None:
        """The gate is told of revision 1 of a change."""
        self.gate.accept(revision_id(self.gate.file, number, 1, commit, needs),
                         {"kind": "revision", "change": number, "revision": 1}, {"reply": "recorded"})
        self.gate.changes[number] = {"revision": 1, "project": name, "state": "open", "order": number, "approval": None,
                                     "needs": [{"change": it} for it in needs]}

    def order(self, order: int, change: int, name: str = "lib", is_tested: bool = True) -> Order:
        """The gate shows this order alone."""
        self.gate.shown = [Order("core", order, name, change, 1)]
        if is_tested:
            self.be_tested(order, change)
        return self.gate.shown[0]

    def be_tested(self, order: int, change: int, after: int | None = None) -> str | None:
        """A worker tests a change, tells its success, and gives the commit; none where it can't be merged."""
        build = Build(order + 40, "core", change, 1, "unit", self.places() if after is None else after, [])
        self.trees.remove()
        try:
            commit = self.trees.make(build, "tree", no_wait, 60.0).commit
        except Conflict:
            return None
        self.gate.accept(success_id(order + 40, "core", change, 1, "unit", commit),
                         {"kind": "result", "build": order + 40, "outcome": "success"}, {"reply": "noted"})
        self.gate.builds[order] = [{"build": order + 40, "job": "unit", "live": True, "outcome": "success"}]
        return commit

    def places(self) -> int:
        """How many landings the branches have."""
        return sum(self.git(it, "log", "--first-parent", "--format=%B", "main").count("\nGate-Change: ")
                   for it in self.settings.projects)

    def land(self, order: int, change: int, name: str = "lib") -> None:
        self.change(change, name)
        self.lander.carry_out(self.order(order, change, name))

    def head(self, name: str = "lib") -> str:
        return self.git(name, "rev-parse", "main")

    def notes(self) -> dict[str, str]:
        """Each note, and the commit that it is at."""
        found = {}
        for name in ("lib", "app"):
            for it in self.git(name, "for-each-ref", "--format=%(refname)", "refs/landings").splitlines():
                found[f"{name} {it[14:]}"] = self.git(name, "rev-parse", f"{it}^{{commit}}")
        return found

    def lose(self, landings: int) -> None:
        """The gate is restored as it was some landings ago."""
        for _ in range(landings):
            lost = self.gate.landed.pop()
            told = next(it for it in reversed(self.gate.told) if it["order"] == lost.order)
            del self.gate.taken[told["id"]]

    def said(self) -> str:
        """What was printed since this was asked last."""
        text = self.errors.getvalue()
        self.errors.seek(0)
        self.errors.truncate()
        return text
