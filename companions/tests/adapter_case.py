"""An adapter before a gate that is modelled here, a forge in memory, and repositories that are real."""
from __future__ import annotations

import contextlib
import copy
import io
import json
import shutil
import tempfile
import unittest
import uuid
from collections.abc import Callable
from dataclasses import replace
from datetime import timedelta
from pathlib import Path
from typing import Any

from companions.adapter import Adapter
from companions.api import ForgeFault
from companions.forges import Headers, Listed, Place, Word
from companions.requests import Request, State, Vote
from companions.settings import read
from companions.tests.forge import Origin
from companions.tests.people_case import PretendForge
from companions.tests.standin import StandIn

SETTINGS = """
folder = "{folder}/companions"
[gate]
url = "{gate}"
pause = 30.0
[adapter]
form = "gitea"
url = "https://forge.example/api/v1"
web = "https://forge.example"
token = "token"
secret = "secret"
base = "https://forge/c/"
approvers = ["ada", "bob"]
[[project]]
name = "lib"
queue = "core"
repository = "{folder}/lib.git"
forge = "acme/lib"
[[project]]
name = "old"
queue = "web"
repository = "{folder}/lib.git"
branch = "old"
forge = "acme/lib"
"""


# When people are told, unless a test says so.
NEVER = 1e9


class Gate:
    """What a gate answers, as far as an adapter sees it: changes, their approvals, orders, and kept replies. Its queue
    is told by a test: `items` are the lines of the status, `reports` those of the history, without their places, and
    `built` the builds of each item, whose order is its change; `builds` are the answers about builds."""

    def __init__(self) -> None:
        self.changes: dict[int, dict[str, Any]] = {}
        self.items: list[str] = []
        self.reports: list[str] = []
        # Somebody has told its first delivery.
        self.accepted: dict[str, tuple[dict[str, Any], dict[str, Any]]] = {str(uuid.uuid4()): ({}, {})}
        self.orders: list[dict[str, Any]] = []
        self.built: list[dict[str, Any]] = []
        self.builds: dict[int, dict[str, Any]] = {}
        self.is_away = False
        self.projects, self.base = {"lib", "old"}, "https://forge/c/"

    def answers(self, method: str, path: str, body: bytes) -> tuple[int, Any] | None:
        if self.is_away:
            return None
        if method == "POST":
            return self.take(json.loads(body))
        if path == "/orders":
            return 200, self.orders
        if path.startswith("/deliveries"):
            return self.deliveries(path.removeprefix("/deliveries").strip("/"))
        if path == "/status":
            return 200, "\n".join(["queue core window 3 landed 0", *self.items, "end", ""])
        if path.startswith("/items/"):
            return 200, {"change": int(path.rpartition("/")[2]), "jobs": None, "builds": self.built}
        if path.startswith("/builds/"):
            return 200, self.builds[int(path.rpartition("/")[2])]
        if path.startswith("/history/core/"):
            rows = [f"{place} {it}" for place, it in enumerate(self.reports, 1)]
            return 200, "\n".join(["history core", *rows[int(path.rpartition("/")[2]) - 1:], f"end {len(rows)}", ""])
        known = self.changes.get(int(path.removeprefix("/changes/")))
        return (200, known) if known else (404, {"code": "E5", "error": "unknown-change"})

    def deliveries(self, behind: str) -> tuple[int, Any]:
        ids = list(self.accepted)
        if behind and behind not in ids:
            return 404, {"error": "no-delivery"}
        ids = ids[ids.index(behind) + 1:] if behind else ids
        lines = [json.dumps({"id": it.replace("-", ""), **self.accepted[it][0]}) for it in ids]
        return 200, "\n".join([*lines, f"end {len(lines)}", ""])

    def take(self, said: dict[str, Any]) -> tuple[int, Any]:
        identity = said.pop("id")
        if identity in self.accepted:
            kept, reply = self.accepted[identity]
            return (200, reply) if kept == said else (409, {"code": "E4", "error": "id-reused"})
        answer = self.act(said)
        if "reply" in answer:
            self.accepted[identity] = said, answer
        return (200 if "reply" in answer else 409), answer

    def act(self, said: dict[str, Any]) -> dict[str, Any]:
        kind, change, revision = said["kind"], said["change"], said["revision"]
        known = self.changes.get(change)
        if kind == "revision":
            if said["project"] not in self.projects:
                return {"code": "E7", "error": "unknown-project"}
            if known and (known["revision"] >= revision or known["state"] == "landed"):
                return {"reply": "stale"}
        elif known is None or known["revision"] < revision:
            return {"code": "E5" if known is None else "E6", "error": "unknown"}
        elif known["revision"] > revision or known["state"] != "open":
            return {"reply": "stale"}
        if kind != "approved" and any(it["change"] == change for it in self.orders):
            return {"code": "E9", "error": "submitting"}
        if kind == "revision":
            self.changes[change] = {"revision": revision, "state": "open", "order": None, "approval": None,
                                    "project": said["project"],
                                    "queue": "core", "full": False, "needs": self.needs(said["message"])}
        elif kind == "approved":
            self.changes[change]["order"] = 1
            return {"order": 1, "reply": "queued"}
        else:
            self.changes[change] |= {"order": None, "state": "closed" if kind == "closed" else "open"}
        return {"reply": "recorded"}

    def needs(self, message: str) -> list[dict[str, Any]]:
        lines = [line.removeprefix(f"Depends-On: {self.base}") for line in message.splitlines()]
        return [{"change": int(it), "state": "open", "stands": None, "approval": None} for it in lines if it.isdigit()]

    def order(self, change: int) -> None:
        self.orders = [{"queue": "core", "order": 1, "project": "lib", "change": change,
                        "revision": self.changes[change]["revision"]}]

    def land(self, change: int) -> None:
        self.orders = []
        self.changes[change]["state"] = "landed"


class Forge(PretendForge):
    """A forge's requests, and what was written on them. `when_asked` is called at each question about a request, as by
    somebody who is at the forge at that moment."""
    mark, requests_at = "#", "/pulls/"

    def __init__(self) -> None:
        super().__init__()
        self.requests: dict[Place, Request] = {}
        self.broken: set[Place] = set()
        self.asked: list[Place] = []
        self.when_asked: Callable[[Place], object] = lambda place: None
        self.writers, self.hidden = {"ada", "bob"}, set[str]()
        self.accounts = {"ada": 11, "bob": 12}
        self.asked_about: list[str] = []

    def may_write(self, repository: str, person: str) -> bool:
        self.asked_about.append(person)
        if person in self.hidden:
            raise ForgeFault(f"GET {person}: 403")
        return person in self.writers

    def account_of(self, login: str) -> int | None:
        self.asked_about.append(login)
        if login in self.hidden:
            raise ForgeFault(f"GET {login}: 500")
        return self.accounts.get(login.casefold())

    def seal_of(self, headers: Headers) -> Word:
        return Word("secret", headers.get("Secret"))

    def place_of(self, headers: Headers, body: bytes) -> Place | None:
        self.seal_of(headers)
        said = json.loads(body)
        return Place(*said) if said else None

    def request(self, place: Place) -> Request | None:
        self.when_asked(place)
        self.asked.append(place)
        if place in self.broken:
            raise ForgeFault(f"GET {place.number}: 500")
        so = self.requests.get(place)
        return so and replace(so, votes=tuple(replace(it, account=self.accounts.get(it.person, 99)) for it in so.votes))

    def outline(self, place: Place) -> Request | None:
        so = self.request(place)
        return so and replace(so, votes=())

    def open_requests(self, repository: str) -> dict[int, Listed]:
        return {it.number: Listed(it.target, None) for it in list(self.requests.values())
                if it.repository == repository and it.state is State.OPEN}

    def head_ref(self, number: int) -> str:
        return f"refs/pull/{number}/head"


class Case(unittest.TestCase):
    @classmethod
    def setUpClass(cls) -> None:
        """Makes a repository with two branches and four commits, of which each test gets a copy."""
        cls.made = Path(cls.enterClassContext(tempfile.TemporaryDirectory()))
        cls.made_origin = origin = Origin(cls.made / "lib.git")
        cls.base = origin.commit({"a": "1"})
        for branch in ("main", "old"):
            origin.name(f"refs/heads/{branch}", cls.base)
        cls.commits = [origin.commit({"a": str(it)}, cls.base) for it in range(2, 6)]

    def setUp(self) -> None:
        temporary = tempfile.TemporaryDirectory()
        self.addCleanup(temporary.cleanup)
        self.folder = Path(temporary.name)
        shutil.copytree(self.made, self.folder, dirs_exist_ok=True)
        self.origin = copy.copy(self.made_origin)
        self.origin.folder = self.folder / "lib.git"
        self.forge, self.gate = Forge(), Gate()
        self.standin = self.enterContext(StandIn(lambda *it: self.gate.answers(*it)))
        file = self.folder / "companions.toml"
        file.write_text(SETTINGS.format(folder=self.folder, gate=self.standin.url))
        self.settings = read(file)
        self.said = self.enterContext(contextlib.redirect_stderr(io.StringIO()))
        self.start()

    def start(self) -> None:
        """Starts an adapter, in the place of one that is there."""
        self.adapter = Adapter(self.settings, self.forge)
        self.adapter.look_at = NEVER

    def be(self, number: int, head: int | str = 0, *votes: Vote, **more: Any) -> Place:
        """Makes this so of a request, which is there then."""
        commit = head if isinstance(head, str) else self.commits[head]
        place = Place("acme/lib", number)
        before = self.forge.requests.get(place) or Request("acme/lib", number, State.OPEN, commit, "main", "Title", "")
        self.forge.requests[place] = replace(before, head=commit, votes=votes, **more)
        self.origin.name(f"refs/pull/{number}/head", commit)
        return place

    def look(self, *places: Place) -> list[str]:
        """One round of the adapter, with these hints or that of its comparison: what was sent then, shortly."""
        before = len(self.standin.deliveries())
        for place in places:
            self.adapter.hints.put(place)
        self.adapter.compare_at = 2.0 if places else 0.0
        self.adapter.rests.end_all()
        self.adapter.lists.end_all()
        self.adapter.outbox.later.clear()
        self.adapter.once(1.0)
        return [f"{it['kind']} {it['change']} {it['revision']}" for it in self.standin.deliveries()[before:]]

    def tell(self, *places: Place) -> list[str]:
        """The same, and people are told then: what was written, shortly, statuses first."""
        self.adapter.look_at = 0.0
        self.look(*places)
        self.adapter.look_at = NEVER
        return sorted(self.forge.news(), key=lambda it: ", comment " in it)

    def approve(self, number: int, head: int = 0, person: str = "ada") -> Vote:
        return Vote(f"review {number}", person, True, self.commits[head])

    def comment(self, number: int, behind: float = 60.0) -> Vote:
        """A comment that approves and names no commit, so many seconds from now by the forge's time."""
        assert self.forge.now is not None
        self.forge.now += timedelta(seconds=behind)
        return Vote(f"comment {number}", "ada", True, None, said=self.forge.now)

    def lines(self) -> list[str]:
        return self.said.getvalue().splitlines()
