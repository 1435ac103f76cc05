"""What the tests of the watch share: a stand-in of a gate, and looks at it at times that the tests say."""
from __future__ import annotations

import contextlib
import http.server
import io
import json
import tempfile
import threading
import unittest
import uuid
from pathlib import Path
from typing import Any

from companions.moments import Moment
from companions.settings import Account, Job, Project, Settings
from companions.watch import Watch

ONE, OTHER = str(uuid.UUID(int=1)), str(uuid.UUID(int=2))


class StandIn:
    """What the stand-in of a gate has, and what it was asked and told."""

    def __init__(self) -> None:
        self.first: str | None = ONE
        self.landed = 0
        self.items: list[str] = []
        self.waiting: dict[int, str] = {}
        self.builds: dict[int, dict[str, Any]] = {}
        # What left core, as the rows of its history have it without their places, and the builds of items that left.
        self.reports: list[str] = []
        self.left: dict[int, list[dict[str, Any]]] = {}
        self.answers = True
        self.asked: list[str] = []
        self.told: list[dict[str, Any]] = []
        # What was told of builds that had ended, and whether the gate accepts anything.
        self.stale: list[dict[str, Any]] = []
        self.accepts = True

    def give(self, number: int, change: int = 101, revision: int = 1, **said: Any) -> None:
        self.builds[number] = {"after": 0, "ahead": [], "build": number, "change": change, "revision": revision,
                               "job": "unit", "queue": "core", "live": True, "outcome": "running", **said}

    def text(self, path: str) -> str | None:
        """The answer to a question: a text, or none for a 404."""
        if path == "/deliveries":
            return "end 0\n" if self.first is None else f'{{"id":"{self.first.replace("-", "")}"}}\nend 1\n'
        if path.startswith("/deliveries/"):
            ids = [it["id"] for it in self.stale]
            later = ids[ids.index(path.rpartition("/")[2]) + 1:]
            return "".join(f'{{"id":"{it.replace("-", "")}"}}\n' for it in later) + f"end {len(later)}\n"
        if path == "/status":
            rows = [f"queue core window 4 landed {self.landed}", *self.items, "queue web window 3 landed 0",
                    *(f"waiting {it} 1" for it in self.waiting), "end"]
            return "".join(f"{it}\n" for it in rows)
        if path.startswith("/history/"):
            _, _, queue, place = path.split("/")
            rows = [f"{at} {it}" for at, it in enumerate(self.reports, 1)] if queue == "core" else []
            return "\n".join([f"history {queue}", *rows[int(place) - 1:int(place) + 999], f"end {len(rows)}", ""])
        if path.startswith("/items/"):
            order = int(path.rpartition("/")[2])
            return json.dumps({"queue": "core", "builds": self.left[order]}) if order in self.left else None
        if path == "/running":
            shown = [it for it in self.builds.values() if it["live"] and it["outcome"] == "running"]
            return json.dumps({"builds": shown, "running": len(shown)})
        _, kind, number = path.split("/")
        known = {"builds": self.builds, "changes": {it: {"queue": self.waiting[it]} for it in self.waiting}}[kind]
        return json.dumps(known[int(number)]) if int(number) in known else None

    def tell(self, said: dict[str, Any]) -> str:
        if self.builds[said["build"]]["outcome"] != "running":
            self.stale += [said] if self.accepts else []
            return '{"reply":"stale"}' if self.accepts else '{"code":"E15","error":"unavailable"}'
        self.told.append(said)
        self.builds[said["build"]]["outcome"] = said["outcome"]
        return '{"reply":"noted"}'


class Door(http.server.BaseHTTPRequestHandler):
    """One request to the stand-in. Who isn't its account is turned away as a proxy does it."""
    server: Server

    def do_GET(self) -> None:
        self.server.gate.asked.append(self.path)
        text = self.server.gate.text(self.path)
        self.answer(*((404, '{"error":"unknown-build"}') if text is None else (200, text)))

    def do_POST(self) -> None:
        text = self.server.gate.tell(json.loads(self.rfile.read(int(self.headers["Content-Length"]))))
        self.answer(503 if "E15" in text else 200, text)

    def answer(self, status: int, text: str) -> None:
        if not self.server.gate.answers:
            status, text = 502, "<html>Bad Gateway</html>"
        self.send_response(status)
        self.end_headers()
        self.wfile.write(text.encode())

    def log_message(self, *_: Any) -> None:
        """Nothing is told of each request."""


class Server(http.server.HTTPServer):
    gate: StandIn


class WatchCase(unittest.TestCase):
    """Each test is told what the watch wrote to standard error, and where its figures are."""

    def setUp(self) -> None:
        room = tempfile.TemporaryDirectory()
        self.addCleanup(room.cleanup)
        server = Server(("127.0.0.1", 0), Door)
        server.gate = self.gate = StandIn()
        threading.Thread(target=server.serve_forever, kwargs={"poll_interval": 0.01}, daemon=True).start()
        self.addCleanup(server.server_close)
        self.addCleanup(server.shutdown)
        self.port = server.server_port
        accounts = dict.fromkeys(("people", "worker", "standby"), Account("somebody", "secret"))
        jobs = {"unit": Job("unit", "true", 60.0), "docs": Job("docs", "true", 600.0)}
        self.settings = Settings(
            url=f"http://127.0.0.1:{server.server_port}", accounts=accounts, folder=Path(room.name),
            projects={"lib": Project("lib", "core", "/nowhere", "main", jobs)},
            pause=1.0, look=10.0, grace=30.0, stands=1000.0, author="gate <gate@localhost>")
        self.file = Path(room.name) / "watch" / "gated.prom"
        self.watch = Watch(self.settings)

    def look(self, now: float, boot: str = "one") -> str:
        """What one look wrote to standard error."""
        with contextlib.redirect_stderr(io.StringIO()) as told:
            self.watch.look(Moment(boot, now))
        return told.getvalue()

    def figure(self, name: str) -> str | None:
        rows = [it.rpartition(" ") for it in self.file.read_text().splitlines()]
        return next((value for label, _, value in rows if label == name), None)

    def start_again(self) -> None:
        self.watch.notes.tables.close()
        self.watch = Watch(self.settings)

    def tearDown(self) -> None:
        self.watch.notes.tables.close()
