"""The one client of a gate: questions and deliveries. docs/FORMATS.md has what is sent and answered.

A proxy stands before the gate, and what the proxy says is no answer of the gate: nothing follows from it but that the
gate has to be asked again.
"""
from __future__ import annotations

import base64
import contextlib
import http.client
import json
import sys
import time
import urllib.parse
import uuid
from collections.abc import Callable, Iterator
from dataclasses import dataclass
from typing import Any, TypeVar

from companions.connections import connection_to
from companions.settings import Account

T = TypeVar("T")
Delivery = dict[str, Any]

# What a 404 of the gate says of a question. Another 404 is none of the gate's: the address is wrong.
NOTHING_THERE = ("no-item", "no-queue", "no-delivery", "unknown-change", "unknown-build")


@dataclass(frozen=True)
class Answer:
    """The gate's answer to a delivery: a reply, or a refusal with its code."""
    said: dict[str, Any]

    @property
    def reply(self) -> str | None:
        return self.said.get("reply")

    @property
    def code(self) -> str | None:
        return self.said.get("code")


@dataclass(frozen=True)
class Order:
    """An order that the gate shows: to land a change at a revision."""
    queue: str
    order: int
    project: str
    change: int
    revision: int


@dataclass(frozen=True)
class QueueStatus:
    """A queue as the status shows it: its window, how many landings it has, and its items' lines, split."""
    name: str
    window: int
    landed: int
    items: list[list[str]]


@dataclass(frozen=True)
class Status:
    """The status text: all queues, and the changes that wait."""
    queues: list[QueueStatus]
    waiting: list[tuple[int, int]]


class NoAnswer(Exception):
    """What came isn't an answer of the gate: nothing is known. Its status is that of HTTP, if anything came."""

    def __init__(self, what: str, status: int | None = None) -> None:
        super().__init__(what)
        self.status = status


def no_answer(question: str, status: int, content: bytes) -> NoAnswer:
    """What came from a server that isn't the gate. A 404 of its own says that it doesn't know the path."""
    hint = ". Is the address in companions.toml right?" if status == 404 else ""
    return NoAnswer(f"{question}: status {status}, {content[:100]!r}{hint}", status)


def say(part: str, what: str) -> None:
    """A line for whoever reads the log."""
    print(f"{part}: {what}", file=sys.stderr, flush=True)


class Gate:
    """A gate at an address, asked by one account. Each call is one request; `until` asks again."""

    def __init__(self, url: str, account: Account | None, timeout: float = 30.0, part: str = "gate") -> None:
        self.url, self.timeout, self.part = urllib.parse.urlsplit(url), timeout, part
        self.headers = {"Content-Type": "application/json"}
        if account is not None:
            both = base64.b64encode(f"{account.user}:{account.password}".encode()).decode()
            self.headers["Authorization"] = f"Basic {both}"

    def request(self, method: str, path: str, body: bytes | None = None) -> tuple[int, bytes]:
        """One request over a connection of its own: the status and the whole content, or `NoAnswer`."""
        try:
            with contextlib.closing(connection_to(self.url, self.timeout)) as connection:
                connection.request(method, self.url.path + path, body, self.headers)
                response = connection.getresponse()
                return response.status, response.read()
        except (OSError, http.client.HTTPException, ValueError) as fault:
            raise NoAnswer(f"{method} {path}: {fault or type(fault).__name__}") from fault

    def post(self, door: str, delivery: Delivery) -> Answer:
        """The answer to a delivery at the door `forge` or `worker`.

        `NoAnswer` where nothing of the gate came, or E15, which says to send the same again.
        """
        status, content = self.request("POST", f"/{door}", json.dumps(delivery).encode())
        said = as_object(content)
        # A proxy may have a `code` too, as a number.
        if not isinstance(said.get("reply", said.get("code")), str) or said.get("code") == "E15":
            raise no_answer(f"POST /{door}", status, content)
        return Answer(said)

    def get(self, path: str) -> bytes | None:
        """The content at a path, or none where the gate says that there is nothing."""
        status, content = self.request("GET", path)
        if status == 404 and as_object(content).get("error") in NOTHING_THERE:
            return None
        if status != 200:
            raise no_answer(f"GET {path}", status, content)
        return content

    def json(self, path: str) -> Any:
        content = self.get(path)
        if content is None:
            return None
        try:
            return json.loads(content)
        except ValueError as fault:
            raise NoAnswer(f"GET {path}: no JSON, {content[:100]!r}") from fault

    def lines(self, path: str) -> list[str] | None:
        """The lines of a text before its `end` line, without which it is a cut one."""
        content = self.get(path)
        if content is None:
            return None
        lines = content.decode("utf-8", "replace").split("\n")
        if len(lines) < 2 or lines.pop() or not (lines[-1] == "end" or lines[-1].startswith("end ")):
            raise NoAnswer(f"GET {path}: a cut text")
        return lines[:-1]

    def orders(self) -> list[Order]:
        with expected("/orders"):
            return [Order(it["queue"], it["order"], it["project"], it["change"], it["revision"])
                    for it in self.json("/orders")]

    def build(self, number: int) -> dict[str, Any] | None:
        said: dict[str, Any] | None = self.json(f"/builds/{number}")
        return said

    def change(self, number: int) -> dict[str, Any] | None:
        said: dict[str, Any] | None = self.json(f"/changes/{number}")
        return said

    def running(self) -> list[dict[str, Any]]:
        """The builds that run, at most the first 1,000 of them."""
        with expected("/running"):
            return list(self.json("/running")["builds"])

    def status(self) -> Status:
        with expected("/status"):
            return status_of(self.lines("/status") or [])

    def first(self) -> str | None:
        """The id of the first delivery that the gate's file has accepted: what tells one file from another."""
        with expected("/deliveries"):
            lines = self.lines("/deliveries")
            return str(uuid.UUID(json.loads(lines[0])["id"])) if lines else None

    def knows(self, delivery: str) -> bool:
        """Whether the gate has accepted the delivery of this id."""
        return self.lines(f"/deliveries/{delivery}") is not None

    def until(self, ask: Callable[[], T], pause: float = 1.0) -> T:
        """Asks again until there is an answer, and says so when answers end and come again.

        Of the faults in between, the first of each status is told.
        """
        silent: set[int | None] = set()
        while True:
            try:
                answer = ask()
            except NoAnswer as fault:
                if fault.status not in silent:
                    say(self.part, f"no answer of the gate: {fault}")
                silent.add(fault.status)
                time.sleep(pause)
                continue
            if silent:
                say(self.part, "the gate answers again")
            return answer


@contextlib.contextmanager
def expected(path: str) -> Iterator[None]:
    """What doesn't have the form of a page of the gate, as that of some proxy, is no answer."""
    try:
        yield
    except (KeyError, IndexError, TypeError, ValueError) as fault:
        raise NoAnswer(f"GET {path}: not what a gate says: {fault!r}") from fault


def status_of(lines: list[str]) -> Status:
    """The status that the lines before the last one of its text say."""
    queues: list[QueueStatus] = []
    waiting: list[tuple[int, int]] = []
    for words in (line.split() for line in lines):
        if words[0] == "queue":
            queues.append(QueueStatus(words[1], int(words[3]), int(words[5]), []))
        elif words[0] == "waiting":
            waiting.append((int(words[1]), int(words[2])))
        else:
            queues[-1].items.append(words)
    return Status(queues, waiting)


def as_object(content: bytes) -> dict[str, Any]:
    """A JSON object, or an empty one in the place of anything else."""
    try:
        said = json.loads(content)
    except ValueError:
        return {}
    return said if isinstance(said, dict) else {}
