#!/usr/bin/env python3
"""The adapter of bare git repositories: tells a gate what is pushed to them, and what somebody says of a change.

adapter.py SETTINGS COMMAND, where SETTINGS is the companions' settings file and COMMAND one of

    post-receive             the hook of each repository: tells a revision for a push to refs/changes/CHANGE/REVISION
    approve CHANGE REVISION  tells an approval; `withdraw` and `close` are given likewise
    send                     sends all that is kept; what waits for the answer to an order stays kept
    stay                     does that again and again: run it beside the hooks
    tell-again               tells once more all that was ever told: for a gate that was restored

What is told is written into a table first, under an id that it keeps from then on. So a crash loses nothing, and what
is told again acts only where the gate doesn't know it. The id of a revision is made of its commit's hash, so that the
lander can see which commit was told, and a ref that somebody has moved is set right. Each look leaves word for the
lander, which lands only what was compared (docs/CONNECTING.md has the form).
"""
from __future__ import annotations

import fcntl
import json
import os
import re
import subprocess
import sys
import time
import uuid
from collections import Counter
from dataclasses import asdict
from pathlib import Path
from typing import Any

sys.path.insert(0, str(Path(__file__).resolve().parents[2]))

from companions import compared, settings as settings_file  # noqa: E402
from companions.compared import Compared, Moment, Repository  # noqa: E402
from companions.comparisons import SUBMITTING  # noqa: E402
from companions.gate import Answer, Gate, NoAnswer  # noqa: E402
from companions.ids import id_of, revision_id  # noqa: E402
from companions.outbox import Kept, Outbox  # noqa: E402
from companions.tables import add  # noqa: E402

# `key` is there for what can be told once only, a revision, which has its commit in what is said, though that isn't
# sent. Each approval is an object of its own, by its place. The id is chosen when the gate is asked for the first time,
# since it depends on the gate's file.
TABLE = """
CREATE TABLE IF NOT EXISTS told(place INTEGER PRIMARY KEY AUTOINCREMENT, key TEXT UNIQUE, id TEXT UNIQUE,
    said TEXT NOT NULL);
"""
REVISION = re.compile(r"refs/changes/([1-9][0-9]{0,8})/([1-9][0-9]{0,3})")
LANDED = re.compile(r"^Gate-Change: ([0-9]+)\nGate-Revision: ([0-9]+)$", re.MULTILINE)
# As the gate reads it (docs/FORMATS.md, "Needs"); the base is that of its settings.
NEED = re.compile(r"^(?i:depends-on:)[ \t]*https://forge/c/([1-9][0-9]{0,8})[ \t\r]*$", re.MULTILINE)
# The change that a new file is told first, which nobody has: ids are made of the first delivery's, which is drawn.
BEGINNING = 999999999
WAITS = "gate: kept until the order of the change is answered"
KINDS = {"approve": "approved", "withdraw": "withdrawn", "close": "closed"}
# What git gives to a hook, and what would lead a command in another repository astray.
ASTRAY = ("GIT_DIR", "GIT_QUARANTINE", "GIT_OBJECT")
PLAIN = {name: value for name, value in os.environ.items() if not name.startswith(ASTRAY)}


def git(folder: Path, *words: str) -> str:
    return subprocess.run(["git", "-C", str(folder), *words], check=True, capture_output=True, text=True,
                          errors="replace", env=PLAIN).stdout


class Adapter:
    """The table of what was told, and the deliveries that the gate hasn't answered, both in one file."""

    def __init__(self, settings: settings_file.Settings) -> None:
        self.repositories = {Path(it.repository).resolve(): it.name for it in settings.projects.values()}
        self.branches = {Path(it.repository).resolve(): it.branch for it in settings.projects.values()}
        self.names = {it.name: it.forge for it in settings.projects.values()}
        self.file, self.left, self.ahead = compared.file_in(settings.folder), None, set[str]()
        self.gate = Gate(settings.url, settings.account("forge"), timeout=10, part="adapter")
        self.pause = settings.pause
        self.outbox = Outbox(settings.folder / "adapter" / "told.db")
        self.tables = self.outbox.tables
        add(self.tables, TABLE)
        self.sending = open(settings.folder / "adapter" / "sending", "w", encoding="ascii")

    def note_revision(self, folder: Path, change: int, revision: int) -> None:
        """Notes a revision, once. All landings behind it would be dated as it is, so none that is dated ahead."""
        key, name = f"revision {change} {revision}", f"refs/changes/{change}/{revision}"
        if self.tables.execute("SELECT 1 FROM told WHERE key = ?", (key,)).fetchone() is None:
            commit, date, message = git(folder, "log", "-1", "--format=%H%n%ct%n%B", name).split("\n", 2)
            if int(date) > time.time() + 86400:
                if commit not in self.ahead:
                    print(f"gate: {name} isn't told, since it is dated more than a day ahead", flush=True)
                self.ahead.add(commit)
                return
            said = {"kind": "revision", "change": change, "project": self.repositories[folder], "revision": revision,
                    "message": message, "commit": commit}
            self.tables.execute("INSERT OR IGNORE INTO told(key, said) VALUES (?, ?)", (key, json.dumps(said)))

    def look(self) -> None:
        """Notes each revision that a repository has and no hook has told, since a hook may be lost; and sets each right
        that is another commit by now. All repositories have been compared by that."""
        began = Moment.now()
        for folder, project in self.repositories.items():
            listed = git(folder, "for-each-ref", "--format=%(refname) %(objectname)", "refs/changes").splitlines()
            names = dict(line.split() for line in listed)
            for name in sorted(names, key=lambda it: [int(word) for word in re.findall("[0-9]+", it)]):
                named = REVISION.fullmatch(name)
                if named:
                    self.note_revision(folder, int(named[1]), int(named[2]))
            self.set_right(folder, project, names)
        self.outbox.put("compared", asdict(began))

    def set_right(self, folder: Path, project: str, names: dict[str, str]) -> None:
        """A revision is the commit that was told, whoever has moved its ref since."""
        for text, in self.tables.execute("SELECT said FROM told WHERE key IS NOT NULL ORDER BY place").fetchall():
            said = json.loads(text)
            name = f"refs/changes/{said['change']}/{said['revision']}"
            if said["project"] == project and names.get(name) != said.get("commit", names.get(name)):
                git(folder, "update-ref", name, said["commit"])
                print(f"{name} of {project} was {names.get(name)}: set right to {said['commit']}", flush=True)

    def note(self, kind: str, change: int, revision: int) -> None:
        """Notes what somebody says of a revision, which has to be there."""
        self.look()
        key = f"revision {change} {revision}"
        if self.tables.execute("SELECT 1 FROM told WHERE key = ?", (key,)).fetchone() is None:
            sys.exit(f"adapter: no project has refs/changes/{change}/{revision}")
        said = {"kind": kind, "change": change, "revision": revision}
        self.tables.execute("INSERT INTO told(said) VALUES (?)", (json.dumps(said),))

    def keep(self, where: str) -> None:
        """Keeps rows of the table for sending, in their order."""
        for id, text in self.tables.execute(f"SELECT id, said FROM told WHERE {where} ORDER BY place").fetchall():
            said = json.loads(text)
            said.pop("commit", None)
            self.outbox.keep(Kept(str(said["change"]), id, "forge", said))

    def choose(self) -> None:
        """Gives an id to each row that has none, and keeps these rows for sending."""
        rows = self.tables.execute("SELECT place, said FROM told WHERE id IS NULL ORDER BY place").fetchall()
        if not rows:
            return
        first = self.gate.first() or self.begin(json.loads(rows[0][1])["project"])
        with self.tables:
            self.tables.execute("BEGIN IMMEDIATE")
            self.outbox.put("first", first)
            for place, text in rows:
                id = identity(first, place, json.loads(text))
                self.tables.execute("UPDATE told SET id = ? WHERE place = ?", (id, place))
            self.keep(f"place IN ({','.join(str(row[0]) for row in rows)})")

    def begin(self, project: str) -> str:
        """Tells a gate that has accepted nothing its first delivery, and gives its id, which is drawn at random."""
        said = {"kind": "revision", "change": BEGINNING, "project": project, "revision": 1, "message": ""}
        answer = self.gate.post("forge", {"id": str(uuid.uuid4()), **said})
        first = self.gate.first()
        if first is None:
            raise NoAnswer(f"the first delivery was refused: {answer.said}")
        return first

    def landed(self) -> dict[int, int]:
        """The changes that the branches have, each at its revision, by the messages of the landings."""
        said = ""
        for folder, branch in self.branches.items():
            heads = git(folder, "for-each-ref", "--format=%(objectname)", f"refs/heads/{branch}").split()
            if heads:
                said += git(folder, "log", "--first-parent", "--grep=^Gate-Change: ", "--format=%B", *heads)
        return {int(change): int(revision) for change, revision in LANDED.findall(said)}

    def drop_what_is_late(self) -> None:
        """What has landed can't be closed, withdrawn or revised any more.

        The gate says so itself, unless it was restored to a moment before the landing. Then it would take a closing,
        and could never be told of the landing, which the branch has.
        """
        rows = self.tables.execute("SELECT id, said FROM delivery").fetchall()
        landed = self.landed() if rows else {}
        for id, said in ((id, json.loads(text)) for id, text in rows):
            last = landed.get(said["change"])
            if last is not None and (said["kind"] in ("closed", "withdrawn") or said["revision"] > last):
                self.tables.execute("DELETE FROM delivery WHERE id = ?", (id,))
                print(f"{said['kind']} {said['change']} {said['revision']}: not told, since revision {last} has landed")

    def send(self) -> bool:
        """Sends what may be sent by now, and says whether nothing is left. One process at a time sends."""
        fcntl.flock(self.sending, fcntl.LOCK_EX)
        try:
            self.choose()
            self.drop_what_is_late()
            self.leave()
            return self.outbox.send(self.gate, self.answered, self.pause, self.leave)
        finally:
            self.leave()
            fcntl.flock(self.sending, fcntl.LOCK_UN)

    def answered(self, kept: Kept, answer: Answer) -> None:
        """Notes the last delivery that the gate has accepted, and says what it answered."""
        if answer.reply is not None:
            self.outbox.put("last", kept.id)
        said, heard = kept.said, json.dumps(answer.said, separators=(",", ":"))
        print(f"{said['kind']} {said['change']} {said['revision']}: gate: {heard}", flush=True)

    def leave(self) -> None:
        """Leaves word for the lander: what waits to be told, and when all was compared."""
        submitting = {it.said["change"]: SUBMITTING.get(it.said["kind"]) for it in self.outbox.submitting()}
        waiting = {int(lane) for lane, in self.tables.execute("SELECT lane FROM delivery")} - set(submitting)
        new = {said["change"]: said.get("project") for said in self.said("id IS NULL")}
        of = {said["change"]: said["project"] for said in self.said("key IS NOT NULL")}
        counts = Counter(self.names[of[it]] for it in waiting | set(new) if it in of)
        began = self.outbox.get("compared")
        repositories = {it: Repository(counts[it], began and Moment(**began)) for it in self.names.values()}
        refuse = {change: why for change, why in submitting.items() if why is not None}
        left = Compared(self.outbox.get("first"), self.outbox.get("last"), repositories, refuse)
        if left != self.left:
            compared.write(self.file, left)
            self.left = left

    def said(self, where: str) -> list[dict[str, Any]]:
        return [json.loads(it) for it, in self.tables.execute(f"SELECT said FROM told WHERE {where}")]

    def send_all(self) -> None:
        """Sends all that the gate takes by now.

        What has to wait for the answer to an order isn't waited for: that may need somebody who reads what the lander
        says.
        """
        if not self.gate.until(self.send, self.pause):
            print(WAITS)

    def try_to_send(self) -> None:
        """Sends once: what isn't answered stays kept for `send` or `stay`."""
        try:
            if not self.send():
                print(WAITS)
        except NoAnswer as fault:
            print(f"gate: kept, since there is no answer: {fault}")

    def tell_again(self) -> None:
        """Keeps all that was told once more, in place of what is kept by now: each change's in its order."""
        fcntl.flock(self.sending, fcntl.LOCK_EX)
        with self.tables:
            self.tables.execute("BEGIN IMMEDIATE")
            self.tables.execute("DELETE FROM delivery")
            for name in ("last", "compared"):
                self.outbox.drop(name)
            self.keep("id IS NOT NULL")
        self.leave()
        fcntl.flock(self.sending, fcntl.LOCK_UN)

    def stay(self) -> None:
        while True:
            self.look()
            self.gate.until(self.send, self.pause)
            time.sleep(self.pause)


def identity(first: str, place: int, said: dict[str, Any]) -> str:
    """The id of what is told: a revision is its commit, and anything else an object of its own."""
    if "commit" not in said:
        return id_of(first, said["kind"], said["change"], said["revision"], place)
    needs = dict.fromkeys(int(it) for it in NEED.findall(said["message"]))
    return revision_id(first, said["change"], said["revision"], said["commit"], needs)


def take_pushes(adapter: Adapter) -> None:
    """What git gives to the hook: a line for each name that was pushed. The work folder is the repository."""
    folder = Path.cwd().resolve()
    for line in sys.stdin:
        named = REVISION.fullmatch(line.split()[2])
        if named and folder in adapter.repositories:
            adapter.note_revision(folder, int(named[1]), int(named[2]))
        elif named:
            print(f"gate: no project has the repository {folder}")


def main(words: list[str]) -> None:
    if len(words) < 2:
        sys.exit(__doc__)
    try:
        adapter = Adapter(settings_file.read(Path(words[0])))
    except settings_file.SettingsFault as fault:
        sys.exit(f"adapter: {fault}")
    match words[1:]:
        case ["post-receive"]:
            take_pushes(adapter)
            adapter.try_to_send()
        case ["approve" | "withdraw" | "close" as said, change, revision]:
            adapter.note(KINDS[said], int(change), int(revision))
            adapter.try_to_send()
        case ["send"]:
            adapter.look()
            adapter.send_all()
        case ["stay"]:
            adapter.stay()
        case ["tell-again"]:
            adapter.tell_again()
            adapter.look()
            adapter.send_all()
        case _:
            sys.exit(__doc__)


if __name__ == "__main__":
    main(sys.argv[1:])
