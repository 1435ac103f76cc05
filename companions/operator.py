"""What an operator does with a queue, by deliveries and without a word in the gate's settings.

    python3 -m companions.operator companions.toml promote N
    python3 -m companions.operator companions.toml dequeue N
    python3 -m companions.operator companions.toml hold QUEUE [--because TEXT]
    python3 -m companions.operator companions.toml resume QUEUE
    python3 -m companions.operator companions.toml log

N is the number of a change at the gate, or its request, as acme/lib#7.

promote: the change goes to the front of its queue, behind what it needs and what is being landed. All others are taken
    back and approved again behind it, in their old order, so they lose their builds. People have to have approved it.
dequeue: the change leaves its queue, and needs a new approval.
hold: no approval of the queue is told, and nothing lands, until resume. Builds go on. Both say so on the requests.
log: what was done, by whom and when.

What will be done is shown first, and asked for, unless --yes is given. The adapter does the first two; if it doesn't
run, it does them once it does. The status is 0 where it was done, 1 where it wasn't, 2 where nothing was understood,
and 3 where the adapter hasn't answered within --wait seconds (60).
"""
from __future__ import annotations

import argparse
import getpass
import json
import os
import sqlite3
import sys
import time
import uuid
from collections.abc import Iterator
from datetime import datetime, timezone
from pathlib import Path
from typing import Any, NoReturn

from companions.command_line import CommandLine
from companions.front import front_of
from companions.gate import Gate, NoAnswer
from companions.held import LONGEST, Hold, folder_in, make, own, read, write
from companions.reader import SettingsFault
from companions.settings import Settings
from companions.settings import read as read_settings

ACTS = {"promote": 1, "dequeue": 1, "hold": 1, "resume": 1, "log": 0}
LOG = "done.jsonl"
SEE = "see 'python3 -m companions.operator --help'"


class Wrong(Exception):
    """Why nothing is done."""


class Words(CommandLine):
    def error(self, message: str) -> NoReturn:
        raise Wrong(f"{message}: {SEE}")


def main(words: list[str]) -> int:
    line = Words("operator", __doc__)
    line.add_settings()
    line.add_argument("act", nargs="?", choices=ACTS, help="what is done")
    line.add_argument("subject", nargs="*", default=[], metavar="N or QUEUE", help="to what")
    line.add_argument("--yes", action="store_true", help="don't ask")
    line.add_argument("--because", type=reason, metavar="TEXT", help="why it is held")
    line.add_argument("--wait", type=seconds, default=60.0, metavar="SECONDS", help="how long an answer is awaited")

    def begin(asked: argparse.Namespace) -> int:
        if len(asked.subject) != ACTS.get(asked.act):
            raise Wrong(SEE)
        because = asked.because or ""
        return act(read_settings(asked.settings), asked.act, asked.subject, asked.yes, because, asked.wait)

    try:
        return line.run(words, begin)
    except (Wrong, SettingsFault, NoAnswer, OSError, ValueError) as fault:
        print(f"operator: {fault}", file=sys.stderr)
        return 2 if isinstance(fault, (Wrong, SettingsFault)) else 1


def reason(word: str) -> str:
    if not word or len(word) > LONGEST or not word.isprintable():
        raise Wrong(f"--because wants a text of one line, of at most {LONGEST} characters")
    return word


def seconds(word: str) -> float:
    try:
        return max(0.0, float(word))
    except ValueError:
        raise Wrong("--wait wants a number of seconds") from None


def act(settings: Settings, what: str, words: list[str], yes: bool, because: str, wait: float) -> int:
    if what == "log":
        for it in done(settings.folder):
            print(told(it))
        return 0
    if what in ("hold", "resume"):
        return hold(settings, what, words[0], yes, because)
    change = number_of(settings, words[0])
    for line in shown(settings, what, change):
        print(line)
    if not yes and not is_wanted():
        print("operator: nothing is done")
        return 1
    identity = ask(settings.folder, what, change)
    return await_(settings.folder, identity, wait)


def number_of(settings: Settings, word: str) -> int:
    """The number of a change, which may be named by its request."""
    if word.isascii() and word.isdigit() and 0 < int(word[:18]) < 10 ** 9:
        return int(word)
    repository, mark, number = word.replace("!", "#").rpartition("#")
    if not mark or not (number.isascii() and number.isdigit()):
        raise Wrong(f"{word} is neither the number of a change nor a request, as acme/lib#7")
    file = settings.folder / "adapter" / "adapter.db"
    try:
        tables = sqlite3.connect(f"file:{file}?mode=ro", uri=True)
        try:
            rows = tables.execute("SELECT number FROM change WHERE repository = ? AND request = ? AND told"
                                  " AND NOT closed", (repository, int(number[:18]))).fetchall()
        finally:
            tables.close()
    except sqlite3.Error as fault:
        raise Wrong(f"{file} can't be read: {fault}: name the change by its number") from fault
    if len(rows) != 1:
        raise Wrong(f"the adapter has {'no change' if not rows else 'several changes'} of {word}")
    return int(rows[0][0])


def shown(settings: Settings, what: str, change: int) -> Iterator[str]:
    """What will be done, by what the gate shows now."""
    gate = Gate(settings.url, settings.account("forge"), part="operator")
    known = gate.change(change)
    if known is None:
        raise Wrong(f"the gate doesn't know change {change}")
    queue, order = known["queue"], known["order"]
    items: list[list[str]] = next((it.items for it in gate.status().queues if it.name == queue), [])
    place = next((at for at, it in enumerate(items, 1) if int(it[1]) == change), None)
    stands = f"stands at place {place} of {len(items)} in {queue}" if order is not None else f"doesn't stand in {queue}"
    yield f"change {change}, revision {known['revision']}, {stands}"
    if what == "dequeue":
        yield f"it leaves {queue}, and needs a new approval"
        return
    front = front_of(gate, queue, change)
    for it in front.landing:
        yield f"change {it} is being landed: it stays first"
    if front.stands and not front.others:
        yield f"change {change} stands first in {queue} already, behind what it needs of it: nothing changes"
        return
    yield f"change {change} goes first in {queue}, behind what it needs of it"
    if front.others:
        yield f"these follow, in this order, and lose their builds: {', '.join(str(it) for it, _ in front.others)}"


def is_wanted() -> bool:
    print("Do it? [y/N] ", end="", flush=True)
    return sys.stdin.readline().strip().lower() in ("y", "yes")


def ask(folder: Path, what: str, change: int) -> str:
    """Leaves the adapter a file that asks for it, and gives its id. What was asked and isn't done yet is asked once."""
    place = make(folder)
    for file in place.glob("asked-*.json"):
        try:
            said = json.loads(file.read_text(encoding="utf-8"))
            if (said["do"], said["change"]) == (what, change):
                return str(said["id"])
        except (OSError, ValueError, KeyError, TypeError):
            continue
    identity = uuid.uuid4().hex
    new = place / f"new-{identity}"
    new.write_text(json.dumps({"id": identity, "do": what, "change": change, "by": user()}) + "\n", encoding="utf-8")
    own(new, folder)
    os.replace(new, place / f"asked-{identity}.json")
    return identity


def user() -> str:
    """Who does it, as far as the machine knows: behind `sudo` the person who called it."""
    return (os.environ.get("SUDO_USER") or getpass.getuser())[:64]


def await_(folder: Path, identity: str, wait: float) -> int:
    """Waits until the adapter has done it, and says what it did."""
    end = time.monotonic() + wait
    while True:
        found = next((it for it in done(folder) if it["id"] == identity), None)
        if found is not None:
            print(told(found))
            return 1 if found["said"] and found["said"][0].startswith("not done: ") else 0
        if time.monotonic() >= end:
            print("operator: the adapter hasn't answered yet: it does this once it runs. 'log' shows when it has",
                  file=sys.stderr)
            return 3
        time.sleep(0.2)


def hold(settings: Settings, what: str, queue: str, yes: bool, because: str) -> int:
    """Holds a queue, or lets it go on."""
    if queue not in {it.queue for it in settings.projects.values()}:
        raise Wrong(f"no project of the settings has the queue {queue}")
    held = known(settings.folder)
    if held is not None and (what == "resume") == (queue not in held):
        print(f"{queue} {'is held already: ' + str(held[queue]) if what == 'hold' else 'is not held'}")
        if last_act(settings.folder, queue) != what:
            # Whoever did it was killed before its line.
            note(settings.folder, what, queue, held[queue].why if what == "hold" else "")
        return 0
    print(f"{queue}: no approval is told and nothing lands until 'resume {queue}'" if what == "hold"
          else f"{queue}: approvals are told and changes land again")
    if not yes and not is_wanted():
        print("operator: nothing is done")
        return 1
    others = {name: it for name, it in (held or {}).items() if name != queue}
    since = f"{datetime.now(timezone.utc):%Y-%m-%d %H:%M} UTC"
    write(settings.folder, {**others, queue: Hold(since, because)} if what == "hold" else others)
    note(settings.folder, what, queue, because if what == "hold" else "")
    return 0


def known(folder: Path) -> dict[str, Hold] | None:
    """The queues that are held; none where the file can't be read, which holds all of them until it is written anew."""
    try:
        return read(folder)
    except ValueError as fault:
        print(f"operator: {fault}: it is written anew, and then holds no other queue", file=sys.stderr)
        return None


def last_act(folder: Path, queue: str) -> str:
    """What was done last with a queue: at first none is held."""
    return next((it["do"] for it in reversed([*done(folder)]) if it.get("queue") == queue), "resume")


def note(folder: Path, what: str, queue: str, because: str) -> None:
    """Notes what was done with a queue, and says it."""
    line = {"id": uuid.uuid4().hex, "at": datetime.now(timezone.utc).isoformat(timespec="seconds"), "by": user(),
            "do": what, "queue": queue, "said": [because] if because else []}
    log = folder_in(folder) / LOG
    with log.open("a", encoding="utf-8") as lines:
        lines.write(json.dumps(line) + "\n")
    own(log, folder)
    print(told(line))


def done(folder: Path) -> Iterator[dict[str, Any]]:
    """What was done, each once: the adapter may have been killed right behind a line."""
    known: set[str] = set()
    try:
        lines = (folder_in(folder) / LOG).read_text(encoding="utf-8").splitlines()
    except FileNotFoundError:
        return
    for line in lines:
        try:
            said = json.loads(line)
        except ValueError:
            continue
        if said["id"] not in known:
            known.add(said["id"])
            yield said


def told(it: dict[str, Any]) -> str:
    what = f"{it['do']} {it.get('change', it.get('queue'))}"
    return f"{it['at']} {it['by']}: {what}{': ' if it['said'] else ''}{'; '.join(it['said'])}"


if __name__ == "__main__":
    sys.exit(main(sys.argv[1:]))
