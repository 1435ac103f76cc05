"""Tells somebody of each change that leaves its queue without landing, by a command of the operator's: a mail, a chat.

What is told is noted before the command is run, so it is told at most once, whatever becomes of the command. Commands
run beside all else, a few at a time and for a short time each: one that hangs or fails holds nothing up.
"""
from __future__ import annotations

import contextlib
import os
import signal
import subprocess
import tempfile
import threading
from collections.abc import Callable, Mapping, Sequence
from typing import Any

from companions.forges import Place
from companions.gate import say
from companions.outbox import Notes
from companions.people_texts import unmarked
from companions.subjects import Subjects

# How many commands run at once, and for how many seconds each.
MOST, PATIENCE = 4, 60.0
# The kinds of texts about a change that stands in its queue, or waits to enter it: it was approved once more meanwhile.
STANDS = frozenset({"queued", "testing", "failing", "blocked", "tested", "landing", "stopped", "late", "waiting",
                    "circle"})


class Leaving:
    """Tells of changes. `address` is that of a request, and `file` the id of the gate's first delivery."""

    def __init__(self, command: str | None, notes: Notes, subjects: Subjects, address: Callable[[Place], str],
                 file: Callable[[], str | None], patience: float = PATIENCE) -> None:
        self.command, self.notes, self.subjects, self.address, self.file = command, notes, subjects, address, file
        self.patience, self.lock = patience, threading.Lock()
        self.running: set[int] = set()
        self.trouble = ""
        if command is None:
            # Whoever sets one again isn't told of what has left before.
            notes.drop("tell")

    def look(self, said: Mapping[int, Sequence[str]], kinds: Mapping[int, str]) -> None:
        """Tells what is new, given the paragraphs that people are told of changes, and the kinds of these texts."""
        if self.command is None or (file := self.file()) is None:
            return
        if self.notes.get("tell") is None:
            self.begin(file)
        for change, paragraphs in said.items():
            report = self.notes.get(f"report {change}")
            if report is None or report[3] == "landed":
                continue
            left, stands = [file, report[0], report[1]], kinds.get(change) in STANDS
            if self.notes.get(f"told {change}") == left or not stands and len(self.running) >= MOST:
                continue
            self.notes.put(f"told {change}", left)
            if not stands:
                self.tell(change, report, paragraphs)

    def begin(self, file: str) -> None:
        """What has left before somebody wanted to be told is told already."""
        reports = self.notes.all("report ").items()
        self.notes.put_all({f"told {name.partition(' ')[2]}": [file, it[0], it[1]] for name, it in reports})
        self.notes.put("tell", True)

    def tell(self, change: int, report: Sequence[Any], paragraphs: Sequence[str]) -> None:
        place, title, author = self.subjects.named(change)
        around = {"GATED_REQUEST": self.address(place), "GATED_AUTHOR": author, "GATED_TITLE": title,
                  "GATED_VERDICT": str(report[3]), "GATED_QUEUE": str(report[0]), "GATED_CHANGE": str(change)}
        text = "\n\n".join(map(unmarked, paragraphs)) + "\n"
        with self.lock:
            self.running.add(change)
        threading.Thread(target=self.run, args=(change, around, text), daemon=True).start()

    def run(self, change: int, around: Mapping[str, str], text: str) -> None:
        """Runs the command, and says once what goes wrong with it, until it goes well again."""
        try:
            wrong = self.ended({**os.environ, **around}, text)
        except (OSError, ValueError) as fault:
            wrong = f"can't be run: {fault}"
        with self.lock:
            self.running.discard(change)
            if wrong and wrong != self.trouble:
                say("adapter", f"adapter.tell {wrong} (change {change})")
            self.trouble = wrong

    def ended(self, environment: Mapping[str, str], text: str) -> str:
        """How the command ended, where that is wrong."""
        assert self.command is not None
        with tempfile.TemporaryFile() as errors:
            process = subprocess.Popen(["sh", "-c", self.command], stdin=subprocess.PIPE, stdout=subprocess.DEVNULL,
                                       stderr=errors, env=environment, start_new_session=True)
            try:
                process.communicate(text.encode(), self.patience)
            except subprocess.TimeoutExpired:
                return f"was killed, since it took more than {self.patience:g} seconds"
            finally:
                with contextlib.suppress(ProcessLookupError):
                    os.killpg(process.pid, signal.SIGKILL)
                process.wait()
            errors.seek(max(0, errors.seek(0, os.SEEK_END) - 300))
            said = " ".join(errors.read().decode("utf-8", "replace").split())
        return f"ended with {process.returncode}{': ' if said else ''}{said}" if process.returncode else ""
