"""Parts of a day: programs as process groups, which are killed as a power cut would and started again."""
from __future__ import annotations

import os
import signal
import subprocess
import time
from collections.abc import Callable
from pathlib import Path


class Differs(Exception):
    """What a day found that may not be."""


def patience() -> float:
    """How many seconds a day may wait for one thing: PATIENCE, where the machine is slow."""
    return float(os.environ.get("PATIENCE", "300"))


def wait_for(what: str, is_so: Callable[[], object], pause: float = 0.1) -> None:
    """Waits until something is so; `Differs` where it doesn't come to be."""
    end = time.monotonic() + patience()
    while not is_so():
        if time.monotonic() > end:
            raise Differs(f"waited too long for {what}")
        time.sleep(pause)


def put(file: Path, text: str) -> None:
    """Writes beside and renames: a part that is started just then must not read half of it."""
    new = file.with_name(file.name + ".new")
    new.write_text(text, encoding="utf-8")
    os.replace(new, file)


class Part:
    """A program that is started as a process group of its own. What it prints is added to its log."""

    def __init__(self, name: str, words: list[str], log: Path, environment: dict[str, str]) -> None:
        self.name, self.words, self.log, self.environment = name, words, log, environment
        self.process: subprocess.Popen[bytes] | None = None

    def start(self) -> None:
        self.kill()
        with open(self.log, "ab") as log:
            self.process = subprocess.Popen(self.words, stdin=subprocess.DEVNULL, stdout=log, stderr=log,
                                            env=self.environment, start_new_session=True)

    def kill(self) -> None:
        """Kills the group by SIGKILL, if it runs."""
        self.end(signal.SIGKILL)

    def end(self, by: signal.Signals = signal.SIGTERM) -> None:
        """Sends a signal to the group and waits until all of it is gone: its last process may have a gate's file."""
        if self.process is None:
            return
        group = self.process.pid
        try:
            os.killpg(group, by)
        except ProcessLookupError:
            pass
        self.process.wait()
        self.process = None
        end = time.monotonic() + 5
        while is_alive(group) and time.monotonic() < end:
            time.sleep(0.02)

    def has_ended(self) -> bool:
        """Whether it was started, and ended though nobody killed it."""
        return self.process is not None and self.process.poll() is not None

    def is_running(self) -> bool:
        return self.process is not None and self.process.poll() is None


def is_alive(group: int) -> bool:
    """Whether a process of a group runs. One that has ended and that nobody has asked for doesn't."""
    for number in filter(str.isdigit, os.listdir("/proc")):
        try:
            said = Path(f"/proc/{number}/stat").read_text(encoding="ascii", errors="replace")
            state, _, its_group = said.rpartition(")")[2].split()[:3]
        except (OSError, ValueError):
            continue
        if int(its_group) == group and state not in "ZX":
            return True
    return False


def run(words: list[str], environment: dict[str, str], given: str | None = None, folder: Path | None = None) -> str:
    """What a command prints; it has to end well."""
    ran = subprocess.run(words, input=given, capture_output=True, text=True, errors="replace", env=environment,
                         cwd=folder, check=False)
    if ran.returncode != 0:
        raise Differs(f"{' '.join(words)[:300]}: ended with {ran.returncode}: {ran.stderr.strip()[-500:]}")
    return ran.stdout
