"""Runs a job: a command in a process group of its own, with a time limit and a log, that can be ended from outside.

Whatever a job has started ends with it. Its processes are known by their group, and by an entry of their environment,
since one may leave the group, and a worker that was killed leaves the whole job running. A job that has to end is told
so first, since it may have something to end elsewhere, as a run of a CI.
"""
from __future__ import annotations

import contextlib
import enum
import os
import select
import signal
import subprocess
import time
from collections.abc import Callable
from dataclasses import dataclass
from pathlib import Path

from companions.room import Guard, Room
from companions.sandbox import Sandbox, Told, told
from companions.settings import LOG_LIMIT, LOST

# So much is read at once of what a job says, and so often of what it has left when it has ended.
CHUNK, LEFT = 65536, 64
# How long a job has to end once it is told so, in seconds.
ENDING = 10.0


class Cause(enum.Enum):
    """Why a job ended."""
    ITSELF = "itself"
    LIMIT = "limit"
    SPACE = "space"
    UNWANTED = "unwanted"


@dataclass(frozen=True)
class Command:
    """What is run: by `sh`, in a folder, with this environment, its output added to a log, for so many seconds at most.

    `mark` is the entry of the environment, `NAME=VALUE`, by which the job's processes are known. No other process may
    have it. Without a `sandbox` it does what this process may do. The log ends at `log_limit` bytes of it, and the job
    once it has no more `room`.
    """
    text: str
    folder: Path
    environment: dict[str, str]
    mark: str
    log: Path
    limit: float
    sandbox: Sandbox | None = None
    log_limit: int = LOG_LIMIT
    room: Room | None = None
    lost: frozenset[int] = LOST


@dataclass(frozen=True)
class Ended:
    """How a job ended: the cause, the status of its shell (below 0 a signal's number), how long it took, and which exit
    statuses mean that it is lost."""
    cause: Cause
    status: int
    seconds: float
    lost: frozenset[int] = LOST

    @property
    def outcome(self) -> str:
        """`success`, `failure` or `lost`, the last where something outside ended it, or it says so by its status.

        A job that hangs is a failure, since nobody can tell it from a change that makes it hang. So are 126 and 127: a
        command that isn't there may have been taken away by the change.
        """
        if self.cause in (Cause.LIMIT, Cause.SPACE):
            return "failure"
        if self.cause is Cause.UNWANTED or self.exit_status in self.lost:
            return "lost"
        return "success" if self.status == 0 else "failure"

    @property
    def exit_status(self) -> int:
        """Its status as a shell tells it: 128 and the signal's number where a signal ended it."""
        return 128 - self.status if self.status < 0 else self.status

    def __str__(self) -> str:
        if self.cause is Cause.LIMIT:
            return "killed at its time limit"
        if self.cause is Cause.SPACE:
            return "killed, since the disk was nearly full and it had written more than worker.space"
        if self.cause is Cause.UNWANTED:
            return "killed, since the gate doesn't want the build any more"
        return f"ended by signal {-self.status}" if self.status < 0 else f"exit status {self.status}"


class NoRoom(OSError):
    """The disk is nearly full, by no fault of the job."""


class NoSandbox(OSError):
    """The sandbox of a job didn't begin, or was killed before the job's end."""


def run(command: Command, wanted: Callable[[], bool], look: float, began: Callable[[int], None]) -> Ended:
    """Runs a command to its end. `wanted` is asked every `look` seconds, `began` is told the process group.

    `OSError` where the shell can't be started; `NoSandbox` where the sandbox doesn't begin, or ends before the job, and
    `NoRoom` where the disk is nearly full by no fault of the job.
    """
    begin = time.monotonic()
    reading, writing = os.pipe()
    with os.fdopen(reading, "rb") as status, Output(command.log, command.log_limit) as output:
        try:
            process = subprocess.Popen(words_of(command, writing), cwd=command.folder, env=command.environment,
                                       stdin=subprocess.DEVNULL, stdout=output.writing, stderr=output.writing,
                                       start_new_session=True,
                                       pass_fds=(writing,) if command.sandbox is not None else ())
        finally:
            os.close(writing)
            output.begin()
        try:
            with Guard(command.room, lambda: kill_group(process.pid)) as guard:
                began(process.pid)
                cause = wait(process.pid, begin + command.limit, wanted, look, output)
                if cause is not Cause.ITSELF:
                    terminate(process.pid, command, output)
        finally:
            # The shell isn't waited for yet, so that its number can't be another group's by now.
            kill_group(process.pid)
            kill_marked(command.mark)
            process.wait()
            # Nobody has the other end any more.
            said = told(status.read()) if command.sandbox is not None else Told(None, process.returncode)
            if said.process is not None:
                wait_for_end(said.process)
        output.end()
    if guard.was_low and command.room is not None:
        if command.room.used() <= command.room.space:
            raise NoRoom(f"less than worker.free is left on the disk of {command.room.folder}")
        cause = Cause.SPACE
    if cause is Cause.ITSELF and said.status is None:
        raise NoSandbox(f"its sandbox didn't begin, or was killed: {last_line(command.log)}")
    status_of_job = process.returncode if said.status is None else said.status
    return Ended(cause, status_of_job, time.monotonic() - begin, command.lost)


class Output:
    """What a job says, which is added to its log up to a limit. The rest is read too, and thrown away."""

    def __init__(self, log: Path, limit: int) -> None:
        self.limit, self.left = limit, limit
        self.log = log.open("ab")
        self.reading, self.writing = os.pipe()
        os.set_blocking(self.reading, False)
        self.is_open = True

    def begin(self) -> None:
        """Leaves the other end to the job."""
        os.close(self.writing)
        self.writing = -1

    def copy(self) -> bool:
        """Takes what there is. False where there is nothing at the moment, or nobody who could say anything."""
        try:
            said = os.read(self.reading, CHUNK)
        except BlockingIOError:
            return False
        if not said:
            self.is_open = False
            return False
        was, kept = self.left, said[:self.left]
        self.left -= len(kept)
        self.log.write(kept)
        if was and not self.left:
            self.log.write(f"\nthe log ends here, at log_limit ({self.limit} bytes)\n".encode())
        self.log.flush()
        return True

    def end(self) -> None:
        """Takes what the job has left, though somebody may still speak."""
        for _ in range(LEFT):
            if not self.copy():
                return

    def __enter__(self) -> Output:
        return self

    def __exit__(self, *_: object) -> None:
        os.close(self.reading)
        if self.writing >= 0:
            os.close(self.writing)
        self.log.close()


def words_of(command: Command, status: int) -> list[str]:
    """What is started. A sandbox tells the descriptor `status` how the job ended."""
    shell = ["sh", "-c", command.text]
    if command.sandbox is None:
        return shell
    return [*command.sandbox.words(status)[:-1], "--chdir", str(command.folder), "--", *shell]


def wait_for_end(process: int, patience: float = 10.0) -> None:
    """Waits for the first process of a sandbox: it ends once all others of it have ended. `OSError` where it stays."""
    end = time.monotonic() + patience
    while state_of(process) not in ("Z", "X", None):
        if time.monotonic() > end:
            raise OSError(f"the sandbox of a job, process {process}, doesn't end")
        time.sleep(0.01)


def last_line(log: Path) -> str:
    """The last line of a log, as it may stand in a line."""
    with log.open("rb") as lines:
        lines.seek(max(0, log.stat().st_size - 1000))
        found = lines.read().decode("utf-8", "replace").splitlines()
    return "".join(it if it.isprintable() else " " for it in found[-1])[:300] if found else "nothing is in its log"


def wait(process: int, end: float, wanted: Callable[[], bool], look: float, output: Output) -> Cause:
    """Waits for a process's end without taking its status, for the time limit, or for its build to be unwanted.

    What it says goes to its log meanwhile.
    """
    handle = os.pidfd_open(process)
    try:
        due = time.monotonic() + look
        while True:
            heard = [handle, *([output.reading] if output.is_open else [])]
            ready = select.select(heard, [], [], max(0.0, min(due, end) - time.monotonic()))[0]
            if output.reading in ready:
                output.copy()
            if handle in ready:
                return Cause.ITSELF
            if time.monotonic() >= end:
                return Cause.LIMIT
            if time.monotonic() >= due:
                if not wanted():
                    return Cause.UNWANTED
                due = time.monotonic() + look
    finally:
        os.close(handle)


def terminate(process: int, command: Command, output: Output) -> None:
    """Tells all processes of a job to end, and waits until they have ended, for a time.

    A sandbox ends with the job's first process, and kills the others. So it is held up meanwhile: a shell ends at once,
    while what it has started may still have something to do.
    """
    if command.sandbox is not None:
        os.kill(process, signal.SIGSTOP)
    for it, began in members(process, command).items():
        send(it, began, signal.SIGTERM)
    end = time.monotonic() + ENDING
    while members(process, command) and time.monotonic() < end:
        if not (output.is_open and output.copy()):
            time.sleep(0.05)


def members(first: int, command: Command) -> dict[int, int]:
    """The processes of a job that haven't ended, with when each began: what comes from its first process, and without a
    sandbox, which is that process, those of its group and those with its mark."""
    known = {it: words for it in processes() if (words := stat_of(it))}
    found, boxed = {first}, command.sandbox is not None
    while more := {it for it, words in known.items() if int(words[1]) in found} - found:
        found |= more
    if boxed:
        found.discard(first)
    else:
        found |= {it for it, words in known.items() if int(words[2]) == first or is_marked(it, command.mark.encode())}
    return {it: int(known[it][19]) for it in found if it in known and known[it][0] not in "ZX"}


def send(process: int, began: int, number: int) -> None:
    """Sends a signal to a process that began then, unless it has ended: another one may have its number by now."""
    with contextlib.suppress(OSError):
        handle = os.pidfd_open(process)
        try:
            if began_at(process) == began:
                signal.pidfd_send_signal(handle, number)
        finally:
            os.close(handle)


def kill_group(group: int) -> None:
    with contextlib.suppress(ProcessLookupError, PermissionError):
        os.killpg(group, signal.SIGKILL)


def kill_marked(mark: str, patience: float = 10.0) -> None:
    """Kills all processes that were started with this entry in their environment, but the asking one.

    `OSError` where one stays, as one that waits for a disk.
    """
    end = time.monotonic() + patience
    while killed := [it for it in processes() if kill_if_marked(it, mark.encode())]:
        if time.monotonic() > end:
            raise OSError(f"the processes {killed} of a job can't be killed")
        time.sleep(0.01)


def processes() -> list[int]:
    return [int(it) for it in os.listdir("/proc") if it.isdigit() and int(it) != os.getpid()]


def kill_if_marked(process: int, mark: bytes) -> bool:
    """Kills a process that has the mark. A handle holds it meanwhile, since its number may come to mean another."""
    try:
        handle = os.pidfd_open(process)
    except OSError:
        return False
    try:
        if not is_marked(process, mark):
            return False
        signal.pidfd_send_signal(handle, signal.SIGKILL)
        return True
    except OSError:
        return False
    finally:
        os.close(handle)


def is_marked(process: int, mark: bytes) -> bool:
    try:
        return mark in Path(f"/proc/{process}/environ").read_bytes().split(b"\0")
    except OSError:
        return False


def began_at(process: int) -> int | None:
    """When a process began, in the kernel's ticks: together with its number this names it. None where there is none."""
    words = stat_of(process)
    return int(words[19]) if words else None


def state_of(process: int) -> str | None:
    """The letter of a process's state, as `Z`. None where there is none."""
    words = stat_of(process)
    return words[0] if words else None


def stat_of(process: int) -> list[str]:
    """What the kernel tells of a process, from its state on."""
    try:
        text = Path(f"/proc/{process}/stat").read_text(encoding="utf-8", errors="replace")
    except OSError:
        return []
    return text.rpartition(")")[2].split()
