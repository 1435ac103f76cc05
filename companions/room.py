"""The room that a job has on its worker's disk: it is killed before it fills it."""
from __future__ import annotations

import os
import subprocess
import threading
from collections.abc import Callable
from dataclasses import dataclass
from pathlib import Path
from types import TracebackType

# How often a disk is looked at, in seconds.
LOOK = 1.0


@dataclass(frozen=True)
class Room:
    """A job's folders, and their disk: so many bytes have to stay free there, and so many may be in the folders."""
    folder: Path
    free: int
    space: int

    def left(self) -> int:
        """The bytes that are free on the disk, for those who aren't root."""
        disk = os.statvfs(self.folder)
        return disk.f_bavail * disk.f_frsize

    def is_low(self) -> bool:
        return self.left() < self.free

    def used(self) -> int:
        """The bytes that the folders take, once their job has ended: also those that it has closed to others."""
        for words in (["chmod", "-R", "u+rwx"], ["du", "--summarize", "--block-size=1"]):
            ran = subprocess.run([*words, "--", str(self.folder)], stdin=subprocess.DEVNULL, capture_output=True,
                                 check=False)
        used = ran.stdout.split()
        return int(used[0]) if used else 0


class Guard:
    """Looks at a job's room meanwhile, whatever else its worker waits for, and ends the job once it has too little."""

    def __init__(self, room: Room | None, end: Callable[[], None]) -> None:
        self.room, self.end, self.was_low = room, end, False
        self.is_over, self.thread = threading.Event(), threading.Thread(target=self.look, daemon=True)

    def look(self) -> None:
        while self.room is not None:
            if self.room.is_low():
                self.was_low = True
                self.end()
                return
            if self.is_over.wait(LOOK):
                return

    def __enter__(self) -> Guard:
        self.thread.start()
        return self

    def __exit__(self, kind: type[BaseException] | None, fault: BaseException | None, trace: TracebackType | None
                 ) -> None:
        self.is_over.set()
        self.thread.join()


def shared(folder: Path) -> str | None:
    """What to say where a folder has no disk of its own: what jobs write there fills the machine's."""
    if os.stat(folder).st_dev != os.stat("/").st_dev:
        return None
    return f"{folder} is on the disk of /, which jobs can fill down to worker.free: give it a file system of its own"
