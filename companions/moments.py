"""Moments by this machine's uptime: a clock that nobody sets, and that says nothing beyond the boot that it is of."""
from __future__ import annotations

import time
from dataclasses import dataclass
from pathlib import Path

BOOT = Path("/proc/sys/kernel/random/boot_id")


@dataclass(frozen=True)
class Moment:
    """A moment: the boot's id, and the seconds since then, also those in which the machine slept."""
    boot: str
    uptime: float

    @staticmethod
    def now() -> Moment:
        return Moment(BOOT.read_text(encoding="ascii").strip(), time.clock_gettime(time.CLOCK_BOOTTIME))

    def since(self, earlier: Moment) -> float | None:
        """The seconds since an earlier moment; none where nobody knows, as that is of another boot."""
        return self.uptime - earlier.uptime if earlier.boot == self.boot else None
