"""The settings of the watch: where it hears workers, and after which silence a build is lost.

docs/CONNECTING.md ("The settings of the companions") has their meaning.
"""
from __future__ import annotations

from dataclasses import dataclass

from companions.reader import Reader

# Where beats come in, after how many seconds a worker counts as silent, and for how long a build may be held.
LISTEN, SILENT, HELD = "127.0.0.1:8092", 60.0, 7 * 86400.0
# A worker that beats so often within that time is heard, also where one beat is lost.
BEATS = 3


@dataclass(frozen=True)
class Hearing:
    """Where the watch hears workers, as a host and a port; after which `silent` seconds a build is lost whose worker
    was heard; and for how many seconds, `held`, one isn't timed that its worker holds."""
    host: str
    port: int
    silent: float = SILENT
    held: float = HELD


def hearing_of(watch: Reader, look: float) -> Hearing:
    """The watch's part, given how often the workers of this file beat."""
    host, port = watch.place("listen", LISTEN)
    hearing = Hearing(host, port, watch.seconds("silent", max(SILENT, BEATS * look)), watch.seconds("held", HELD))
    if hearing.silent < BEATS * look:
        raise watch.fault("silent", f"is less than {BEATS} times worker.look, in which a worker beats once")
    return hearing
