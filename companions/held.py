"""The queues that an operator holds: no approval of them is told, and nothing lands, until they are resumed.

They are in a small file of the folder that the companions share, `operator/held.json`, which `companions.operator`
writes. Lander and adapter read it before each act. Of a file that can't be read nobody knows what it holds: then all
queues are held.
"""
from __future__ import annotations

import json
import os
from collections.abc import Mapping
from dataclasses import dataclass
from pathlib import Path

# The most characters of a reason, which people read on their requests.
LONGEST = 200


@dataclass(frozen=True)
class Hold:
    """Since when a queue is held, as a person reads it, and why, if somebody said so."""
    since: str
    why: str = ""

    def __str__(self) -> str:
        return f"an operator holds it since {self.since}{': ' if self.why else ''}{self.why}"


def folder_in(folder: Path) -> Path:
    """Where operators and companions leave each other words."""
    return folder / "operator"


def read(folder: Path) -> dict[str, Hold]:
    """The queues that are held; `ValueError` where the file can't be read."""
    file = folder_in(folder) / "held.json"
    try:
        table = json.loads(file.read_text(encoding="utf-8"))
        return {str(queue): Hold(str(it["since"]), str(it["why"])) for queue, it in table.items()}
    except FileNotFoundError:
        return {}
    except (OSError, ValueError, KeyError, TypeError, AttributeError) as fault:
        raise ValueError(f"{file} can't be read: {fault!r}: mend it by 'companions.operator'") from fault


def why_held(folder: Path, queue: str) -> str | None:
    """Why nothing of a queue is approved and landed, or none."""
    try:
        hold = read(folder).get(queue)
    except ValueError as fault:
        return f"nobody knows whether an operator holds it: {fault}"
    return None if hold is None else str(hold)


def write(folder: Path, held: Mapping[str, Hold]) -> None:
    """Writes beside and renames, so that nobody reads a half of it."""
    place = make(folder)
    new = place / "held.json.new"
    new.write_text(json.dumps({queue: {"since": it.since, "why": it.why} for queue, it in held.items()}) + "\n",
                   encoding="utf-8")
    own(new, folder)
    os.replace(new, place / "held.json")


def make(folder: Path) -> Path:
    """The place for words, which is the companions' also where root makes it."""
    place = folder_in(folder)
    if not place.exists():
        place.mkdir()
        own(place, folder)
    return place


def own(it: Path, folder: Path) -> None:
    """Gives what root has made to whoever has the folder."""
    if os.geteuid() == 0:
        has = folder.stat()
        os.chown(it, has.st_uid, has.st_gid)
