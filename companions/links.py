"""Where the logs of builds are that a CI has run, in a small file of the companions' folder: `ci/links.json`.

The adapter's comments link them. The file has the newest builds alone.
"""
from __future__ import annotations

import json
import os
import threading
from dataclasses import asdict, dataclass
from pathlib import Path

# So many builds are kept.
MOST = 1000


@dataclass(frozen=True)
class Link:
    """The log of a build, which is named by what the gate says of it: a restored gate gives its number again."""
    build: int
    change: int
    revision: int
    job: str
    link: str


def file_in(folder: Path) -> Path:
    """The links in the companions' folder."""
    return folder / "ci" / "links.json"


def read(file: Path) -> list[Link]:
    """What a file says, the newest last; nothing where it isn't there, or isn't of this form."""
    try:
        table = json.loads(file.read_text(encoding="utf-8"))
        return [Link(int(it["build"]), int(it["change"]), int(it["revision"]), str(it["job"]), str(it["link"]))
                for it in table["builds"]]
    except (OSError, ValueError, KeyError, TypeError):
        return []


class Links:
    """The writing side: queues say what they have seen, each from a thread of its own."""

    def __init__(self, folder: Path) -> None:
        self.file, self.lock = file_in(folder), threading.Lock()
        self.all = read(self.file)

    def put(self, it: Link) -> None:
        """Notes a link. Written beside and renamed: nobody ever reads a half of it."""
        with self.lock:
            if it in self.all:
                return
            others = [other for other in self.all if (other.build, other.job) != (it.build, it.job)]
            self.all = [*others, it][-MOST:]
            self.file.parent.mkdir(parents=True, exist_ok=True)
            new = self.file.with_name(self.file.name + ".new")
            new.write_text(json.dumps({"builds": [asdict(each) for each in self.all]}) + "\n", encoding="utf-8")
            os.replace(new, self.file)
