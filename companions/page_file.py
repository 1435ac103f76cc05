"""What the page for people is told of requests: a file that the proxy gives to those who may see it.

The gate knows changes by their numbers alone. Here each has its request's number, title and author, and what people are
told of it on the request. Nothing here asks anybody.
"""
from __future__ import annotations

import json
from collections.abc import Callable, Mapping, Sequence
from pathlib import Path
from typing import Any

from companions import figures
from companions.forges import Place
from companions.people_texts import unmarked
from companions.subjects import Shown, Subjects

NAME = "requests.json"
# For so many seconds a request that has ended stays in the file, if it is among the last ones.
STAYS, MOST = 7 * 86400.0, 1000


class PageFile:
    """Keeps the file in a folder. `address` gives the address of a request, `mark` stands before its number, and `logs`
    is the address of a build's log, if builds have one. `order` gives the order number of the last item of a change
    that has left its queue."""

    def __init__(self, folder: Path, subjects: Subjects, address: Callable[[Place], str], mark: str,
                 logs: str | None = None, order: Callable[[int], int | None] = lambda change: None) -> None:
        self.file, self.subjects, self.address, self.mark, self.logs = folder / NAME, subjects, address, mark, logs
        self.order, self.written = order, ""

    def look(self, said: Mapping[int, Sequence[str]], now: float) -> None:
        """Notes what people are told of each change by now, and writes the file where it is another one by that."""
        self.subjects.say(said)
        shown = self.subjects.shown(now - STAYS, MOST)
        text = json.dumps({"logs": self.logs, "requests": [self.row(it) for it in shown]})
        if text != self.written or not self.file.exists():
            figures.write(self.file, text)
            self.written = text

    def row(self, it: Shown) -> dict[str, Any]:
        """A request. The first paragraph says why it isn't in its branch yet, the others what can be done about it."""
        says, *advice = [unmarked(paragraph) for paragraph in it.said] or [""]
        last = it.revisions[0] if it.revisions else None
        revisions = [{"revision": one.number, "hash": one.commit, "approvals": one.approvals,
                      "withdrawn": one.withdrawn} for one in it.revisions]
        return {"change": it.change, "number": it.place.number,
                "name": f"{it.place.repository}{self.mark}{it.place.number}", "address": self.address(it.place),
                "title": it.title, "author": it.author, "says": says, "advice": advice,
                "needs": last.needs if last is not None else (), "order": self.order(it.change),
                "revisions": revisions}
