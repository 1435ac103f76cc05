"""For how long the adapter has been blind: what it leaves for the lander says when it saw each repository last."""
from __future__ import annotations

from dataclasses import asdict

from companions import compared
from companions.gate import say
from companions.moments import Moment
from companions.outbox import Notes
from companions.settings import Settings

# The note that has since when nothing is known of a repository.
UNSEEN = "unseen"


class Sight:
    """The watch's eye on the adapter. It reads the adapter's file, so the adapter needs no right to write figures."""

    def __init__(self, settings: Settings, notes: Notes, part: str) -> None:
        self.settings, self.notes, self.part = settings, notes, part
        self.file = compared.file_in(settings.folder)
        self.queues: dict[str, list[str]] = {}
        for it in settings.projects.values():
            self.queues.setdefault(it.forge, []).append(it.queue)
        self.unseen = {name: Moment(**it) for name, it in (notes.get(UNSEEN) or {}).items()}
        self.told: set[str] = set()

    def look(self, now: Moment) -> dict[str, int]:
        """The seconds since the adapter saw each repository, where there is an adapter; a line for what is too long.

        What it never saw in this boot counts from the first look that found it so.
        """
        left = compared.read(self.file)
        if left is None and self.settings.adapter is None:
            return {}
        seen = {name: it.looked for name, it in left.repositories.items()} if left is not None else {}
        unseen, found = dict[str, Moment](), dict[str, int]()
        for name in self.queues:
            since = seen.get(name)
            if since is None or now.since(since) is None:
                since = self.unseen.get(name)
                since = unseen[name] = since if since is not None and now.since(since) is not None else now
            found[name] = int(now.since(since) or 0)
            self.tell(name, found[name])
        if unseen != self.unseen:
            self.unseen = unseen
            self.notes.put(UNSEEN, {name: asdict(it) for name, it in unseen.items()})
        return found

    def tell(self, name: str, seconds: int) -> None:
        """Says once that the adapter is blind, and that it sees again."""
        if seconds <= self.settings.blind:
            if name in self.told:
                say(self.part, f"{name}: the adapter sees it again")
            self.told.discard(name)
        elif name not in self.told:
            self.told.add(name)
            say(self.part, f"{name}: the adapter hasn't seen it for {seconds} seconds, so nothing lands in"
                           f" {' and '.join(self.queues[name])}: its own lines say why")
