"""Which file the gate has: the one that the adapter's tables are about, an earlier state of it, or another one."""
from __future__ import annotations

import uuid
from collections.abc import Callable

from companions.gate import Answer, Gate, say
from companions.outbox import Kept, Notes


class GateFile:
    """The gate's file as the notes have it.

    Ids hold for one file, by its first accepted delivery. Where nothing is accepted yet, any id does in its place: an
    empty file has no kept reply that could be taken for an act. It is drawn at random, once a file, because the adapter
    may tell the first delivery itself, and files are told apart by the id of that one.
    """

    def __init__(self, notes: Notes, gate: Gate, is_other: Callable[[], None], is_earlier: Callable[[], None]
                 ) -> None:
        self.notes, self.gate, self.is_other, self.is_earlier = notes, gate, is_other, is_earlier
        self.is_known = False

    def ask(self) -> None:
        """Sees whether the gate has the file that the ids are made for. Ask before something new is told."""
        noted, last = self.notes.get("file"), self.notes.get("last")
        knows = last is None or self.gate.knows(last)
        if not (noted and noted["first"] and last and knows):
            self.note(noted, self.gate.first(), knows)
        self.is_known = True

    def note(self, noted: dict[str, str] | None, first: str | None, knows: bool) -> None:
        """Follows what has changed, and then notes it: who dies between does it again."""
        is_other = noted is not None and (noted["first"] not in (None, first) or not knows and noted["first"] is None)
        drawn = noted["ids"] if noted and not is_other else str(uuid.uuid4())
        if is_other:
            say("adapter", "the gate has another file: all open requests are told anew, and need new approvals")
            self.is_other()
        elif not knows:
            say("adapter", "the gate has an earlier state of its file: what still holds is told again")
            self.is_earlier()
        if not knows or is_other:
            self.notes.drop("last")
        self.notes.put("file", {"first": first, "ids": first or drawn})

    def accepted(self, delivery: Kept, answer: Answer) -> None:
        """Notes the last delivery that the gate has accepted: it knows that one for as long as it has this file."""
        if answer.reply is not None:
            self.notes.put("last", delivery.id)
            self.is_known = self.is_known and self.notes.get("file")["first"] is not None
