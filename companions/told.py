"""Which change of the gate a request is, and all that the gate was told of it, in the file of the adapter's outbox.

A change is a request at a branch: (repository, request, branch). What is to be told is written in one step with the
rows that it follows from, before any of it is sent.
"""
from __future__ import annotations

import bisect
import json
from collections import Counter
from collections.abc import Callable, Container, Iterable, Sequence
from contextlib import AbstractContextManager
from datetime import datetime

from companions.forges import Place
from companions.gate import Delivery
from companions.ids import id_of, revision_id
from companions.outbox import Kept, Outbox
from companions.requests import NO_REVISION, Request, Revision, Telling, Told
from companions.squash import message_of, named_as, squashed
from companions.tables import add, at_once

# A change has a row once its request is known or named. `told` says whether the gate's present file was told of it,
# `left_at` since when it is closed without having landed, and `dropped` whether its commits are gone for that.
# A vote has the change and the revision at which it was first seen, those that it was told of, once it was, and the
# commit that it named at first. A revision has the forge's time at which people were first told of it, and the content
# of the tag at its commit if it lands as one commit.
# Replies are counted: a telling has the number of its own, and how many there were when it was kept.
TABLES = """
CREATE TABLE IF NOT EXISTS change(number INTEGER PRIMARY KEY, repository TEXT, request INTEGER, branch TEXT,
    closed INTEGER DEFAULT 0, landed INTEGER DEFAULT 0, told INTEGER DEFAULT 0, left_at REAL,
    dropped INTEGER DEFAULT 0, UNIQUE(repository, request, branch));
CREATE INDEX IF NOT EXISTS change_open ON change(repository, request) WHERE told AND NOT closed AND NOT landed;
CREATE TABLE IF NOT EXISTS revision(change INTEGER, number INTEGER, hash TEXT, needs TEXT, shown TEXT, tag TEXT,
    PRIMARY KEY(change, number));
CREATE TABLE IF NOT EXISTS vote(repository TEXT, request INTEGER, object TEXT, change INTEGER, revision INTEGER,
    told_change INTEGER, told_revision INTEGER, taken_back INTEGER DEFAULT 0, hash TEXT,
    PRIMARY KEY(repository, request, object));
CREATE TABLE IF NOT EXISTS telling(place INTEGER PRIMARY KEY AUTOINCREMENT, change INTEGER, id TEXT UNIQUE, said TEXT,
    answer TEXT, reply INTEGER, replies INTEGER);
CREATE INDEX IF NOT EXISTS telling_change ON telling(change, place);
CREATE INDEX IF NOT EXISTS telling_reply ON telling(reply);
CREATE TABLE IF NOT EXISTS remark(change INTEGER, kind TEXT, place INTEGER, text TEXT,
    PRIMARY KEY(change, kind, place));
"""

# The kinds of remarks on a request whose head isn't told, since it is dated ahead, and on one that lands with the title
# and text of earlier.
AHEAD, EARLIER = "ahead", "earlier"

# So many votes of a request are kept, beside those that were told and those that the forge shows: anybody may vote and
# take that back, over and over.
MOST_VOTES = 10_000

# Refusals that say that the gate doesn't have what the delivery is about: told again once it does, they may be taken.
LACKING = ("E5", "E6", "E7")


def is_of(said: Delivery, revision: int) -> bool:
    """Whether a delivery tells this revision."""
    return bool(said["kind"] == "revision" and said["revision"] == revision)


class Changes:
    """The changes of requests. The notes' `file` has what ids are made of beside what they stand for."""

    def __init__(self, outbox: Outbox) -> None:
        self.outbox, self.tables = outbox, outbox.tables
        add(self.tables, TABLES)

    def step(self) -> AbstractContextManager[None]:
        """All that is written within is written at once."""
        return at_once(self.tables)

    def number(self, place: Place, branch: str) -> int:
        """The number of a request's change at a branch, which may be new."""
        self.tables.execute("INSERT OR IGNORE INTO change(repository, request, branch) VALUES (?, ?, ?)",
                            (place.repository, place.number, branch))
        return self.of_request(place)[branch]

    def of_request(self, place: Place) -> dict[str, int]:
        """A request's changes, by their branches."""
        return dict(self.tables.execute("SELECT branch, number FROM change WHERE repository = ? AND request = ?",
                                        (place.repository, place.number)).fetchall())

    def stands(self, change: int) -> bool:
        """Whether the gate's present file was told of a change, and not that it is closed: it can land, or has."""
        row = self.tables.execute("SELECT told AND NOT closed FROM change WHERE number = ?", (change,)).fetchone()
        return bool(row[0])

    def told(self, change: int) -> Told:
        """What was told of a change."""
        repository, request, closed, landed = self.tables.execute(
            "SELECT repository, request, closed, landed FROM change WHERE number = ?", (change,)).fetchone()
        rows = self.tables.execute("SELECT hash, needs, shown FROM revision WHERE change = ? ORDER BY number",
                                   (change,)).fetchall()
        revisions = tuple(Revision(commit, tuple(json.loads(needs))) for commit, needs, _ in rows)
        shown = rows[-1][2] if rows else None
        approvals, seen, withdrawals, commits = {}, {}, set(), {}
        for row in self.tables.execute("SELECT object, change, revision, told_change, told_revision, taken_back, hash"
                                       " FROM vote WHERE repository = ? AND request = ?", (repository, request)):
            name, at, revision, told_at, told_revision, taken_back, commit = row
            # A vote of another branch is of no revision of this one.
            seen[name] = revision if at == change else NO_REVISION
            if told_at is not None:
                approvals[name] = told_revision if told_at == change else NO_REVISION
            if taken_back:
                withdrawals.add(name)
            if commit:
                commits[name] = commit
        return Told(change, revisions, bool(closed), bool(landed), False, approvals, frozenset(withdrawals), seen,
                    commits, self.is_unsure(change, revisions), datetime.fromisoformat(shown) if shown else None)

    def show(self, change: int, revision: int, at: datetime) -> None:
        """Notes that people were told of a revision, and when by the forge's time. The first time stays."""
        self.tables.execute("UPDATE revision SET shown = ? WHERE change = ? AND number = ? AND shown IS NULL",
                            (at.isoformat(), change, revision))

    def revision(self, change: int, revision: int) -> str | None:
        """The commit of a revision that was told."""
        row = self.tables.execute("SELECT hash FROM revision WHERE change = ? AND number = ?",
                                  (change, revision)).fetchone()
        return None if row is None else str(row[0])

    def tag(self, change: int, revision: int) -> str | None:
        """The content of the tag of a revision that lands as one commit; none of one that doesn't."""
        row = self.tables.execute("SELECT tag FROM revision WHERE change = ? AND number = ?",
                                  (change, revision)).fetchone()
        return None if row is None else row[0]

    def is_unsure(self, change: int, revisions: Sequence[Revision]) -> bool:
        """Whether the last revision was told under an id that isn't made of its commit. So was the first delivery of
        the gate's file, by whose id the others are made."""
        first, last = self.first(), len(revisions)
        rows = self.tables.execute("SELECT id, said FROM telling WHERE change = ? ORDER BY place DESC", (change,))
        told = next((id for id, said in rows if is_of(json.loads(said), last)), None)
        if first is None or told is None:
            return False
        named = named_as(revisions[-1].commit, self.tag(change, last))
        return bool(told != revision_id(first, change, last, named, revisions[-1].needs))

    def first(self) -> str | None:
        """The id of the first delivery that the gate has accepted, as far as that is known."""
        file = self.outbox.get("file")
        return file["first"] if file else None

    def see(self, so: Request, change: int | None, seen: dict[str, int]) -> None:
        """Notes votes with the revision of a change at which they are first seen; without a change they are of none."""
        commits = {it.object: it.commit for it in so.votes}
        for name, revision in seen.items():
            self.tables.execute("INSERT OR IGNORE INTO vote(repository, request, object, change, revision, hash)"
                                " VALUES (?, ?, ?, ?, ?, ?)",
                                (so.repository, so.number, name, change, revision, commits.get(name)))
        if seen:
            self.drop_votes(so)

    def drop_votes(self, so: Request) -> None:
        """Drops the first votes where they are too many. One that comes back, as from a copy that lags, is seen anew: a
        comment is of the revision that people were told of a while before it, and a review names its commit."""
        request, shown = (so.repository, so.number), json.dumps([it.object for it in so.votes])
        self.tables.execute(
            "DELETE FROM vote WHERE repository = ? AND request = ? AND told_change IS NULL AND rowid <="
            " (SELECT rowid FROM vote WHERE repository = ? AND request = ? ORDER BY rowid DESC LIMIT 1 OFFSET ?)"
            " AND object NOT IN (SELECT value FROM json_each(?))", (*request, *request, MOST_VOTES, shown))

    def keep(self, so: Request, change: int, steps: Iterable[Telling], more: dict[str, str],
             needs: tuple[int, ...], tag: str | None = None) -> None:
        """Keeps deliveries in the change's lane, with all that was told by them then. Call it within a step.

        `more` are the members of a revision's delivery beside its numbers, and `tag` is what stands at its commit.
        """
        for it in steps:
            said: Delivery = {"kind": it.kind, "change": change, "revision": it.revision}
            if it.kind == "revision":
                said |= more
                self.forget_tags(change)
                self.tables.execute("INSERT INTO revision(change, number, hash, needs, tag) VALUES (?, ?, ?, ?, ?)",
                                    (change, it.revision, so.head, json.dumps(needs), tag))
                self.tables.execute("UPDATE change SET closed = 0, told = 1 WHERE number = ?", (change,))
            elif it.kind == "closed":
                self.tables.execute("UPDATE change SET closed = 1 WHERE number = ?", (change,))
            for name in it.votes:
                self.mark(so, name, change, it)
            self.send_later(change, it, said)

    def forget_tags(self, change: int) -> None:
        """Forgets the tags of revisions that nobody has approved, since a later one comes: outsiders write these."""
        self.tables.execute("UPDATE revision SET tag = NULL WHERE change = ? AND NOT EXISTS (SELECT 1 FROM vote"
                            " WHERE told_change = revision.change AND told_revision = revision.number)", (change,))

    def mark(self, so: Request | Place, name: str, change: int, telling: Telling) -> None:
        """Notes that a vote was told, as an approval or as one that was taken back."""
        set_to = ("told_change = ?, told_revision = ?", (change, telling.revision)) if telling.kind == "approved" else (
            "taken_back = 1", ())
        self.tables.execute(f"UPDATE vote SET {set_to[0]} WHERE repository = ? AND request = ? AND object = ?",
                            (*set_to[1], so.repository, so.number, name))

    def send_later(self, change: int, telling: Telling, said: Delivery) -> None:
        identity = self.id_of(change, telling)
        self.tables.execute("INSERT OR IGNORE INTO telling(change, id, said, replies) VALUES (?, ?, ?, ?)",
                            (change, identity, json.dumps(said), self.replies()))
        self.outbox.keep(Kept(str(change), identity, "forge", said))

    def take_away(self, change: int, telling: Telling) -> None:
        """Takes away a delivery that the gate hasn't taken yet, if it is kept. Call it within a step."""
        identity = self.id_of(change, telling)
        if self.tables.execute("DELETE FROM delivery WHERE id = ?", (identity,)).rowcount:
            self.tables.execute("DELETE FROM telling WHERE id = ?", (identity,))

    def answer_to(self, change: int, telling: Telling) -> str | None:
        """The gate's answer to a delivery: a reply, or a code; none where it has none, or that is over."""
        row = self.tables.execute("SELECT answer FROM telling WHERE id = ?", (self.id_of(change, telling),)).fetchone()
        return None if row is None else row[0]

    def id_of(self, change: int, telling: Telling) -> str:
        return id_of(self.outbox.get("file")["ids"], telling.kind, change, telling.revision, *telling.stands_for)

    def answered(self, identity: str, reply: str | None, code: str | None) -> None:
        """Notes the answer to a delivery. Once a revision is recorded, what was told before it is over for good."""
        row = self.tables.execute("SELECT change, place, said FROM telling WHERE id = ?", (identity,)).fetchone()
        if row is None:
            return
        with self.step():
            number = self.replies() + 1 if reply is not None else None
            if number is not None:
                self.outbox.put("replies", number)
            self.tables.execute("UPDATE telling SET answer = ?, reply = ? WHERE id = ?",
                                (reply or code, number, identity))
            if reply == "recorded" and json.loads(row[2])["kind"] == "revision":
                self.tables.execute("DELETE FROM telling WHERE change = ? AND place < ?", row[:2])

    def land(self, change: int) -> None:
        """Notes that the gate, or the branch, has a change's landing: nothing more is told of it."""
        self.tables.execute("UPDATE change SET landed = 1 WHERE number = ?", (change,))

    def landed_at(self, place: Place) -> str | None:
        """A branch at which a request has landed, if there is one."""
        row = self.tables.execute("SELECT branch FROM change WHERE repository = ? AND request = ? AND landed",
                                  (place.repository, place.number)).fetchone()
        return None if row is None else str(row[0])

    def message(self, change: int) -> str | None:
        """The message of the last revision that the gate was told, while that is kept."""
        rows = self.tables.execute("SELECT said FROM telling WHERE change = ? ORDER BY place DESC", (change,))
        said = (json.loads(row[0]) for row in rows)
        return next((it["message"] for it in said if it["kind"] == "revision"), None)

    def refused(self, change: int) -> str | None:
        """The code of the gate's refusal where it refused the last revision that it was told."""
        rows = self.tables.execute("SELECT said, answer FROM telling WHERE change = ? ORDER BY place DESC", (change,))
        last = next((answer for said, answer in rows if json.loads(said)["kind"] == "revision"), None)
        return last if last and last[0] == "E" else None

    def remark(self, change: int, kind: str, lines: Iterable[str]) -> None:
        """Puts lines of a kind that are to be told on the change's request in the place of those that were.

        A `need` names no request, a `vote` is one that doesn't approve it, `AHEAD` has a head that isn't told, and
        `EARLIER` the message with which it lands.
        """
        self.tables.execute("DELETE FROM remark WHERE change = ? AND kind = ?", (change, kind))
        self.tables.executemany("INSERT INTO remark VALUES (?, ?, ?, ?)",
                                ((change, kind, place, line) for place, line in enumerate(lines)))

    def remark_head(self, so: Request, change: int, is_ahead: bool) -> None:
        """Puts there what is so of a request's head. Who approves one that lands as one commit sees its title and text
        of now, and not those that were fixed: whoever wrote them might have edited them since."""
        self.remark(change, AHEAD, [so.head] if is_ahead else [])
        rows = self.tables.execute("SELECT tag FROM revision WHERE change = ? ORDER BY number DESC LIMIT 1", (change,))
        tag = next((row[0] for row in rows), None)
        found = squashed(tag.encode()) if tag is not None else None
        is_other = found is not None and found[1].message != message_of(so.title, so.text)
        lines = found[1].message.splitlines() if found is not None and is_other else []
        self.remark(change, EARLIER, [it for it in lines if it])

    def remarks(self, change: int, kind: str) -> list[str]:
        """What is to be told of a kind on the change's request."""
        rows = self.tables.execute("SELECT text FROM remark WHERE change = ? AND kind = ? ORDER BY place",
                                   (change, kind))
        return [row[0] for row in rows]

    def place(self, change: int) -> Place | None:
        """The request of a change, if it has this number from here."""
        row = self.tables.execute("SELECT repository, request FROM change WHERE number = ?", (change,)).fetchone()
        return None if row is None else Place(*row)

    def home(self, change: int) -> tuple[str, str] | None:
        """The repository and the branch of a change."""
        row = self.tables.execute("SELECT repository, branch FROM change WHERE number = ?", (change,)).fetchone()
        return None if row is None else (row[0], row[1])

    def replies(self) -> int:
        """The number of replies by now."""
        return self.outbox.get("replies") or 0

    def replies_known(self, knows: Callable[[str], bool]) -> int:
        """How many of the replies a gate that was restored has still, at least, given whether it knows a delivery.

        It has lost the last ones that it gave. Their numbers may differ a little from its order, as one has its number
        when it comes here; but all that were here before a delivery was kept were given before its own.
        """
        rows = self.tables.execute("SELECT reply FROM telling WHERE reply NOT NULL ORDER BY reply")
        numbers = [row[0] for row in rows]

        def row_of(number: int) -> tuple[str, int]:
            row: tuple[str, int] = self.tables.execute("SELECT id, replies FROM telling WHERE reply = ?",
                                                       (number,)).fetchone()
            return row

        at = bisect.bisect_left(numbers, True, key=lambda it: not knows(row_of(it)[0]))
        return row_of(numbers[at - 1])[1] if at else 0

    def homes(self) -> list[tuple[str, str]]:
        """The repositories and branches of which changes were told."""
        return self.tables.execute("SELECT DISTINCT repository, branch FROM change WHERE number IN"
                                   " (SELECT change FROM telling) ORDER BY repository, branch").fetchall()

    def of_home(self, home: tuple[str, str]) -> list[int]:
        """The changes of a repository and branch."""
        rows = self.tables.execute("SELECT number FROM change WHERE repository = ? AND branch = ?", home)
        return [row[0] for row in rows]

    def tell_again(self, change: int | None = None, known: int = 0, home: tuple[str, str] = ("", "")) -> None:
        """Keeps what was told of a change, or of all of a repository and branch, and still holds: what the gate has
        gets a kept reply. Left out is what got one of the first replies, so many as are known.

        What was `stale` came too late once. Told to a gate that was restored it could come too early. Of what has
        landed in the branch, nothing is told that the gate hasn't taken before. Call it within a step.
        """
        which = "(change.number = ? OR change.repository = ? AND change.branch = ?)"
        self.tables.execute("DELETE FROM delivery WHERE CAST(lane AS INTEGER) IN (SELECT number FROM change WHERE"
                            f" {which})", (change, *home))
        rows = self.tables.execute(
            "SELECT change, id, said, answer, landed FROM telling JOIN change ON change.number = change"
            f" WHERE {which} AND coalesce(reply, ?) > ? ORDER BY place", (change, *home, known + 1, known))
        for number, identity, said, answer, landed in rows.fetchall():
            is_over = answer == "stale" or answer is not None and answer[0] == "E" and answer not in LACKING
            if not is_over and not (landed and (answer is None or answer in LACKING)):
                self.tables.execute("UPDATE telling SET reply = NULL WHERE id = ?", (identity,))
                self.outbox.keep(Kept(str(number), identity, "forge", json.loads(said)))

    def forget(self) -> None:
        """The gate has another file, which was told nothing. Open requests get a next revision, and need new votes."""
        with self.step():
            for statement in ("DELETE FROM delivery", "DELETE FROM telling",
                              "UPDATE change SET closed = 1, told = 0"):
                self.tables.execute(statement)

    def waits(self, change: int) -> bool:
        """Whether deliveries of a change are kept that the gate hasn't answered."""
        return self.tables.execute("SELECT 1 FROM delivery WHERE lane = ?", (str(change),)).fetchone() is not None

    def waiting(self, but: Container[int]) -> dict[str, int]:
        """How many changes of each repository have deliveries that wait, but for some."""
        rows = self.tables.execute("SELECT repository, number FROM change WHERE number IN"
                                   " (SELECT CAST(lane AS INTEGER) FROM delivery)").fetchall()
        return Counter(repository for repository, number in rows if number not in but)

    def left(self, now: float, keep: float) -> list[int]:
        """The changes that have been closed for so many seconds without landing, by a clock, and weren't dropped."""
        with self.step():
            self.tables.execute("UPDATE change SET left_at = NULL, dropped = 0 WHERE (NOT closed OR landed) AND"
                                " (left_at IS NOT NULL OR dropped)")
            self.tables.execute("UPDATE change SET left_at = ? WHERE closed AND NOT landed AND left_at IS NULL", (now,))
        rows = self.tables.execute("SELECT number FROM change WHERE closed AND NOT landed AND NOT dropped AND"
                                   " left_at <= ? ORDER BY left_at, number", (now - keep,))
        return [row[0] for row in rows]

    def dropped(self, change: int) -> None:
        """Notes that the commits of a change were dropped."""
        self.tables.execute("UPDATE change SET dropped = 1 WHERE number = ?", (change,))
        self.tables.execute("UPDATE revision SET tag = NULL WHERE change = ?", (change,))

    def is_alive(self, place: Place) -> bool:
        """Whether a request has a change that was told and not closed."""
        return self.tables.execute("SELECT 1 FROM change WHERE repository = ? AND request = ? AND told AND NOT closed",
                                   (place.repository, place.number)).fetchone() is not None

    def approved(self, repository: str) -> list[int]:
        """The requests of a repository whose last revision has an approval that was told and not taken back."""
        rows = self.tables.execute(
            "SELECT DISTINCT request FROM change WHERE repository = ? AND told AND NOT closed AND NOT landed AND EXISTS"
            " (SELECT 1 FROM vote WHERE vote.repository = change.repository AND vote.request = change.request"
            " AND told_change = change.number AND NOT taken_back AND told_revision ="
            " (SELECT max(number) FROM revision WHERE revision.change = change.number))", (repository,))
        return [row[0] for row in rows]

    def still_open(self, repository: str) -> list[int]:
        """The requests of a repository that have a change which was neither closed nor has landed."""
        rows = self.tables.execute("SELECT DISTINCT request FROM change WHERE repository = ? AND told AND NOT closed"
                                   " AND NOT landed ORDER BY request", (repository,))
        return [row[0] for row in rows]
