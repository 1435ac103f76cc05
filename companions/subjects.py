"""The requests whose people are told, as they were at the last look at them, in the file of the adapter's outbox."""
from __future__ import annotations

import json
import time
from collections.abc import Mapping, Sequence
from dataclasses import dataclass

from companions.forges import Place
from companions.needs import clean
from companions.people_seen import Subject
from companions.requests import Request, State
from companions.tables import add
from companions.told import AHEAD, EARLIER, Changes

# `change` is that of the request's branch, or the last one that it had where its branch isn't gated. A request is over
# once it isn't open and nothing more can be told of it: people aren't told of it again until it is looked at again. It
# has `ended` then, by a clock. `said` are the paragraphs that people were told of it last.
TABLES = """
CREATE TABLE IF NOT EXISTS request(repository TEXT, number INTEGER, state TEXT, head TEXT, change INTEGER UNIQUE,
    is_gated INTEGER, is_over INTEGER, title TEXT DEFAULT '', author TEXT DEFAULT '', said TEXT DEFAULT '[]',
    ended REAL, PRIMARY KEY(repository, number));
CREATE INDEX IF NOT EXISTS request_over ON request(is_over);
CREATE INDEX IF NOT EXISTS request_ended ON request(ended) WHERE ended NOT NULL;
"""
# The most characters that are kept of what a person wrote, and of a paragraph.
LONGEST_TITLE, LONGEST_NAME, LONGEST_PARAGRAPH = 200, 100, 2000
# So many revisions of a request are shown.
REVISIONS = 20
# A request with its last revisions, each with its commit, its needs, and how many approvals were told and taken back.
SHOWN = f"""
SELECT repository, request.number, request.change, title, author, said,
    (SELECT json_group_array(json_array(it.number, it.hash, json(it.needs),
        (SELECT count(*) FROM vote WHERE vote.repository = request.repository AND vote.request = request.number
            AND told_change = it.change AND told_revision = it.number),
        (SELECT count(*) FROM vote WHERE vote.repository = request.repository AND vote.request = request.number
            AND told_change = it.change AND told_revision = it.number AND taken_back)))
     FROM (SELECT * FROM revision WHERE revision.change = request.change ORDER BY number DESC LIMIT {REVISIONS}) AS it)
FROM request WHERE"""


@dataclass(frozen=True)
class Told:
    """A revision as it was told: its number, its commit, its needs, and how many approvals were told and taken back."""
    number: int
    commit: str
    needs: tuple[int, ...]
    approvals: int
    withdrawn: int


@dataclass(frozen=True)
class Shown:
    """A request as others than its own readers see it, with its revisions, the last one first."""
    place: Place
    change: int
    title: str
    author: str
    said: tuple[str, ...]
    revisions: tuple[Told, ...]


class Subjects:
    """The requests that have a change."""

    def __init__(self, changes: Changes) -> None:
        self.changes, self.tables = changes, changes.tables
        add(self.tables, TABLES)

    def see(self, so: Request, change: int, is_gated: bool) -> None:
        """Notes how a request is now. Call it within a step."""
        self.tables.execute(
            "INSERT INTO request(repository, number, state, head, change, is_gated, is_over, title, author)"
            " VALUES (?, ?, ?, ?, ?, ?, 0, ?, ?) ON CONFLICT(repository, number) DO UPDATE SET state = excluded.state,"
            " head = excluded.head, change = excluded.change, is_gated = excluded.is_gated, is_over = 0, ended = NULL,"
            " title = excluded.title, author = excluded.author",
            (so.repository, so.number, so.state.value, so.head, change, is_gated, clean(so.title, LONGEST_TITLE),
             clean(so.author, LONGEST_NAME)))

    def all(self) -> list[Subject]:
        """The requests of which there may be something to tell."""
        rows = self.tables.execute("SELECT repository, number, state, head, change, is_gated FROM request"
                                   " WHERE is_over = 0 ORDER BY repository, number").fetchall()
        return [self.subject(Place(repository, number), State(state), head, change, bool(is_gated))
                for repository, number, state, head, change, is_gated in rows]

    def subject(self, place: Place, state: State, head: str, change: int, is_gated: bool) -> Subject:
        told = self.changes.told(change)
        commits = [it.commit for it in told.revisions]
        is_ahead = bool(self.changes.remarks(change, AHEAD))
        if is_ahead or told.landed and commits[-1] != head:
            # What is pushed behind a landing, or is dated ahead, is no revision, and its status says so.
            commits.append(head)
        return Subject(change, place, tuple(commits), state, tuple(self.changes.remarks(change, "need")),
                       tuple(self.changes.remarks(change, "vote")),
                       "ahead" if is_ahead else self.changes.refused(change), is_gated,
                       self.changes.tag(change, len(told.revisions)) is not None,
                       tuple(self.changes.remarks(change, EARLIER)))

    def say(self, said: Mapping[int, Sequence[str]]) -> None:
        """Notes what people are told of changes by now, where that is something else than before."""
        with self.changes.step():
            for change, paragraphs in said.items():
                text = json.dumps([it[:LONGEST_PARAGRAPH] for it in paragraphs])
                self.tables.execute("UPDATE request SET said = ? WHERE change = ? AND said <> ?", (text, change, text))

    def shown(self, since: float, most: int) -> list[Shown]:
        """The requests that aren't over, and of those that are the last ones, which have ended since a time."""
        rows = self.tables.execute(f"{SHOWN} is_over = 0 ORDER BY request.change").fetchall()
        rows += self.tables.execute(f"{SHOWN} ended > ? ORDER BY ended DESC LIMIT ?", (since, most))
        return [Shown(Place(repository, number), change, title, author, tuple(json.loads(said)), tuple(
            Told(it, commit, tuple(needs), *votes) for it, commit, needs, *votes in json.loads(revisions)))
                for repository, number, change, title, author, said, revisions in rows]

    def named(self, change: int) -> tuple[Place, str, str]:
        """The request of a change, its title and its author."""
        row = self.tables.execute("SELECT repository, number, title, author FROM request WHERE change = ?",
                                  (change,)).fetchone()
        return Place(*row[:2]), str(row[2]), str(row[3])

    def written(self, change: int, kind: str, now: float | None = None) -> None:
        """All that there is to say of a change by now is written: a request that isn't open may be over by that."""
        self.tables.execute(
            "UPDATE request SET is_over = 1, ended = ? WHERE change = ? AND state <> ? AND (? = 'landed' OR"
            " (SELECT closed FROM change WHERE number = request.change) AND"
            " NOT EXISTS (SELECT 1 FROM delivery WHERE lane = CAST(request.change AS TEXT)))",
            (time.time() if now is None else now, change, State.OPEN.value, kind))
