"""The version of the files of tables: each earlier form is carried over whole, and a later one is refused."""
from __future__ import annotations

import contextlib
import io
import sqlite3
import tempfile
import unittest
from pathlib import Path
from unittest import mock

from companions import lander, subjects, tables
from companions.forges import Place
from companions.hooks import Hints
from companions.outbox import Kept, Notes, Outbox
from companions.requests import Revision, State, Told
from companions.starting import start
from companions.subjects import Shown, Subjects
from companions.tables import OtherVersion, opened
from companions.tests.test_core import WHOLE
from companions.told import Changes

# The tables as they were before they had a version, with a row each.
EARLIER = """
CREATE TABLE delivery(place INTEGER PRIMARY KEY AUTOINCREMENT, lane TEXT NOT NULL,
    id TEXT NOT NULL UNIQUE, door TEXT NOT NULL, said TEXT NOT NULL);
CREATE INDEX delivery_lane ON delivery(lane, place);
CREATE TABLE note(name TEXT PRIMARY KEY, said TEXT NOT NULL);
CREATE TABLE change(number INTEGER PRIMARY KEY, repository TEXT, request INTEGER, branch TEXT,
    closed INTEGER DEFAULT 0, landed INTEGER DEFAULT 0, told INTEGER DEFAULT 0, UNIQUE(repository, request, branch));
CREATE INDEX change_open ON change(repository, request) WHERE told AND NOT closed AND NOT landed;
CREATE TABLE revision(change INTEGER, number INTEGER, hash TEXT, needs TEXT,
    PRIMARY KEY(change, number));
CREATE TABLE vote(repository TEXT, request INTEGER, object TEXT, change INTEGER, revision INTEGER,
    told_change INTEGER, told_revision INTEGER, taken_back INTEGER DEFAULT 0,
    PRIMARY KEY(repository, request, object));
CREATE TABLE telling(place INTEGER PRIMARY KEY AUTOINCREMENT, change INTEGER, id TEXT UNIQUE, said TEXT,
    answer TEXT, reply INTEGER, replies INTEGER);
CREATE INDEX telling_change ON telling(change, place);
CREATE INDEX telling_reply ON telling(reply);
CREATE TABLE remark(change INTEGER, kind TEXT, place INTEGER, text TEXT,
    PRIMARY KEY(change, kind, place));
CREATE TABLE request(repository TEXT, number INTEGER, state TEXT, head TEXT, change INTEGER UNIQUE,
    is_gated INTEGER, is_over INTEGER, PRIMARY KEY(repository, number));
CREATE INDEX request_over ON request(is_over);
CREATE TABLE hint(row INTEGER PRIMARY KEY AUTOINCREMENT, repository TEXT, request INTEGER,
    UNIQUE(repository, request));
INSERT INTO delivery VALUES (3, '7', 'two', 'forge', '{"kind": "approved"}');
INSERT INTO note VALUES ('file', '{"first": "70000000-0000-4000-8000-000000000001", "ids": null}');
INSERT INTO change VALUES (7, 'acme/lib', 12, 'main', 0, 0, 1);
INSERT INTO revision VALUES (7, 1, 'aaaa', '[3]');
INSERT INTO vote VALUES ('acme/lib', 12, 'review 1', 7, 1, 7, 1, 0);
INSERT INTO telling VALUES (1, 7, 'one', '{"kind": "revision", "message": "Title", "revision": 1}', 'recorded', 1, 0);
INSERT INTO remark VALUES (7, 'need', 0, 'Depends-On: https://forge.example/x');
INSERT INTO request VALUES ('acme/lib', 12, 'open', 'aaaa', 7, 1, 0);
INSERT INTO hint VALUES (5, 'acme/lib', 12);
"""
PLACE = Place("acme/lib", 12)


class Case(unittest.TestCase):
    def setUp(self) -> None:
        temporary = tempfile.TemporaryDirectory()
        self.addCleanup(temporary.cleanup)
        self.file = Path(temporary.name) / "some.db"

    def make(self, script: str) -> None:
        """Makes the file as another program did."""
        with contextlib.closing(sqlite3.connect(self.file)) as made:
            made.execute("PRAGMA journal_mode=WAL")
            made.executescript(script)

    def found(self, *words: str) -> list[object]:
        with contextlib.closing(sqlite3.connect(self.file)) as file:
            return [file.execute(it).fetchall() for it in ("PRAGMA user_version", *words)]


def columns(file: Path) -> dict[str, list[str]]:
    """The names of the columns of each table."""
    with contextlib.closing(sqlite3.connect(file)) as tables_of:
        names = [name for name, in tables_of.execute("SELECT name FROM sqlite_master WHERE type = 'table'")]
        return {name: sorted(row[1] for row in tables_of.execute(f"PRAGMA table_info({name})")) for name in names}


class Versions(Case):
    def test_a_file_of_the_adapter_without_a_version_is_carried_over(self) -> None:
        self.make(EARLIER)
        outbox, hints = Outbox(self.file), Hints(self.file)
        changes = Changes(outbox)
        subject, = Subjects(changes).all()
        self.assertEqual(outbox.firsts(), [Kept("7", "two", "forge", {"kind": "approved"})])
        self.assertEqual(outbox.get("file"), {"first": "70000000-0000-4000-8000-000000000001", "ids": None})
        # Its id isn't made of its commit, so it is told again.
        self.assertEqual(changes.told(7), Told(7, (Revision("aaaa", (3,)),), approvals={"review 1": 1},
                                               seen={"review 1": 1}, again=True))
        self.assertEqual((changes.message(7), changes.remarks(7, "need")),
                         ("Title", ["Depends-On: https://forge.example/x"]))
        self.assertEqual((subject.change, subject.place, subject.commits, subject.state),
                         (7, PLACE, ("aaaa",), State.OPEN))
        self.assertEqual(Subjects(changes).shown(0.0, 10), [
            Shown(PLACE, 7, "", "", (), (subjects.Told(1, "aaaa", (3,), 1, 0),))])
        self.assertEqual(hints.all(), [(5, PLACE)])
        self.assertEqual(self.found(), [[(len(tables.STEPS),)]])

    def test_a_file_that_is_carried_over_has_the_columns_of_a_new_one(self) -> None:
        self.make(EARLIER)
        new = self.file.with_name("new.db")
        for file in (self.file, new):
            outbox = Outbox(file)
            Hints(file)
            Subjects(Changes(outbox))
        self.assertEqual(columns(self.file), columns(new))

    def test_notes_without_a_version_are_carried_over(self) -> None:
        self.make("CREATE TABLE note(name TEXT PRIMARY KEY, said TEXT NOT NULL);"
                  "INSERT INTO note VALUES ('last core', '\"one\"');")
        self.assertEqual(Notes(self.file).get("last core"), "one")
        self.assertEqual(self.found(), [[(len(tables.STEPS),)]])

    def test_a_new_file_has_the_version_of_now(self) -> None:
        Notes(self.file)
        self.assertEqual(self.found(), [[(len(tables.STEPS),)]])

    def test_a_later_file_is_refused_and_left_as_it_is(self) -> None:
        later = len(tables.STEPS) + 1
        self.make(f"PRAGMA user_version = {later}; CREATE TABLE note(name TEXT, more TEXT)")
        before = self.file.read_bytes()
        with self.assertRaises(OtherVersion) as raised:
            Notes(self.file)
        self.assertEqual(str(raised.exception),
                         f"{self.file} is of version {later}, and this program knows versions up to {later - 1}:"
                         " install the version that made it, or a later one")
        self.assertEqual(self.file.read_bytes(), before)

    def test_a_part_with_a_later_file_says_so_and_ends(self) -> None:
        folder, settings = self.file.parent / "below", self.file.with_name("companions.toml")
        settings.write_text(WHOLE.replace("/var/lib/companions", str(folder)), encoding="utf-8")
        self.file = folder / "lander" / "notes.db"
        self.file.parent.mkdir(parents=True)
        self.make("PRAGMA user_version = 99")
        with contextlib.redirect_stderr(io.StringIO()) as said:
            self.assertEqual(start("lander", [str(settings)], lander.run), 1)
        self.assertEqual(said.getvalue(),
                         f"lander: stops: {self.file} is of version 99, and this program knows versions up to"
                         f" {len(tables.STEPS)}: install the version that made it, or a later one\n")


class Steps(Case):
    """How tables are carried over, by steps that are made up."""

    def setUp(self) -> None:
        super().setUp()
        self.make("CREATE TABLE note(name TEXT, said TEXT); INSERT INTO note VALUES ('a', '1')")

    def test_each_step_is_taken_once_and_only_for_tables_that_are_there(self) -> None:
        steps = [(("note", "ALTER TABLE note ADD COLUMN more TEXT DEFAULT 'b'"),
                  ("hint", "ALTER TABLE hint ADD COLUMN more TEXT")),
                 (("note", "UPDATE note SET said = said || more"),)]
        with mock.patch.object(tables, "STEPS", steps[:1]):
            opened(self.file, "").close()
            opened(self.file, "").close()
            self.assertEqual(self.found("SELECT * FROM note"), [[(1,)], [("a", "1", "b")]])
        with mock.patch.object(tables, "STEPS", steps):
            opened(self.file, "").close()
            opened(self.file, "").close()
        self.assertEqual(self.found("SELECT * FROM note"), [[(2,)], [("a", "1b", "b")]])

    def test_what_fails_leaves_the_file_as_it_was(self) -> None:
        steps = [(("note", "ALTER TABLE note ADD COLUMN more TEXT"),), (("note", "UPDATE note SET other = 1"),)]
        with mock.patch.object(tables, "STEPS", steps), self.assertRaises(sqlite3.OperationalError):
            opened(self.file, "")
        self.assertEqual(self.found("SELECT * FROM note"), [[(0,)], [("a", "1")]])


if __name__ == "__main__":
    unittest.main()
