"""What the page for people is told of requests, by an adapter."""
from __future__ import annotations

import json
import os
import unittest
from dataclasses import replace
from typing import Any
from unittest import mock

from companions.page_file import MOST, STAYS, PageFile
from companions.people_texts import unmarked
from companions.requests import State
from companions.tests.adapter_case import Case

HOSTILE = '<script>alert(1)</script>\u202e "quoted" \\ `code` **bold** \x00\x1b[2J \ud800'


class PageFileCase(Case):
    def setUp(self) -> None:
        super().setUp()
        self.page = self.folder / "page"
        self.page.mkdir()
        assert self.settings.adapter is not None
        self.settings = replace(self.settings, adapter=replace(self.settings.adapter, page=self.page))
        self.start()

    def shown(self) -> list[dict[str, Any]]:
        return list(json.loads((self.page / "requests.json").read_text("ascii"))["requests"])

    def one(self) -> dict[str, Any]:
        it, = self.shown()
        return it


class RequestTest(PageFileCase):
    def test_a_request_is_shown_with_the_words_of_its_comment(self) -> None:
        place = self.be(12, 0, title="Add a thing", author="eve")
        self.tell(place)
        self.assertEqual(self.one(), {
            "change": 1, "number": 12, "name": "acme/lib#12", "address": "https://forge.example/acme/lib/pulls/12",
            "title": "Add a thing", "author": "eve", "needs": [], "order": None,
            "revisions": [{"revision": 1, "hash": self.commits[0], "approvals": 0, "withdrawn": 0}],
            "says": "Waits for approval.", "advice": [
                "Once it is approved, the gate tests it and lands it.",
                "To approve this commit by a comment, write one that is this line alone:",
                f"    /gate approve {self.commits[0]}"]})
        self.be(12, 0, self.approve(1))
        self.gate.items = ["1 1 1 - ok unit=running"]
        self.tell(place)
        comment = self.forge.comments[1][1].split("\n\n")
        self.assertEqual([self.one()["says"], *self.one()["advice"]], [unmarked(it) for it in comment])
        self.assertEqual(self.one()["says"], "Being tested in core.")

    def test_each_push_and_each_new_title_is_shown(self) -> None:
        self.tell(self.be(12, 0, title="Add a thing"))
        self.tell(self.be(12, 1, title="Add another thing"))
        self.assertEqual(self.one()["title"], "Add another thing")
        self.assertEqual([(it["revision"], it["hash"]) for it in self.one()["revisions"]],
                         [(2, self.commits[1]), (1, self.commits[0])])

    def test_approvals_are_counted_by_revision(self) -> None:
        place = self.be(12, 0, self.approve(1), self.approve(2, person="bob"))
        self.tell(place)
        self.be(12, 1, self.approve(1), self.approve(3, 1))
        self.tell(place)
        self.be(12, 1, self.approve(1))
        self.tell(place)
        self.assertEqual([(it["revision"], it["approvals"], it["withdrawn"]) for it in self.one()["revisions"]],
                         [(2, 1, 1), (1, 2, 0)])

    def test_of_many_revisions_the_last_ones_are_shown(self) -> None:
        self.tell(self.be(12, 0))
        with self.adapter.changes.step():
            self.adapter.outbox.tables.executemany("INSERT INTO revision(change, number, hash, needs)"
                                                   " VALUES (1, ?, 'x', '[]')", ((it,) for it in range(2, 101)))
        page = self.adapter.page
        assert page is not None
        page.look({}, 0.0)
        self.assertEqual([it["revision"] for it in self.one()["revisions"]], [*range(100, 80, -1)])

    def test_what_a_request_needs_is_shown_by_changes(self) -> None:
        self.tell(self.be(12, 0), self.be(13, 1, text="Depends-On: #12"))
        self.assertEqual([(it["change"], it["needs"]) for it in self.shown()], [(1, []), (2, [1])])

    def test_titles_and_authors_are_bounded_texts(self) -> None:
        self.tell(self.be(12, 0, title=HOSTILE + "x" * 100000, author="e" * 1000))
        it = self.one()
        self.assertTrue(it["title"].startswith('<script>alert(1)</script>  "quoted" \\ `code` **bold**   [2J  xx'), it)
        self.assertEqual((len(it["title"]), it["author"]), (200, "e" * 100))

    def test_lines_of_people_are_bounded_and_stay_as_they_are(self) -> None:
        self.tell(self.be(12, 0, text="".join(f"Depends-On: **`{at}` {'y' * 5000}**\n" for at in range(50))))
        it = self.one()
        self.assertLess(len(json.dumps(it)), 20000)
        self.assertIn("    Depends-On: **`0` yyyy", "\n".join(it["advice"]))

    def test_what_others_read_as_text_has_no_marks(self) -> None:
        self.assertEqual(unmarked("**Left `core`: its tests failed.**\n- `unit` failed: [build 5](https://logs/5)"),
                         "Left core: its tests failed.\n- unit failed: build 5")
        self.assertEqual(unmarked("    **as** `it` [is](there)"), "    **as** `it` [is](there)")


class EndedTest(PageFileCase):
    def land(self) -> float:
        """A request lands. The time at which that is."""
        place = self.be(12, 0, self.approve(1))
        self.tell(place)
        self.gate.reports = ["1 1 1 landed 1"]
        self.gate.land(1)
        self.tell(self.be(12, 0, state=State.MERGED))
        self.assertEqual(self.adapter.subjects.all(), [])
        return float(self.adapter.outbox.tables.execute("SELECT ended FROM request").fetchone()[0])

    def test_one_that_has_ended_stays_for_some_days(self) -> None:
        at, page = self.land(), self.adapter.page
        assert page is not None
        page.look({}, at + STAYS - 1)
        self.assertEqual((self.one()["says"], self.one()["order"]), ("Landed in core as 1.", 1))
        page.look({}, at + STAYS + 1)
        self.assertEqual(self.shown(), [])

    def test_one_that_is_opened_again_is_shown(self) -> None:
        place = self.be(12, 0, self.approve(1))
        self.tell(place)
        self.be(12, 0, state=State.CLOSED)
        self.tell(place)
        self.tell()
        self.assertEqual(self.one()["says"], "Closed without landing.")
        self.be(12, 1, state=State.OPEN)
        self.tell(place)
        page = self.adapter.page
        assert page is not None
        page.look({}, 10 ** 12)
        self.assertEqual(self.one()["revisions"][0]["revision"], 2)

    def test_of_those_that_have_ended_the_last_ones_are_shown(self) -> None:
        at, tables, page = self.land(), self.adapter.outbox.tables, self.adapter.page
        assert page is not None
        with self.adapter.changes.step():
            for number in range(1000, 1000 + MOST + 50):
                tables.execute("INSERT INTO request(repository, number, state, head, change, is_gated, is_over, ended)"
                               " VALUES ('acme/lib', ?, 'closed', 'x', ?, 1, 1, ?)", (number, number, at + number))
        page.look({}, at)
        self.assertEqual(sorted(it["change"] for it in self.shown()), [*range(1050, 1050 + MOST)])

    def test_the_cost_of_a_look_doesnt_grow_with_those_that_have_ended(self) -> None:
        """Its steps in SQLite's own count, beside 100,000 that ended long ago."""
        self.land()
        tables, page = self.adapter.outbox.tables, self.adapter.page
        assert page is not None

        def cost() -> int:
            steps = 0

            def step() -> int:
                nonlocal steps
                steps += 1
                return 0

            tables.set_progress_handler(step, 10)
            self.adapter.subjects.all()
            page.look({1: ["**Landed.**"]}, 10 ** 10)
            tables.set_progress_handler(None, 10)
            return steps

        before = cost()
        with self.adapter.changes.step():
            tables.executemany("INSERT INTO request(repository, number, state, head, change, is_gated, is_over, ended)"
                               " VALUES ('acme/lib', ?, 'closed', 'x', ?, 1, 1, 1.0)",
                               ((number, number) for number in range(1000, 101000)))
        self.assertLessEqual(cost(), before + 20)


class WritingTest(PageFileCase):
    def test_it_is_written_where_something_is_new(self) -> None:
        file = self.page / "requests.json"
        self.tell(self.be(12, 0))
        before = file.stat().st_ino
        self.tell()
        self.assertEqual(file.stat().st_ino, before)
        self.tell(self.be(12, 0, title="Another"))
        self.assertNotEqual(file.stat().st_ino, before)
        file.unlink()
        self.tell()
        self.assertEqual(self.one()["title"], "Another")

    def test_whoever_reads_it_sees_it_whole(self) -> None:
        """Cut off while it writes, it leaves what was there; what it left then is no hindrance."""
        self.tell(self.be(12, 0, title="One"))
        with mock.patch.object(os, "replace", side_effect=OSError(28, "No space left on device")):
            self.tell(self.be(12, 0, title="Two"))
        self.assertEqual(self.one()["title"], "One")
        self.assertIn("adapter: page: OSError: [Errno 28] No space left on device", self.said.getvalue())
        self.tell()
        self.assertEqual((self.one()["title"], [it.name for it in self.page.iterdir()]), ("Two", ["requests.json"]))

    def test_people_are_told_where_it_cant_be_written(self) -> None:
        self.page.rmdir()
        self.assertEqual(self.tell(self.be(12, 0)), [f"acme/lib {self.commits[0]}: pending: Waits for approval"])
        self.assertEqual(self.said.getvalue().count("adapter: page: FileNotFoundError"), 1)

    def test_it_is_as_before_once_the_adapter_starts_again_and_the_gate_is_away(self) -> None:
        self.tell(self.be(12, 0, title="One"))
        before = self.shown()
        (self.page / "requests.json").unlink()
        self.start()
        page = self.adapter.page
        assert page is not None
        page.look({}, 0.0)
        self.assertEqual(self.shown(), before)

    def test_without_a_folder_nothing_is_written(self) -> None:
        assert self.settings.adapter is not None
        self.settings = replace(self.settings, adapter=replace(self.settings.adapter, page=None))
        self.start()
        self.tell(self.be(12, 0))
        self.assertEqual(list(self.page.iterdir()), [])
        self.assertIsNone(self.adapter.page)

    def test_links_to_logs_are_those_of_the_settings(self) -> None:
        PageFile(self.page, self.adapter.subjects, str, "#", "https://logs.example/{build}").look({}, 0.0)
        said = json.loads((self.page / "requests.json").read_text())
        self.assertEqual(said, {"logs": "https://logs.example/{build}", "requests": []})


if __name__ == "__main__":
    unittest.main()
