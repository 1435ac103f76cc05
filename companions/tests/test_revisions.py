"""A revision is its commit: by the ids that are told, and by the refs that are set right."""
from __future__ import annotations

import unittest
from typing import Any

from companions.answers import Answers
from companions.compared import file_in, read
from companions.forges import Place
from companions.ids import id_of, revision_id
from companions.moments import Moment
from companions.tests.adapter_case import Case

OTHER = "0b000000-0000-4000-8000-000000000001"


class Ids(Case):
    def first(self) -> str:
        return next(iter(self.gate.accepted))

    def unchecked(self) -> list[str]:
        """The changes of which nobody could tell by the gate that the ref is what was told, as a lander looks."""
        found = []
        for change, known in self.gate.changes.items():
            ref = self.origin.git("for-each-ref", "--format=%(objectname)",
                                  f"refs/changes/{change}/{known['revision']}")
            needs = [it["change"] for it in known["needs"]]
            if revision_id(self.first(), change, known["revision"], ref, needs) not in self.gate.accepted:
                found.append(f"{change} {known['revision']}")
        return found

    def test_by_its_id_anybody_can_tell_which_commit_was_told(self) -> None:
        self.be(12, 0, self.approve(1))
        self.be(13, 1, self.approve(2, 1), text="Depends-On: #14\nDepends-On: #12")
        self.be(14, 2, self.approve(3, 2), text="Depends-On: #12")
        self.look()
        self.assertEqual((len(self.gate.changes), self.unchecked()), (3, []))
        self.origin.revision(1, 1, self.commits[3])
        self.assertEqual(self.unchecked(), ["1 1"])

    def test_the_first_revision_of_a_file_is_told_alone_and_once_more(self) -> None:
        self.gate.accepted.clear()
        places = [self.be(it, it - 12, self.approve(it, it - 12)) for it in (12, 13)]
        self.assertEqual(self.look(*places), ["revision 1 1", "revision 2 1", "approved 2 1"])
        self.assertEqual(self.unchecked(), ["1 1"])
        self.assertEqual(self.look(places[1]), ["revision 1 2", "approved 1 2"])
        self.assertEqual((self.unchecked(), self.look(), self.look(*places)), ([], [], []))
        self.assertEqual(self.origin.git("rev-parse", "refs/changes/1/2"), self.commits[0])

    def test_nothing_more_is_kept_before_the_first_one_is_answered(self) -> None:
        self.gate.accepted.clear()
        places = [self.be(it, it - 12, self.approve(it, it - 12)) for it in (12, 13)]
        answers, asked = self.standin.answers, []

        def refuse(method: str, path: str, body: bytes) -> tuple[int, Any] | None:
            asked.append(method)
            return None if method == "POST" else answers(method, path, body)

        self.standin.answers = refuse
        for _ in range(3):
            self.look(*places)
            self.start()
        self.assertEqual(len({it["id"] for it in self.standin.deliveries()}), 1)
        # It came to the gate, and its answer didn't come back.
        self.standin.answers = lambda method, path, body: (
            answers(method, path, body) and None if method == "POST" else answers(method, path, body))
        self.look(*places)
        self.standin.answers = answers
        self.start()
        self.look(*places)
        self.look()
        self.assertEqual((self.unchecked(), sorted(self.gate.changes)), ([], [1, 2]))

    def test_a_first_one_that_the_gate_refuses_is_followed_by_another(self) -> None:
        self.gate.accepted.clear()
        self.gate.projects = {"old"}
        places = [self.be(12, 0), *(self.be(it, it - 12, self.approve(it, it - 12), target="old") for it in (13, 14))]
        self.look(*places)
        self.look()
        self.assertEqual((sorted(self.gate.changes), self.unchecked()), ([2, 3], []))

    def test_what_was_told_under_another_id_is_told_once_more(self) -> None:
        """As by an adapter of before, which drew what the ids of a new file's first deliveries were made of."""
        place = self.be(12, 0, self.approve(1))
        outbox = self.adapter.outbox
        self.adapter.file.ask()
        outbox.put("file", {"first": self.first(), "ids": OTHER})
        self.adapter.looks.look(place)
        told = id_of(OTHER, "revision", 1, 1, self.commits[0])
        self.assertEqual(outbox.firsts()[0].id, told)
        outbox.put("file", {"first": self.first(), "ids": self.first()})
        # Its approval was of the earlier revision, and is given again.
        self.assertEqual(self.look(), ["revision 1 1", "approved 1 1", "revision 1 2"])
        self.be(12, 0, self.approve(1), self.approve(2))
        self.assertEqual((self.look(), self.unchecked(), self.look()), (["approved 1 2"], [], []))


class Refs(Case):
    """The lander has found a ref to be wrong."""

    def setUp(self) -> None:
        super().setUp()
        self.place = self.be(12, 0, self.approve(1))
        self.look()
        self.lander = Answers(self.settings.folder)

    def ref(self, name: str = "refs/changes/1/1") -> str:
        return self.origin.git("rev-parse", name)

    def round(self) -> None:
        """A round in which nothing is compared."""
        self.adapter.compare_at = 1e9
        self.adapter.righted.clear()
        self.adapter.once(1.0)

    def answered(self) -> dict[str, int]:
        left = read(file_in(self.settings.folder))
        assert left is not None
        return dict(left.answered)

    def test_it_is_set_right_at_once_and_said(self) -> None:
        self.origin.revision(1, 1, self.commits[3])
        self.lander.is_wrong(1, 1, "lib")
        self.round()
        self.assertEqual(self.ref(), self.commits[0])
        self.assertEqual(self.lines()[-1], f"adapter: refs/changes/1/1 of lib was {self.commits[3]}: set right to"
                                           f" {self.commits[0]}, which was told")
        self.assertEqual(self.answered(), {"1/1": 1})

    def test_one_that_is_gone_is_there_again(self) -> None:
        self.origin.git("update-ref", "-d", "refs/changes/1/1")
        self.lander.is_wrong(1, 1, "lib")
        self.round()
        self.assertEqual(self.ref(), self.commits[0])
        self.assertIn("refs/changes/1/1 of lib was gone", self.lines()[-1])

    def test_it_is_looked_at_as_long_as_it_is_listed_and_each_time_is_an_answer(self) -> None:
        self.lander.is_wrong(1, 1, "lib")
        for times in range(1, 4):
            self.origin.revision(1, 1, self.commits[times])
            self.round()
            self.assertEqual((self.ref(), self.answered()), (self.commits[0], {"1/1": times}))
        self.adapter.once(1.0)
        self.assertEqual(self.answered(), {"1/1": 3})
        self.lander.is_right(1, 1)
        self.round()
        self.assertEqual(self.answered(), {})

    def test_an_earlier_revision_is_its_own_commit(self) -> None:
        self.be(12, 1)
        self.look(self.place)
        self.origin.revision(1, 1, self.commits[3])
        self.origin.revision(1, 2, self.commits[3])
        for revision in (1, 2):
            self.lander.is_wrong(1, revision, "lib")
        self.round()
        self.assertEqual([self.ref(f"refs/changes/1/{it}") for it in (1, 2)], self.commits[:2])

    def test_what_was_not_told_from_here_is_left_alone(self) -> None:
        self.origin.revision(7, 1, self.commits[3])
        for change, revision, project in ((7, 1, "lib"), (1, 2, "lib"), (1, 1, "site")):
            self.lander.is_wrong(change, revision, project)
        self.round()
        self.assertEqual(self.ref("refs/changes/7/1"), self.commits[3])
        self.assertEqual(self.answered(), {"7/1": 1, "1/2": 1, "1/1": 1})
        self.assertIn("adapter: lib 7/1: Trouble: revision 1 of change 7 of lib wasn't told here", self.lines())

    def test_a_repository_that_is_away_is_no_answer(self) -> None:
        self.lander.is_wrong(1, 1, "lib")
        away = self.origin.folder.rename(self.folder / "away")
        self.round()
        self.assertEqual(self.answered(), {"1/1": 0})
        away.rename(self.origin.folder)
        self.round()
        self.assertEqual(self.answered(), {"1/1": 1})

    def test_a_forge_that_declines_it_is_an_answer(self) -> None:
        self.origin.revision(1, 1, self.commits[3])
        hook = self.origin.folder / "hooks" / "update"
        hook.write_text("#!/bin/sh\nexit 1\n", encoding="utf-8")
        hook.chmod(0o755)
        self.lander.is_wrong(1, 1, "lib")
        self.round()
        self.assertEqual((self.ref(), self.answered()), (self.commits[3], {"1/1": 1}))

    def test_a_comparison_that_the_lander_waits_for_is_begun_at_once(self) -> None:
        since = Moment.now()
        self.lander.stop("core", "waits for the adapter", since)
        self.forge.asked.clear()
        self.round()
        self.assertEqual(self.forge.asked, [Place("acme/lib", 12)])
        left = read(file_in(self.settings.folder))
        assert left is not None and left.repositories["acme/lib"].began is not None
        self.assertGreater(left.repositories["acme/lib"].began.uptime, since.uptime)
        self.forge.asked.clear()
        self.round()
        self.assertEqual(self.forge.asked, [])


if __name__ == "__main__":
    unittest.main()
