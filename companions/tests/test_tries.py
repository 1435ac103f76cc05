"""Orders that the forge declines: refused after some tries, or the queue is stopped."""
from __future__ import annotations

import tempfile
import unittest
import unittest.mock
from pathlib import Path

from companions import answers
from companions.answers import Answers, Refusal
from companions.gate import Order
from companions.lander import QueueLander
from companions.outbox import Notes
from companions.repository import Declined, GitFault, Repository, words_of
from companions.settings import Project, Settings
from companions.tests.forge import Origin
from companions.tests.lander_case import GateOfAScene
from companions.tries import Tries

ATOMIC = "!\tHEAD:refs/landings/core/000001\t[remote rejected] (atomic push failure)\n"


def order(change: int, revision: int = 1) -> Order:
    return Order("core", change, "lib", change, revision)


class Words(unittest.TestCase):
    def test_the_words_of_a_server(self) -> None:
        for listed, said, words in (
                (f"To o.git\n!\tHEAD:refs/heads/main\t[remote rejected] (hook declined)\n{ATOMIC}Done\n",
                 "remote: no landing on Sundays        \nremote: \nerror: failed to push some refs to 'o.git'\n",
                 "no landing on Sundays; hook declined"),
                (f"!\ta:b\t[remote rejected] (pre-receive hook declined)\n{ATOMIC}", "", "pre-receive hook declined"),
                ("!\ta:b\t[rejected] (stale info)\n", "remote: welcome", None),
                ("", "fatal: Could not read from remote repository.", None)):
            self.assertEqual(words_of(listed, said), words)


class Counted(unittest.TestCase):
    def setUp(self) -> None:
        folder = tempfile.TemporaryDirectory()
        self.addCleanup(folder.cleanup)
        self.file = Path(folder.name) / "notes.db"

    def declined(self, change: int, words: str, revision: int = 1) -> str:
        """What comes of an order that was declined, for a lander that was started anew."""
        try:
            return Tries("core", 3, Notes(self.file)).declined(order(change, revision), Declined("git push: no", words))
        except GitFault as fault:
            return f"tried again: {fault}"

    def test_the_same_refusal_of_an_order_ends_it(self) -> None:
        again = "tried again: git push: no"
        self.assertEqual([self.declined(7, it) for it in ("at 12:00", "at 12:05", "at 12:10")],
                         [again, again, "the forge declines it: at 12:10"])

    def test_another_refusal_or_another_revision_counts_anew(self) -> None:
        said = [self.declined(7, *it) for it in (("a", 1), ("a", 1), ("b", 1), ("b", 1), ("b", 2), ("b", 2))]
        self.assertEqual(set(said), {"tried again: git push: no"})
        self.assertEqual(self.declined(7, "b", 2), "the forge declines it: b")

    def test_the_same_words_for_the_next_change_refuse_nothing_more(self) -> None:
        for _ in range(3):
            self.declined(7, "no landing on Sundays")
        for change in 5 * [8] + [9]:
            self.assertEqual(self.declined(change, "no landing on Sundays"),
                             f"tried again: the forge declines change {change} by the same words as change 7, so the"
                             " branch or the account is at fault: no landing on Sundays")

    def test_the_same_change_approved_again_is_tried_again(self) -> None:
        said = [self.declined(7, "unsigned 1a2b3c4") for _ in range(6)]
        self.assertEqual([it.startswith("tried") for it in said], [True, True, False, True, True, False])

    def test_other_words_are_the_next_change_s_own_fault(self) -> None:
        said = [self.declined(change, f"unsigned {change}a2b3c4") for change in (7, 7, 7, 8, 8, 8)]
        self.assertEqual(said[-1], "the forge declines it: unsigned 8a2b3c4")

    def test_a_push_that_was_taken_ends_it(self) -> None:
        for _ in range(3):
            self.declined(7, "a")
        Tries("core", 3, Notes(self.file)).landed()
        self.assertEqual(self.declined(8, "a"), "tried again: git push: no")


class Landed(unittest.TestCase):
    """A lander before a server whose hook declines what is pushed."""

    def setUp(self) -> None:
        folder = tempfile.TemporaryDirectory()
        self.addCleanup(folder.cleanup)
        self.folder = Path(folder.name)
        self.origin = Origin(self.folder / "lib.git")
        base = self.origin.commit({"file": "one"})
        self.origin.name("refs/heads/main", base)
        for change in (7, 8, 9):
            self.origin.revision(change, 1, self.origin.commit({f"file-{change}": "two"}, base))
        projects = {"lib": Project("lib", "core", str(self.origin.folder), "main", {}, "lib")}
        self.settings = Settings("http://localhost", {}, self.folder / "companions", projects, 1, 1, 1, 1, "gate <g@l>",
                                 has_adapter=False, tries=3)
        notes = Notes(self.folder / "notes.db")
        self.addCleanup(notes.tables.close)
        self.gate, self.answers = GateOfAScene(), Answers(self.settings.folder)
        self.lander = QueueLander("core", self.settings, self.gate, notes, self.answers)  # type: ignore[arg-type]
        self.lander.begin()

    def hook(self, text: str) -> None:
        file = self.origin.folder / "hooks" / "update"
        file.write_text(f"#!/bin/sh\n{text}\n", encoding="utf-8")
        file.chmod(0o755)

    def carry_out(self, change: int, times: int = 1) -> list[str]:
        """The gate shows the order of a change as long as it isn't answered: what the lander says each time."""
        self.gate.shown, said = [order(change)], []
        for _ in range(times):
            try:
                self.lander.carry_out(order(change))
                said.append("answered")
            except GitFault as fault:
                said.append(str(fault))
        return said

    def told(self) -> list[str]:
        return [f"{it['kind']} {it['order']}" for it in self.gate.told]

    def test_a_landing_that_a_hook_declines_is_refused_and_the_next_one_stops_the_queue(self) -> None:
        self.hook("echo 'no landing on Sundays'; exit 1")
        said = self.carry_out(7, 3)
        self.assertEqual((said[2], self.told()), ("answered", ["refused 7"]))
        self.assertTrue(all("[remote rejected]" in it for it in said[:2]), said)
        words = "no landing on Sundays; error: hook declined to update refs/heads/main; hook declined"
        self.assertEqual(answers.read(answers.file_in(self.settings.folder)).refused,
                         (Refusal(7, 1, f"the forge declines it: {words}"),))
        said = self.carry_out(8, 5)
        self.assertEqual(set(said), {"the forge declines change 8 by the same words as change 7, so the branch or the"
                                     f" account is at fault: {words}"})
        self.assertEqual(self.told(), ["refused 7"])
        self.hook("exit 0")
        self.assertEqual((self.carry_out(8), self.told()), (["answered"], ["refused 7", "landed 8"]))

    def test_a_network_that_is_away_refuses_nothing(self) -> None:
        def push(repository: Repository, updates: object) -> bool:
            raise GitFault("git push: fatal: Could not read from remote repository.")

        with unittest.mock.patch.object(Repository, "push", push):
            self.carry_out(7, 9)
        self.assertEqual(self.told(), [])
        self.assertEqual((self.carry_out(7), self.told()), (["answered"], ["landed 7"]))


if __name__ == "__main__":
    unittest.main()
