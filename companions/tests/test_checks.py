"""What lands where names were moved, and where what was tested is another commit: nothing that wasn't tested."""
from __future__ import annotations

import dataclasses
import os
import unittest
from typing import Any
from unittest import mock

from companions import answers
from companions.checks import Evidence, QueueStops
from companions.compared import Compared, Waits, file_in, write
from companions.gate import Answer, NoAnswer
from companions.ids import success_id
from companions.settings import Project
from companions.tests.lander_case import FIRST, LanderCase


class Revisions(LanderCase):
    def said_of(self, at: str, name: str = "lib") -> str:
        return f"refs/changes/101/1 of {name} is {at}, and the gate was told of another commit"

    def moved(self) -> tuple[str, str]:
        """A change was tested, is ordered, and its name was moved since: the right commit and the other one."""
        right = self.change(101)
        self.order(1, 101)
        return right, self.commit("lib", "refs/changes/101/1", {"file": "one", "bad": "1"}, [self.root("lib")])

    def test_a_name_that_was_moved_behind_the_tests_lands_nothing(self) -> None:
        right, wrong = self.moved()
        with self.assertRaises(Waits) as found:
            self.lander.carry_out(self.gate.shown[0])
        self.assertEqual(str(found.exception), f"waits for the adapter: {self.said_of(f'at {wrong}')}")
        self.assertEqual((self.head(), self.gate.told), (self.root("lib"), []))
        self.assertEqual(answers.read(answers.file_in(self.settings.folder)).wrong, (answers.Wrong(101, 1, "lib"),))
        self.git("lib", "update-ref", "refs/changes/101/1", right)
        self.lander.carry_out(self.gate.shown[0])
        self.assertEqual(self.git("lib", "rev-parse", "main^2"), right)
        self.assertIn(f"lander: core: refs/changes/101/1 of lib is at {right} again, and was at {wrong}\n", self.said())
        self.assertEqual(answers.read(answers.file_in(self.settings.folder)).wrong, ())

    def test_without_an_adapter_it_is_refused_after_so_many_looks(self) -> None:
        _, wrong = self.moved()
        for _ in range(4):
            with self.assertRaises(Waits):
                self.lander.carry_out(self.gate.shown[0])
        self.lander.carry_out(self.gate.shown[0])
        self.assertEqual((self.head(), self.gate.told[-1]["kind"], self.gate.shown), (self.root("lib"), "refused", []))
        self.assertEqual(self.said(), "lander: core: refused change 101, revision 1: "
                         f"{self.said_of(f'at {wrong}')}: {{'reply': 'removed'}}\n")
        said = answers.read(answers.file_in(self.settings.folder))
        self.assertEqual((said.why_refused(101, 1), said.wrong), (self.said_of(f"at {wrong}"), ()))

    def test_a_name_that_is_gone(self) -> None:
        self.moved()
        self.git("lib", "update-ref", "-d", "refs/changes/101/1")
        with self.assertRaisesRegex(Waits, self.said_of("gone")):
            self.lander.carry_out(self.gate.shown[0])

    def test_the_same_name_in_another_project_is_not_looked_at(self) -> None:
        right = self.change(101)
        self.commit("app", "refs/changes/101/1", {"file": "one", "bad": "1"}, [self.root("app")])
        self.lander.carry_out(self.order(1, 101))
        self.assertEqual((self.git("lib", "rev-parse", "main^2"), self.head("app")), (right, self.root("app")))

    def test_a_tag_at_the_right_commit_is_another_object(self) -> None:
        right, _ = self.moved()
        self.git("lib", "tag", "-a", "-m", "x", "t", right)
        self.git("lib", "update-ref", "refs/changes/101/1", "refs/tags/t")
        with self.assertRaises(Waits):
            self.lander.carry_out(self.gate.shown[0])

    def test_needs_are_part_of_what_was_told(self) -> None:
        right = self.change(101)
        del self.gate.taken[next(iter(self.gate.taken))]
        self.tell(101, "lib", right, (7, 5))
        self.lander.carry_out(self.order(1, 101))
        self.assertEqual(self.git("lib", "rev-parse", "main^2"), right)

    def test_what_a_proxy_says_of_an_id_is_nothing(self) -> None:
        self.change(101)
        order, post = self.order(1, 101), self.gate.post
        with mock.patch.object(self.gate, "post", lambda door, it: Answer({"code": "E2", "error": "bad-delivery"})
                               if it["order"] == 10 ** 15 else post(door, it)), self.assertRaises(NoAnswer):
            self.lander.carry_out(order)
        self.assertEqual(self.head(), self.root("lib"))


class WithAdapter(LanderCase):
    has_adapter = True

    def test_with_an_adapter_its_answers_are_counted_and_no_looks(self) -> None:
        self.change(101)
        self.order(1, 101)
        self.git("lib", "update-ref", "-d", "refs/changes/101/1")
        for times in (0, 0, 0, 0, 0, 0, 4):
            write(file_in(self.settings.folder), Compared(FIRST, None, {}, {}, {"101/1": times}))
            with self.assertRaises(Waits):
                self.lander.carry_out(self.gate.shown[0])
        write(file_in(self.settings.folder), Compared(FIRST, None, {}, {}, {"101/1": 5}))
        self.lander.carry_out(self.gate.shown[0])
        self.assertEqual(self.gate.told[-1]["kind"], "refused")


class Proven(LanderCase):
    """Whether the voting jobs have passed on the very commit that would land."""

    def refused(self, order: int, change: int) -> str:
        """An order is refused: why."""
        self.said()
        head = self.head()
        self.lander.carry_out(self.gate.shown[0])
        self.assertEqual((self.head(), self.gate.told[-1]), (head, {**self.gate.told[-1], "kind": "refused",
                                                                    "order": order}))
        return str(answers.read(answers.file_in(self.settings.folder)).why_refused(change, 1))

    def test_a_worker_that_forgets_what_is_ahead(self) -> None:
        """Its change was tested on the branch as it was before the one ahead has landed."""
        self.land(1, 101)
        self.change(102)
        commit = self.be_tested(2, 102, after=0)
        self.order(2, 102, is_tested=False)
        why = self.refused(2, 102)
        self.assertRegex(why, "^what was tested isn't the commit that would land, [0-9a-f]{40}:"
                              r" unit has no success of it \(live successful builds: 42\)$")
        self.assertNotIn(str(commit), why)

    def test_settings_of_git_that_differ(self) -> None:
        """Where they made two commits of one merge, neither side knew."""
        config = self.folder / "gitconfig"
        config.write_text("[merge]\n\tdirectoryRenames = true\n\trenames = false\n[user]\n\tname = x\n\temail = y\n")
        self.change(101)
        with mock.patch.dict(os.environ, {"GIT_CONFIG_GLOBAL": str(config)}):
            self.trees = self.start_worker()
            self.order(1, 101)
        self.lander.carry_out(self.gate.shown[0])
        self.assertEqual([it.change for it in self.gate.landed], [101])

    def test_a_success_of_another_change_for_a_build_of_the_same_number(self) -> None:
        """A worker pauses between its take and its result, and the gate is restored meanwhile."""
        self.change(101)
        self.change(102)
        self.order(1, 102)
        self.order(1, 101, is_tested=False)
        self.assertIn("unit has no success of it (live successful builds: 41)", self.refused(1, 101))

    def test_only_live_successes_of_the_item_count(self) -> None:
        cases: list[list[dict[str, Any]]] = [
            [], [{"build": 41, "job": "unit", "live": False, "outcome": "success"}],
            [{"build": 41, "job": "unit", "live": True, "outcome": "failure"}],
            [{"build": 41, "job": "docs", "live": True, "outcome": "success"}]]
        for builds in cases:
            self.change(101)
            self.order(1, 101)
            self.gate.builds[1] = builds
            self.lander.evidence = Evidence("core", self.gate)  # type: ignore[arg-type]
            self.assertIn("unit has no success of it (live successful builds: none)", self.refused(1, 101))

    def test_one_of_several_builds_is_enough(self) -> None:
        self.change(101)
        self.order(1, 101)
        self.gate.builds[1].insert(0, {"build": 7, "job": "unit", "live": True, "outcome": "success"})
        self.lander.carry_out(self.gate.shown[0])
        self.assertIn("Gate-Job: unit 41 ", self.git("lib", "cat-file", "tag", "refs/landings/core/000001"))

    def test_each_voting_job_of_the_item_is_asked_and_no_other_one(self) -> None:
        """A job that was added to the settings meanwhile is none of the item's."""
        self.change(101)
        self.order(1, 101)
        item = self.gate.json("/items/1")
        item["jobs"].append({"job": "lint", "slot": "success", "voting": True})
        item["builds"].append({"build": 50, "job": "lint", "live": True, "outcome": "success"})
        with mock.patch.object(self.gate, "json", lambda path: item):
            self.assertRegex(self.refused(1, 101), r": lint has no success of it \(live successful builds: 50\)$")

    def test_a_second_order_in_a_row_stops_the_queue(self) -> None:
        """Then it isn't a ref that somebody moves: lander and workers differ."""
        self.change(101)
        self.change(102)
        self.order(1, 101, is_tested=False)
        self.refused(1, 101)
        self.order(2, 102, is_tested=False)
        with self.assertRaisesRegex(QueueStops, "^change 102: what was tested isn't the commit .* The order before it"
                                                " was refused for the same, so lander and workers differ: compare"
                                                " lander.author and the versions of git, and start the lander again$"):
            self.lander.carry_out(self.gate.shown[0])
        self.assertEqual(len(self.gate.told), 1)
        self.lander = self.start()
        self.refused(2, 102)

    def test_a_landing_between_two_such_orders_is_no_row(self) -> None:
        for order, change in ((1, 101), (3, 103)):
            self.change(change)
            self.order(order, change, is_tested=False)
            self.refused(order, change)
            self.land(order + 1, change + 1)
        self.assertEqual([it.change for it in self.gate.landed], [102, 104])

    def test_the_same_order_is_refused_again_where_no_answer_came(self) -> None:
        self.change(101)
        self.order(1, 101, is_tested=False)
        self.gate.silent = True
        with self.assertRaises(NoAnswer):
            self.lander.carry_out(self.gate.shown[0])
        self.gate.silent = False
        self.refused(1, 101)

    def test_it_is_turned_off_for_one_project(self) -> None:
        projects = dict(self.settings.projects)
        projects["app"] = dataclasses.replace(projects["app"], evidence=False)
        self.settings = dataclasses.replace(self.settings, projects=projects)
        self.lander = self.start()
        self.change(101, "app")
        self.lander.carry_out(self.order(1, 101, "app", is_tested=False))
        self.assertEqual(self.gate.landed[-1].change, 101)
        self.assertIn("\nGate-Evidence: not asked", self.git("app", "cat-file", "tag", "refs/landings/core/000001"))
        self.change(102)
        self.order(2, 102, is_tested=False)
        self.refused(2, 102)

    def test_another_author_than_the_worker_s_lands_nothing(self) -> None:
        self.settings = dataclasses.replace(self.settings, author="other <o@l>")
        self.change(101)
        self.order(1, 101)
        self.lander = self.start()
        self.assertIn("unit has no success of it", self.refused(1, 101))
        self.trees = self.start_worker()
        self.assertIsNone(self.trees.other_author())
        self.settings = dataclasses.replace(self.settings, author="gate <g@l>")
        self.trees = self.start_worker()
        self.assertEqual(self.trees.other_author(), "lander.author is gate <g@l> here, and other <o@l> where the lander"
                         " runs: make them the same")


class Heads(LanderCase):
    def test_another_project_that_was_pushed_past_the_gate_stops_the_queue(self) -> None:
        """A change of `app` was tested on another `lib`."""
        self.land(1, 101)
        self.change(102, "app")
        order = self.order(2, 102, "app")
        kept = self.head()
        past = self.commit("lib", "main", {"file": "past the gate"}, [kept])
        with self.assertRaisesRegex(QueueStops, f"^main of lib is at {past}, and the last landing left {kept}: take"
                                                " back what was pushed past the gate$"):
            self.lander.carry_out(order)
        self.assertEqual((len(self.gate.landed), self.head("app")), (1, self.root("app")))
        self.git("lib", "update-ref", "refs/heads/main", kept)
        self.lander.carry_out(order)
        self.assertEqual(len(self.gate.landed), 2)

    def test_a_project_that_is_added_later(self) -> None:
        self.land(1, 101)
        self.git("tool", "init", "--quiet", "--bare", "--initial-branch=main", str(self.folder / "tool"))
        self.commit("tool", "main", {"file": "one"}, [])
        self.change(102)
        order = self.order(2, 102)
        projects = {**self.settings.projects, "tool": Project("tool", "core", str(self.folder / "tool"), "main", {})}
        self.settings = dataclasses.replace(self.settings, projects=projects)
        self.lander, self.trees = self.start(), self.start_worker()
        self.lander.carry_out(order)
        self.assertEqual([it.change for it in self.gate.landed], [101, 102])
        self.land(3, 103, "tool")
        self.land(4, 104)
        self.assertIn(f"\nGate-With: tool {self.head('tool')}", self.git("lib", "log", "-1", "--format=%B", "main"))
        # A build that was given out before its first landing has it as it was before.
        self.assertEqual(self.be_tested(9, 102, after=1), self.git("lib", "rev-parse", "main^"))

    def test_ids_of_successes_are_of_all_that_they_say(self) -> None:
        said: list[Any] = [7, "core", 101, 1, "unit", "c" * 40]
        self.assertEqual(success_id(*said), "a1d9161e-e628-5a05-ab04-8d4852f8db13")
        others = {success_id(*[*said[:at], other, *said[at + 1:]]) for at, other in enumerate(
            (8, "web", 102, 2, "docs", "d" * 40))}
        self.assertEqual(len(others - {success_id(*said)}), 6)


if __name__ == "__main__":
    unittest.main()
