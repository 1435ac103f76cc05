"""What others do to the runs of `companions.ci`: nothing of it is believed, and nothing of theirs goes."""
from __future__ import annotations

import unittest
from pathlib import Path

from companions.tests.ci_case import LIB, CiCase


class Hostile(CiCase):
    def test_a_workflow_of_a_writers_own_branch_says_nothing(self) -> None:
        """It has a job of the same name, on the same commit, and says success."""
        self.give(self.reply(7, 103))
        _, commit = self.pushed(7)
        own = self.run_of(7)
        own.branch = "mallory"
        own.set("ci/unit", "success")
        self.turn(5)
        self.assertEqual(self.outcomes(), [])
        self.run_of(7).set("ci/unit", "failure")
        self.assertEqual(self.ended(7), "failure")

    def test_a_status_of_an_account_that_is_not_trusted_says_nothing(self) -> None:
        self.give(self.reply(7, 103))
        _, commit = self.pushed(7)
        for by in ("mallory", "gate-bot", "ann"):
            self.status(commit, "success", by)
        self.turn(5)
        self.assertEqual(self.outcomes(), [])
        self.status(commit, "failure")
        self.assertEqual(self.ended(7), "failure")

    def test_a_branch_that_somebody_moves_or_deletes_changes_nothing(self) -> None:
        for number, act in enumerate((lambda it: self.lib.name(it, self.heads["lib"]),
                                      lambda it: self.lib.git("update-ref", "-d", it)), 1):
            self.give(self.reply(number, 103))
            run = self.run_of(number)
            act(f"refs/heads/{run.branch}")
            self.turn(3)
            run.set("ci/unit", "success")
            self.assertEqual(self.ended(number), "success")
            self.until(lambda: not self.branches())

    def test_a_branch_that_stands_there_already_is_deleted_first(self) -> None:
        """As one that a restored gate finds under the same name: else its CI would hear of no push, since git takes a
        branch at the same commit for pushed. What ran of it before says nothing."""
        told = self.pushes()
        self.give(self.reply(7, 103))
        run = self.run_of(7)
        run.set("ci/unit", "success")
        self.ended(7)
        self.until(lambda: not self.branches())
        self.gate.taken.clear()
        for times, there in enumerate((self.heads["lib"], run.commit), 2):
            self.lib.name(f"refs/heads/{run.branch}", there)
            told.write_text("")
            self.give(self.reply(7, 103))
            self.until(lambda: self.errors.getvalue().count(f"pushed {run.branch}") == times)
            self.assertEqual(told.read_text().splitlines(), [f"{there} {'0' * 40}", f"{'0' * 40} {run.commit}"])
            self.assertEqual(self.branches(), {f"refs/heads/{run.branch}": run.commit})
            self.turn(5)
            self.assertEqual(len(self.outcomes()), times - 1)
            self.run_of(7).set("ci/unit", "failure")
            self.until(lambda: self.outcomes()[times - 1:] == [(7, "failure")])
            self.until(lambda: not self.branches())
            self.gate.taken.clear()

    def pushes(self) -> Path:
        """A file with what a forge would tell its CI: what each pushed branch was, and what it is by now."""
        file, hook = self.folder / "told", self.lib.folder / "hooks" / "post-receive"
        hook.parent.mkdir(exist_ok=True)
        hook.write_text(f'#!/bin/sh\nwhile read -r old new name; do echo "$old $new" >>"{file}"; done\n')
        hook.chmod(0o755)
        return file

    def test_names_that_look_alike_stay(self) -> None:
        """A writer has made branches and tags whose names end as a run's, or begin so."""
        self.give(self.reply(1, 103))
        run = self.run_of(1)
        others = (f"refs/heads/{run.branch}2", f"refs/tags/refs/heads/{run.branch}", "refs/heads/gate-1",
                  f"refs/heads/x/{run.branch}")
        for it in others:
            self.lib.name(it, self.heads["lib"])
        run.set("ci/unit", "success")
        self.ended(1)
        self.until(lambda: f"refs/heads/{run.branch}" not in self.branches())
        self.turn(2)
        for it in others:
            self.assertEqual(self.lib.git("rev-parse", it), self.heads["lib"])

    def test_statuses_come_late_twice_and_out_of_order(self) -> None:
        self.give(self.reply(1, 103), self.reply(2, 104), self.reply(3, 105))
        commits = [self.pushed(number)[1] for number in (1, 2, 3)]
        # Of another commit, of another name, twice, and pending behind an end.
        self.status(commits[1], "success", context="ci/unit2")
        self.status(self.heads["lib"], "success")
        self.status(commits[0], "success")
        self.status(commits[0], "success")
        self.status(commits[0], "pending")
        self.assertEqual(self.ended(1), "success")
        self.status(commits[0], "failure")
        self.status(commits[2], "pending")
        self.turn(5)
        self.assertEqual(self.outcomes(), [(1, "success")])
        self.status(commits[2], "failure")
        self.status(commits[1], "success")
        self.ended(3)
        self.ended(2)
        self.assertEqual(sorted(self.outcomes()), [(1, "success"), (2, "success"), (3, "failure")])


class Protected(CiCase):
    """A forge lets nobody delete a protected branch by git."""
    kind = "gitlab"

    def setUp(self) -> None:
        super().setUp()
        hook = self.lib.folder / "hooks" / "update"
        hook.parent.mkdir(exist_ok=True)
        hook.write_text('#!/bin/sh\ncase $1,$3 in refs/heads/gate/*,*[1-9a-f]*) ;; refs/heads/gate/*) exit 1 ;; esac\n')
        hook.chmod(0o755)

    def test_the_api_deletes_it(self) -> None:
        def delete(repository: str, branch: str) -> bool:
            self.lib.git("update-ref", "-d", f"refs/heads/{branch}")
            return repository == LIB

        self.model.when_deleted = delete
        self.give(self.reply(7, 103))
        self.run_of(7).set("ci/unit", "success")
        self.ended(7)
        self.until(lambda: not self.branches())
        self.turn()
        self.assertEqual(self.ci.queues["core"].runs.all, [])

    def test_without_it_the_branch_stays_which_is_said_once(self) -> None:
        """It goes at a later start, once it may be deleted."""
        self.give(self.reply(7, 103))
        run = self.run_of(7)
        run.set("ci/unit", "success")
        self.ended(7)
        self.until(lambda: f"{run.branch} stays in lib: error: hook declined" in self.errors.getvalue())
        self.turn(5)
        self.assertEqual(self.errors.getvalue().count("stays in lib"), 1)
        self.again()
        self.until(lambda: "branches of earlier runs stay: error: hook declined" in self.errors.getvalue())
        (self.lib.folder / "hooks" / "update").unlink()
        self.again()
        self.until(lambda: not self.branches())


if __name__ == "__main__":
    unittest.main()
