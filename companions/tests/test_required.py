"""The checks of a request's own commit, without which no approval of it is told."""
from __future__ import annotations

import tempfile
import unittest
from dataclasses import replace
from pathlib import Path
from typing import Any
from unittest import mock

from companions.api import ForgeFault
from companions.forms import CLIENTS
from companions.outbox import Notes
from companions.reader import SettingsFault
from companions.requests import Request, State
from companions.required import Required
from companions.settings import read
from companions.tests.adapter_case import SETTINGS, Case
from companions.tests.standin import StandIn

HEAD = "5e1c309dae7f45e0f39b1bf3ac3cd9db12e7d689"
RED = ": no approval counts before it has passed"


def status(form: str, number: int, name: str, word: str) -> dict[str, Any]:
    """A status as a form of forge shows it."""
    named = {"id": number, "target_url": None, "creator": {"id": 7}, "author": {"id": 7}}
    return {**named, **({"name": name, "status": word} if form == "gitlab" else
                        {"context": name, "state" if form == "github" else "status": word})}


class Forms(unittest.TestCase):
    """Each form of forge, as its documentation has its answers."""

    def unmet(self, form: str, rows: list[tuple[str, str]], *names: str, runs: Any = ()) -> list[str]:
        """What lacks, given a commit's statuses, the newest first, and GitHub's check runs."""
        listed = [status(form, 1000 - at, name, word) for at, (name, word) in enumerate(rows)]
        self.asked: list[str] = []

        def answers(method: str, path: str, body: bytes) -> tuple[int, Any] | None:
            self.asked.append(path)
            if "/check-runs" in path:
                is_list = isinstance(runs, (list, tuple))
                return (200, {"check_runs": list(runs)}) if is_list else (runs, {"message": "x"})
            page = int(path.rpartition("page=")[2]) if "&page=" in path else 1
            return 200, listed[50 * (page - 1):50 * page]

        with tempfile.TemporaryDirectory() as folder, StandIn(answers) as standin:
            notes = Notes(Path(folder) / "notes.db")
            try:
                so = Request("acme/lib", 12, State.OPEN, HEAD, "main", "", "")
                return Required(names, form, CLIENTS[form](standin.url, "token", "secret"), notes).unmet(so)
            finally:
                notes.tables.close()

    def test_a_success_is_one_and_nothing_else(self) -> None:
        for form in CLIENTS:
            with self.subTest(form):
                self.assertEqual(self.unmet(form, [("ci/lint", "success"), ("ci/lint", "failure")], "ci/lint"), [])
                for word, said in (("failure", "failure"), ("failed", "failed"), ("pending", "pending"),
                                   ("skipped", "skipped, which is no success: a path filter or a condition (`if:`,"
                                               " `rules:`, `only:`) has left it out"), ("anything", "anything")):
                    self.assertEqual(self.unmet(form, [("ci/lint", word), ("ci/lint", "success")], "ci/lint"),
                                     [f"ci/lint is {said}{RED}"])
                self.assertEqual(self.unmet(form, [("ci/unit", "success")], "ci/lint", "ci/unit"),
                                 [f"ci/lint hasn't come{RED}"])

    def test_nothing_is_asked_where_nothing_is_required(self) -> None:
        for form in CLIENTS:
            self.assertEqual((self.unmet(form, []), self.asked), ([], []))

    def test_very_many_statuses(self) -> None:
        """Those behind the newest 2,000 aren't read."""
        for form in CLIENTS:
            many = [(f"forged-{it}", "success") for it in range(2500)]
            self.assertEqual(self.unmet(form, [*many, ("ci/lint", "success")], "ci/lint"),
                             [f"ci/lint hasn't come{RED}"])
            self.assertLessEqual(len(self.asked), 42)

    def test_check_runs_of_github(self) -> None:
        run = {"id": 9, "name": "ci/lint", "status": "completed", "conclusion": "success"}
        self.assertEqual(self.unmet("github", [], "ci/lint", runs=[run]), [])
        self.assertIn(f"/repos/acme/lib/commits/{HEAD}/check-runs?check_name=ci%2Flint&filter=latest&per_page=100",
                      self.asked)
        for other, said in (({"conclusion": "neutral"}, "neutral, which is no success"),
                            ({"status": "in_progress", "conclusion": None}, "in progress")):
            self.assertEqual(self.unmet("github", [("ci/lint", "success")], "ci/lint", runs=[run, {**run, **other}]),
                             [f"ci/lint is {said}{RED}"])
        self.assertEqual(self.unmet("github", [("ci/lint", "success")], "ci/lint", runs=404), [])
        self.assertEqual(self.unmet("github", [], "ci/lint", runs=[{**run, "name": "other"}]),
                         [f"ci/lint hasn't come{RED}"])

    def test_what_cannot_be_asked(self) -> None:
        for runs in (500, 403, [{"id": 1}], "x"):
            with self.assertRaises(ForgeFault):
                self.unmet("github", [("ci/lint", "success")], "ci/lint", runs=runs if runs != "x" else [None])


class OfTheAdapter(Case):
    def require(self, *lines: list[str] | ForgeFault) -> None:
        """What the forge says of the checks, at each question in turn, the last answer from then on."""
        left = list(lines)

        def unmet(so: Request) -> list[str]:
            said = left.pop(0) if len(left) > 1 else left[0]
            if isinstance(said, ForgeFault):
                raise said
            return said

        self.adapter.looks.required.unmet = unmet  # type: ignore[assignment]

    def test_an_approval_is_told_once_the_check_has_passed(self) -> None:
        place = self.be(12, 0, self.approve(1))
        self.require([f"ci/lint is failure{RED}"], [f"ci/lint is pending{RED}"], [])
        self.assertEqual(self.tell(place)[0], f"acme/lib {self.commits[0]}: pending: Waits for approval")
        self.assertIn(f"    ci/lint is failure{RED}", self.forge.comments[1][1])
        # It is looked at again by each comparison, though nothing has changed in its list.
        self.assertEqual(self.look(), [])
        self.assertEqual(self.look(), ["approved 1 1"])
        self.assertEqual(self.adapter.changes.remarks(1, "vote"), [])

    def test_what_is_taken_back_is_told_whatever_the_checks_say(self) -> None:
        place = self.be(12, 0, self.approve(1))
        self.assertEqual(self.look(place), ["revision 1 1", "approved 1 1"])
        self.require([f"ci/lint is failure{RED}"])
        self.be(12, 0)
        self.assertEqual(self.look(place), ["withdrawn 1 1"])
        self.be(12, 1, self.approve(2, 1))
        self.assertEqual(self.look(place), ["revision 1 2"])

    def test_a_forge_that_does_not_say(self) -> None:
        """The request is looked at again later, and all else is told."""
        self.require(ForgeFault("GET statuses: status 500"), [])
        place = self.be(12, 0, self.approve(1))
        self.assertEqual(self.look(place, self.be(13, 1)), ["revision 1 1", "revision 2 1"])
        self.assertIn("adapter: acme/lib 12: GET statuses: status 500", self.lines())
        self.assertEqual(self.adapter.changes.remarks(1, "vote"), [
            "the forge doesn't say whether its checks have passed: no approval counts before that"])
        self.assertEqual(self.look(place), ["approved 1 1"])

    def test_no_votes_of_others_hide_that_it_waits(self) -> None:
        self.require([f"ci/lint is failure{RED}"])
        self.be(12, 0, self.approve(1), *(self.approve(number, person="eve") for number in range(2, 30)))
        self.tell()
        lines = self.adapter.changes.remarks(1, "vote")
        self.assertEqual((lines[0], lines[-1]), (f"ci/lint is failure{RED}", "and 20 more"))
        self.assertIn(f"    ci/lint is failure{RED}", self.forge.comments[1][1])

    def test_the_settings(self) -> None:
        file, text = self.folder / "it.toml", SETTINGS.format(folder=self.folder, gate="http://localhost")
        for line, required in (("", ()), ('require = ["ci/unit", "ci/lint"]', ("ci/lint", "ci/unit"))):
            file.write_text(text.replace("[adapter]", f"[adapter]\n{line}"))
            adapter = read(file).adapter
            assert adapter is not None
            self.assertEqual(adapter.require, required)
        self.settings = replace(self.settings, adapter=replace(self.settings.adapter, require=("ci/lint",)))
        self.start()
        with mock.patch.object(Required, "of_commit", lambda it, repository, commit: {"ci/lint": []}):
            self.assertEqual(self.look(self.be(12, 0, self.approve(1))), ["revision 1 1"])
        for it in ('["gate"]', '"ci/lint"', '[""]'):
            file.write_text(text.replace("[adapter]", f"[adapter]\nrequire = {it}"))
            with self.subTest(it), self.assertRaisesRegex(SettingsFault, "adapter.require: "):
                read(file)


if __name__ == "__main__":
    unittest.main()
