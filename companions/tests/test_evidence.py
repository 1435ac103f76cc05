"""What was landed is checked afterwards, and refused where a log or a repository was turned by hand."""
from __future__ import annotations

import contextlib
import dataclasses
import io
import json
import sqlite3
import unittest
from collections.abc import Callable
from contextlib import closing
from typing import Any
from unittest import mock

from companions import evidence
from companions.gate import NoAnswer
from companions.tests.forge import earlier_message
from companions.tests.lander_case import FIRST, GateOfAScene, LanderCase

NOTE = "refs/landings/core/{:06d}"


class GateOfEvidence(GateOfAScene):
    """Also says what has left: its log, the history, and the items that are gone."""

    def __init__(self) -> None:
        super().__init__(is_strict=True)
        self.orders_of: list[int] = []

    def lines(self, path: str) -> list[str] | None:
        if path == "/deliveries":
            return [json.dumps(it) for it in [{"id": FIRST.replace("-", ""), "kind": "take", "worker": "w"}, *self.log]]
        rows = [f"{at} {it.order} {it.change} {it.revision} landed {at}" for at, it in enumerate(self.landed, 1)]
        return ["history core", *rows[int(path.rpartition("/")[2]) - 1:]]

    def json(self, path: str) -> Any:
        landed = next((it for it in self.landed if path == f"/items/{it.order}"), None)
        if landed is None:
            return super().json(path)
        return {"builds": self.builds.get(landed.order, []), "change": landed.change, "jobs": None}


class EvidenceTest(LanderCase):
    def setUp(self) -> None:
        super().setUp()
        self.gate = GateOfEvidence()
        self.lander = self.start()
        for order, change, name in ((1, 101, "lib"), (2, 102, "app"), (3, 103, "lib")):
            self.land(order, change, name)
        self.file = self.folder / "companions.toml"
        self.file.write_text(f'folder = "{self.settings.folder}"\n[gate]\nurl = "http://localhost"\n' + "".join(
            f'[[project]]\nname = "{it}"\nqueue = "core"\nrepository = "{self.folder}/{it}"\n'
            for it in ("lib", "app")))

    def run_it(self, *words: str) -> tuple[int, str]:
        """The status and what is printed."""
        with contextlib.redirect_stdout(io.StringIO()) as printed, mock.patch.object(
                evidence, "Gate", lambda *it, **more: self.gate):
            status = evidence.main([str(self.file), "core", *words])
        return status, printed.getvalue()

    def head(self, name: str = "lib", above: str = "main") -> str:
        return self.git(name, "rev-parse", above)

    def test_what_landed_holds(self) -> None:
        self.assertEqual(self.run_it(), (0, f"""\
core 1 lib: change 101, revision 1, {self.head('lib', 'main^')[:12]}: holds: unit by build 41
core 2 app: change 102, revision 1, {self.head('app')[:12]}: holds: unit by build 42
core 3 lib: change 103, revision 1, {self.head()[:12]}: holds: unit by build 43
core: 3 of 3 landings hold; which jobs they had is the lander's word
"""))
        self.assertEqual(self.run_it("2", "2")[1].splitlines()[1:],
                         ["core: 1 of 1 landings hold; which jobs they had is the lander's word"])
        status, printed = self.run_it("--json", "3")
        self.assertEqual((status, json.loads(printed)), (0, {"queue": "core", "file": None, "landings": [{
            "place": 3, "project": "lib", "change": 103, "revision": 1, "commit": self.head(), "jobs": {"unit": 43},
            "remark": None, "differs": []}]}))

    def copy(self, rows: list[tuple[int, str, int]]) -> str:
        """A copy of the gate's file."""
        file = self.folder / "copy.db"
        file.unlink(missing_ok=True)
        with closing(sqlite3.connect(file)) as tables:
            tables.execute("CREATE TABLE item_job(serial INTEGER, place INTEGER, name TEXT, voting INTEGER)")
            tables.executemany("INSERT INTO item_job VALUES (?, 0, ?, ?)", rows)
            tables.commit()
        return str(file)

    def test_the_jobs_are_those_of_a_copy_of_the_file(self) -> None:
        rows = [(order, job, voting) for order in (1, 2, 3) for job, voting in (("unit", 1), ("docs", 0))]
        status, printed = self.run_it("--file", self.copy(rows))
        self.assertEqual((status, printed.splitlines()[-1]),
                         (0, f"core: 3 of 3 landings hold; their jobs are those of {self.folder}/copy.db"))
        status, printed = self.run_it("--file", self.copy([*rows, (2, "lint", 1)]))
        self.assertEqual(status, 1)
        self.assertIn("DIFFERS: its note lists the jobs unit, and its item had lint, unit; lint has no success of this"
                      " commit (live successful builds: none)\n", printed)

    def swap(self, turn: Callable[[str], str]) -> None:
        """The last commit of `lib`'s branch is another one, with all else as it was."""
        content = self.git("lib", "cat-file", "commit", "main") + "\n"
        made = self.git("lib", "hash-object", "-t", "commit", "-w", "--stdin", given=turn(content))
        self.git("lib", "update-ref", "refs/heads/main", made)
        tag = self.git("lib", "cat-file", "tag", NOTE.format(3)) + "\n"
        old = tag.splitlines()[0].split()[1]
        note = self.git("lib", "hash-object", "-t", "tag", "-w", "--stdin", given=tag.replace(old, made))
        self.git("lib", "update-ref", NOTE.format(3), note)

    def other_tree(self, content: str) -> str:
        tree = self.git("lib", "rev-parse", "main^^{tree}")
        return f"tree {tree}\n" + content.partition("\n")[2]

    def other_parent(self, content: str) -> str:
        other = self.commit("lib", "refs/other", {"file": "one", "bad": "1"}, [self.root("lib")])
        return content.replace(f"parent {self.git('lib', 'rev-parse', 'main^2')}", f"parent {other}")

    def note_of(self, place: int, text: Callable[[str], str]) -> None:
        tag = self.git("lib", "cat-file", "tag", NOTE.format(place)) + "\n"
        self.git("lib", "update-ref", NOTE.format(place),
                 self.git("lib", "hash-object", "-t", "tag", "-w", "--stdin", given=text(tag)))

    def test_each_of_these_is_refused(self) -> None:
        right = self.head()
        merged, main = self.head("lib", "main^2"), self.head()
        notes = {place: self.git("lib", "rev-parse", NOTE.format(place)) for place in (1, 3)}
        log, builds, landed = list(self.gate.log), dict(self.gate.builds), list(self.gate.landed)
        turns: dict[str, tuple[Callable[[], object], str]] = {
            "another tree": (lambda: self.swap(self.other_tree), "its commit isn't the one that these merge to"),
            "another commit merged": (lambda: self.swap(self.other_parent), "the gate wasn't told "),
            "no line of another project": (
                lambda: self.swap(lambda it: "".join(line for line in it.splitlines(True) if "Gate-With" not in line)),
                "its commit isn't the one that these merge to"),
            "another date": (lambda: self.swap(lambda it: it.replace(" +0000", "0 +0000")), "its commit isn't the one"),
            "a result of another commit": (lambda: self.gate.log.__setitem__(
                slice(None), [it for it in log if it.get("build") != 43] + [
                    {"id": "0" * 32, "kind": "result", "build": 43, "outcome": "success"}]),
                "unit has no success of this commit (live successful builds: 43)"),
            "no build of a job": (lambda: self.gate.builds.update({3: []}),
                                  "unit has no success of this commit (live successful builds: none)"),
            "a build that is dead": (lambda: self.gate.builds.update({3: [{**builds[3][0], "live": False}]}),
                                     "unit has no success of this commit (live successful builds: none)"),
            "a revision that was moved": (
                lambda: self.git("lib", "update-ref", "refs/changes/103/1", self.root("lib")),
                f"refs/changes/103/1 is at {self.root('lib')}, and {merged} has landed"),
            "a revision that wasn't told": (lambda: self.gate.log.__setitem__(
                slice(None), [it for it in log if it.get("change") != 103]),
                f"the gate wasn't told {merged} as revision 1"),
            "a note that is gone": (lambda: self.git("lib", "update-ref", "-d", NOTE.format(3)),
                                    "its note, refs/landings/core/000003, is gone"),
            "a note that was moved": (lambda: self.git("lib", "update-ref", NOTE.format(3), right + "^"),
                                      "its note, refs/landings/core/000003, is at another commit"),
            "a note of fewer jobs, given the file": (lambda: self.note_of(3, lambda it: it.partition("Gate-Job")[0]),
                                                     "its note lists the jobs none, and its item had unit"),
            "another change by the gate": (lambda: self.gate.landed.__setitem__(
                2, dataclasses.replace(landed[2], change=101)), "the gate has change 101, revision 1, as this landing"),
            "a landing that the gate lacks": (lambda: self.gate.landed.pop(), "the gate doesn't have this landing"),
            "a landing that the branch lacks": (lambda: self.git("lib", "update-ref", "refs/heads/main", "main^"),
                                                "the gate has this landing, and no branch does"),
        }
        for name, (turn, said) in turns.items():
            with self.subTest(name):
                turn()
                status, printed = self.run_it("--file", self.copy([(order, "unit", 1) for order in (1, 2, 3)]))
                self.assertEqual(status, 1)
                [line] = [it for it in printed.splitlines() if "DIFFERS" in it]
                self.assertRegex(line, "^core 3 ")
                self.assertIn(said, line)
                self.assertIn("core: 2 of 3 landings hold", printed)
                self.git("lib", "update-ref", "refs/heads/main", main)
                self.git("lib", "update-ref", "refs/changes/103/1", merged)
                for place, note in notes.items():
                    self.git("lib", "update-ref", NOTE.format(place), note)
                self.gate.log[:], self.gate.landed[:] = log, landed
                self.gate.builds.update(builds)
        self.assertEqual(self.run_it()[0], 0)

    def test_branches_that_miss_a_landing_are_refused(self) -> None:
        self.git("app", "update-ref", "refs/heads/main", "main^")
        with contextlib.redirect_stderr(io.StringIO()) as errors:
            self.assertEqual(self.run_it(), (1, ""))
        self.assertEqual(errors.getvalue(), "evidence: the branches of core have landings at the places 1, 3: they have"
                                            " to be 1 to 2\n")

    def test_landings_without_evidence_are_said_to_be_such(self) -> None:
        projects = dict(self.settings.projects)
        projects["app"] = dataclasses.replace(projects["app"], evidence=False)
        self.settings = dataclasses.replace(self.settings, projects=projects)
        self.lander = self.start()
        self.change(104, "app")
        self.lander.carry_out(self.order(4, 104, "app", is_tested=False))
        status, printed = self.run_it("4")
        self.assertEqual((status, printed), (0, (
            f"core 4 app: change 104, revision 1, {self.head('app')[:12]}: its project has evidence = false, so its"
            " tests weren't asked for\ncore: 1 of 1 landings hold; which jobs they had is the lander's word\n")))

    def test_landings_of_an_earlier_version_are_said_to_be_such(self) -> None:
        for name in ("lib", "app"):
            self.git(name, "update-ref", "refs/heads/main", self.root(name))
        own = self.change(104)
        landed = self.git("lib", "commit-tree", f"{own}^{{tree}}", "-p", "main", "-p", own, "-F", "-",
                          given=earlier_message(FIRST, "core", 4, 104))
        self.git("lib", "update-ref", "refs/heads/main", landed)
        self.git("lib", "update-ref", NOTE.format(1), landed)
        self.gate.landed = [self.order(4, 104, is_tested=False)]
        status, printed = self.run_it()
        self.assertEqual((status, printed.splitlines()[0]), (
            0, f"core 1 lib: change 104, revision 1, {landed[:12]}: of an earlier version, whose landings show no"
               " tests"))

    def test_a_note_that_was_made_anew_has_no_jobs(self) -> None:
        self.git("lib", "update-ref", "-d", NOTE.format(3))
        self.lander.notes.put("landing core 000003", [*self.lander.notes.get("landing core 000003")[:5], None])
        self.lander = self.start()
        status, printed = self.run_it("3")
        self.assertEqual(status, 1)
        self.assertIn("DIFFERS: its note was made anew, so only --file has its jobs\n", printed)
        self.assertEqual(self.run_it("3", "--file", self.copy([(3, "unit", 1)]))[0], 0)

    def test_after_a_restore_the_same_change_has_another_order_and_other_builds(self) -> None:
        """They are of the same commit."""
        self.lose(1)
        order = self.order(9, 103, is_tested=False)
        self.be_tested(9, 103, after=2)
        self.lander.first = None
        self.lander.carry_out(order)
        self.assertIn("core 3 lib: change 103, revision 1,", self.run_it()[1])
        self.assertIn("holds: unit by build 49\n", self.run_it()[1])

    def test_words_and_faults(self) -> None:
        with contextlib.redirect_stderr(io.StringIO()) as errors:
            self.assertEqual(evidence.main([str(self.file), "docs"]), 1)
            with mock.patch.object(self.gate, "lines", side_effect=NoAnswer("GET /deliveries: status 401, b''")):
                self.assertEqual(self.run_it(), (1, ""))
        self.assertEqual(errors.getvalue(), f"evidence: {self.file}: no project has the queue docs\n"
                                            "evidence: GET /deliveries: status 401, b''\n")


if __name__ == "__main__":
    unittest.main()
