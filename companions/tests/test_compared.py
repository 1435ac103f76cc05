"""What an adapter leaves for the lander, and what may land by that."""
from __future__ import annotations

import json
import tempfile
import unittest
from collections.abc import Callable
from dataclasses import replace
from pathlib import Path
from typing import Any

from companions.answers import Answers, Refusal, read as answers_in, file_in as answers_file
from companions.compared import Compared, Comparison, Repository, Waits, file_in, read, write
from companions.gate import Order
from companions.lander import QueueLander
from companions.moments import Moment
from companions.outbox import Notes
from companions.settings import Project, Settings
from companions.tests.forge import Origin
from companions.tests.lander_case import FIRST, GateOfAScene

LAST = "0b000000-0000-4000-8000-000000000007"
OWN = "0b000000-0000-4000-8000-000000000008"


class Case(unittest.TestCase):
    def setUp(self) -> None:
        folder = tempfile.TemporaryDirectory()
        self.addCleanup(folder.cleanup)
        self.folder = Path(folder.name)
        projects = [Project("lib", "core", str(self.folder / "lib.git"), "main", {}, "acme/lib"),
                    Project("app", "core", str(self.folder / "app.git"), "main", {}, "acme/app"),
                    Project("site", "web", str(self.folder / "site.git"), "main", {}, "acme/site")]
        self.settings = Settings("http://localhost", {}, self.folder / "companions", {it.name: it for it in projects},
                                 1, 1, 1, 1, "gate <g@l>")
        self.gate = GateOfAScene()
        self.gate.taken[LAST] = {}
        self.notes = Notes(self.folder / "notes.db")
        self.addCleanup(self.notes.tables.close)
        self.now = Moment.now()
        self.left = Compared(FIRST, LAST, {f"acme/{it}": Repository(0, self.now) for it in ("lib", "app")}, {})
        self.file = file_in(self.settings.folder)

    def leave(self, **other: Any) -> None:
        """The adapter leaves what it has left before, but for this."""
        self.left = replace(self.left, **other)
        write(self.file, self.left)

    def repository(self, name: str, it: Repository | None) -> dict[str, Repository]:
        others = {other: one for other, one in self.left.repositories.items() if other != name}
        return others if it is None else {**others, name: it}


class Form(Case):
    def test_the_form(self) -> None:
        left = {"acme/lib": Repository(2, Moment("a boot", 12.5)), "acme/app": Repository(0, None, Moment("b", 7.0))}
        write(self.file, Compared(FIRST, None, left, {103: "it was closed"}, {"7/1": 2}))
        self.assertEqual(json.loads(self.file.read_text("utf-8")), {
            "first": FIRST, "last": None, "refuse": {"103": "it was closed"}, "answered": {"7/1": 2},
            "repositories": {"acme/lib": {"waiting": 2, "began": {"boot": "a boot", "uptime": 12.5}, "looked": None},
                             "acme/app": {"waiting": 0, "began": None, "looked": {"boot": "b", "uptime": 7.0}}}})

    def test_it_is_read_as_it_was_written(self) -> None:
        self.leave(refuse={103: "it was closed"}, answered={"7/1": 2},
                   repositories=self.repository("acme/app", Repository(3, None)))
        self.assertEqual(read(self.file), self.left)

    def test_one_of_an_earlier_version_is_read(self) -> None:
        self.leave()
        table = json.loads(self.file.read_text("utf-8"))
        for it in table["repositories"].values():
            del it["looked"]
        self.file.write_text(json.dumps(table), "utf-8")
        self.assertEqual(read(self.file), self.left)

    def test_what_has_no_such_form_is_none(self) -> None:
        self.assertIsNone(read(self.file))
        self.leave()
        whole = json.loads(self.file.read_text("utf-8"))
        for name, value in (("first", ...), ("last", ...), ("repositories", {"acme/lib": {}}), ("refuse", {"x": "y"}),
                            ("repositories", []), ("repositories", {"acme/lib": {"waiting": "x", "began": None}}),
                            ("repositories", {"acme/lib": {"waiting": 0, "began": {"boot": "x", "uptime": "y"}}})):
            table = {key: it for key, it in {**whole, name: value}.items() if it is not ...}
            self.file.write_text(json.dumps(table), "utf-8")
            self.assertIsNone(read(self.file), (name, value))
        self.file.write_text(self.file.read_text("utf-8")[:-9], "utf-8")
        self.assertIsNone(read(self.file))

    def test_a_moment_is_of_this_boot(self) -> None:
        later = Moment.now()
        self.assertEqual(later.boot, self.now.boot)
        self.assertLessEqual(self.now.uptime, later.uptime)


class Asked(Case):
    """What a lander is told before each push."""

    def setUp(self) -> None:
        super().setUp()
        self.order = Order("core", 3, "lib", 103, 1)

    def why(self, first: str | None = FIRST) -> str | None:
        it = Comparison("core", self.settings, self.gate, self.notes)  # type: ignore[arg-type]
        return it.why_refused(self.order, first)

    def waits(self, why: str, first: str | None = FIRST) -> Moment | None:
        with self.assertRaises(Waits) as raised:
            self.why(first)
        self.assertEqual(str(raised.exception), f"waits for the adapter: {why}")
        return raised.exception.since

    def ago(self, seconds: float) -> Moment:
        return Moment(self.now.boot, self.now.uptime - seconds)

    def test_what_was_compared_may_land(self) -> None:
        self.leave()
        self.assertIsNone(self.why())

    def test_without_an_adapter_nothing_is_waited_for(self) -> None:
        self.settings = replace(self.settings, has_adapter=False)
        self.assertIsNone(self.why())

    def test_an_order_whose_change_is_to_be_refused_is(self) -> None:
        self.leave(refuse={103: "its approval was taken back", 104: "its request was closed"})
        self.assertEqual(self.why(), "its approval was taken back")

    def test_what_was_left_by_nobody_or_of_another_file_is_waited_for(self) -> None:
        self.waits(f"it hasn't left {self.file} yet")
        for left, now in ((FIRST, None), (FIRST, LAST), (None, FIRST)):
            self.leave(first=left)
            self.waits("it hasn't seen yet which file the gate has", now)

    def test_a_repository_that_was_not_compared_holds_up_its_own_queue(self) -> None:
        other = Moment("another boot", self.now.uptime)
        for it in (None, Repository(0, None), Repository(0, other)):
            self.leave(repositories=self.repository("acme/app", it))
            self.waits("it hasn't compared acme/app yet")
        self.leave(repositories=self.repository("acme/app", Repository(0, self.ago(901))))
        self.waits("it hasn't compared acme/app for more than 900 seconds")
        self.leave(repositories=self.repository("acme/app", Repository(1, self.now)))
        self.waits("the gate hasn't answered yet what it is told of acme/app")
        self.leave(repositories={**self.repository("acme/app", Repository(0, self.ago(890))),
                                 "acme/site": Repository(7, None)})
        self.assertIsNone(self.why())

    def test_a_gate_that_has_lost_what_the_adapter_told_is_waited_for(self) -> None:
        self.leave()
        self.gate.taken.clear()
        self.assertIsNone(self.waits("it hasn't seen yet that the gate was restored"))
        # The adapter sees it and tells again, but what it has compared before says nothing.
        self.gate.taken[LAST] = {}
        since = self.waits("it hasn't compared acme/lib since the gate was restored")
        assert since is not None
        self.leave(repositories={it: Repository(0, since) for it in self.left.repositories})
        self.assertEqual(self.waits("it hasn't compared acme/lib since the gate was restored"), since)
        after = Moment(since.boot, since.uptime + 0.001)
        self.leave(repositories={it: Repository(0, after) for it in self.left.repositories})
        self.assertIsNone(self.why())

    def test_a_gate_that_has_lost_what_the_lander_told_is_waited_for(self) -> None:
        self.leave()
        self.notes.put("last core", OWN)
        since = self.waits("it hasn't compared acme/lib since the gate was restored")
        assert since is not None
        self.leave(repositories={it: Repository(0, Moment.now()) for it in self.left.repositories})
        self.assertIsNone(self.why())
        # Restored once more, by which the adapter's last one is lost too: so it has to compare once more.
        self.gate.taken.clear()
        self.waits("it hasn't seen yet that the gate was restored")
        self.leave(last=None)
        self.waits("it hasn't compared acme/lib since the gate was restored")
        self.leave(repositories={it: Repository(0, Moment.now()) for it in self.left.repositories})
        self.assertIsNone(self.why())


class Landed(Case):
    """A lander over repositories, behind a gate that was restored: it shows the order of what was withdrawn."""

    def setUp(self) -> None:
        super().setUp()
        for name in ("lib", "app"):
            origin = Origin(self.folder / f"{name}.git")
            base = origin.commit({"file": "one"})
            origin.name("refs/heads/main", base)
            origin.revision(103, 1, origin.commit({"more": "two"}, base))
            if name == "lib":
                self.origin, self.base = origin, base
        self.gate.shown = [Order("core", 3, "lib", 103, 1)]
        self.lander = self.start()
        self.lander.begin()

    def start(self) -> QueueLander:
        answers = Answers(self.settings.folder)
        return QueueLander("core", self.settings, self.gate, self.notes, answers)  # type: ignore[arg-type]

    def carry_out(self, done: Callable[[], Any] = lambda: None) -> None:
        self.lander.carry_out(self.gate.shown[0])

    def head(self) -> str:
        return self.origin.git("rev-parse", "main")

    def test_what_was_withdrawn_is_not_landed_but_refused_once_the_adapter_has_compared(self) -> None:
        self.leave()
        self.gate.taken.clear()
        for _ in range(2):
            with self.assertRaisesRegex(Waits, "it hasn't seen yet that the gate was restored"):
                self.carry_out()
        self.leave(last=None, repositories={it: Repository(1, None) for it in self.left.repositories})
        with self.assertRaisesRegex(Waits, "it hasn't compared acme/lib yet"):
            self.carry_out()
        self.assertEqual((self.gate.told, self.head()), ([], self.base))
        self.leave(repositories={it: Repository(0, Moment.now()) for it in self.left.repositories},
                   refuse={103: "its approval was taken back"})
        self.carry_out()
        self.assertEqual(([it["kind"] for it in self.gate.told], self.head()), (["refused"], self.base))
        self.assertEqual(answers_in(answers_file(self.settings.folder)).refused,
                         (Refusal(103, 1, "its approval was taken back"),))

    def test_what_still_stands_lands_once_the_adapter_has_compared(self) -> None:
        with self.assertRaisesRegex(Waits, f"it hasn't left {self.file} yet"):
            self.carry_out()
        self.assertEqual(self.head(), self.base)
        self.leave()
        self.carry_out()
        self.assertEqual([it["kind"] for it in self.gate.told], ["landed"])
        self.assertNotEqual(self.head(), self.base)


if __name__ == "__main__":
    unittest.main()
