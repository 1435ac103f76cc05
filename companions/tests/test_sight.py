"""For how long the adapter has been blind, and that a repository which it can't see holds up no other."""
from __future__ import annotations

import contextlib
import dataclasses
import io
from unittest import mock

from companions.answers import Answers
from companions.api import ForgeFault
from companions.compared import Compared, Repository, Waits, file_in, read, write
from companions.forges import Listed, Place
from companions.gate import Order, QueueStatus, Status
from companions.lander import QueueLander
from companions.moments import Moment
from companions.outbox import Notes
from companions.requests import Request, State
from companions.settings import read as read_settings
from companions.sight import Sight
from companions.tests.adapter_case import Case
from companions.tests.forge import Origin
from companions.tests.lander_case import GateOfAScene

SITE = """
[[project]]
name = "site"
queue = "web"
repository = "{folder}/site.git"
forge = "acme/site"
"""


class SceneOfTwo(GateOfAScene):
    def status(self) -> Status:
        return Status([QueueStatus(name, 4, sum(it.queue == name for it in self.landed), [])
                       for name in ("core", "web")], [])


class SightTest(Case):
    def setUp(self) -> None:
        super().setUp()
        self.notes = Notes(self.folder / "watch.db")
        self.sight = Sight(self.settings, self.notes, "watch")

    def look(self, uptime: float, boot: str = "one") -> dict[str, int]:  # type: ignore[override]
        return self.sight.look(Moment(boot, uptime))

    def leave(self, looked: Moment | None) -> None:
        write(file_in(self.settings.folder), Compared(None, None, {"acme/lib": Repository(0, looked, looked)}, {}))

    def test_it_is_blind_since_it_saw_a_repository(self) -> None:
        self.leave(Moment("one", 100.0))
        self.assertEqual((self.look(100.9), self.look(1000.0)), ({"acme/lib": 0}, {"acme/lib": 900}))
        before = len(self.lines())
        self.assertEqual([self.look(it)["acme/lib"] for it in (1001.0, 1002.0)], [901, 902])
        self.leave(Moment("one", 1002.5))
        self.assertEqual((self.look(1003.0), self.look(1004.0)), ({"acme/lib": 0}, {"acme/lib": 1}))
        self.assertEqual(self.lines()[before:], [
            "watch: acme/lib: the adapter hasn't seen it for 901 seconds, so nothing lands in core and web: its own"
            " lines say why", "watch: acme/lib: the adapter sees it again"])

    def test_what_was_never_seen_counts_from_the_first_look(self) -> None:
        self.assertEqual((self.look(100.0), self.look(700.0)), ({"acme/lib": 0}, {"acme/lib": 600}))
        self.sight = Sight(self.settings, self.notes, "watch")
        self.assertEqual(self.look(701.0), {"acme/lib": 601})
        self.leave(None)
        self.assertEqual(self.look(702.0), {"acme/lib": 602})
        self.assertEqual((self.look(50.0, "two"), self.look(51.0, "two")), ({"acme/lib": 0}, {"acme/lib": 1}))
        self.leave(Moment("one", 10.0))
        self.assertEqual(self.look(52.0, "two"), {"acme/lib": 2})

    def test_without_an_adapter_nobody_is_blind(self) -> None:
        self.sight = Sight(dataclasses.replace(self.settings, adapter=None), self.notes, "watch")
        self.assertEqual(self.look(100.0), {})
        self.leave(Moment("one", 40.0))
        self.assertEqual(self.look(100.0), {"acme/lib": 60})


class LookedTest(Case):
    """What the adapter leaves of what it saw."""

    def looked(self) -> Moment | None:
        left = read(file_in(self.settings.folder))
        assert left is not None
        return left.repositories["acme/lib"].looked

    def test_a_comparison_in_which_nothing_could_be_seen_is_none_that_saw(self) -> None:
        self.assertEqual(self.look(), [])
        empty = self.looked()
        self.assertIsNotNone(empty)
        places = [self.be(12, 0), self.be(13, 1)]
        self.look()
        both = self.looked()
        self.assertNotEqual(both, empty)
        self.forge.broken.update(places)
        for _ in range(4):
            self.look()
        self.assertEqual(self.looked(), both)
        self.forge.broken.remove(places[0])
        self.look()
        self.assertNotEqual(self.looked(), both)


class TwoQueuesTest(Case):
    """Two repositories, each with a queue of its own and a lander, at one adapter."""

    def setUp(self) -> None:
        super().setUp()
        file = self.folder / "companions.toml"
        file.write_text(file.read_text().replace('queue = "web"', 'queue = "old"') + SITE.format(folder=self.folder))
        self.settings = read_settings(file)
        self.site = Origin(self.folder / "site.git")
        base = self.site.commit({"a": "1"})
        self.site.name("refs/heads/main", base)
        for origin, onto in ((self.site, base), (self.origin, self.base)):
            origin.revision(103, 1, origin.commit({"a": "1", "b": "2"}, onto))
        self.now = 1000.0
        self.enterContext(mock.patch.object(Moment, "now", staticmethod(lambda: Moment("one", self.now))))
        self.hidden = set[str]()
        listed = self.forge.open_requests

        def open_requests(repository: str) -> dict[int, Listed]:
            if repository in self.hidden:
                raise ForgeFault("GET /pulls: status 401")
            return listed(repository)

        self.forge.open_requests = open_requests  # type: ignore[assignment]
        self.start()
        self.scene = SceneOfTwo()
        self.landers = {}
        for queue in ("core", "web"):
            notes = Notes(self.folder / f"{queue}.db")
            answers = Answers(self.settings.folder)
            self.landers[queue] = QueueLander(
                queue, self.settings, self.scene, notes, answers)  # type: ignore[arg-type]
            self.landers[queue].begin()

    def carry_out(self, queue: str, project: str) -> None:
        """A lander gets an order of its queue."""
        self.scene.file, self.scene.taken = list(self.gate.accepted)[0], {it: {} for it in self.gate.accepted}
        self.scene.shown = [Order(queue, 3, project, 103, 1)]
        self.scene.landed.clear()
        with contextlib.redirect_stderr(io.StringIO()):
            self.landers[queue].carry_out(self.scene.shown[0])

    def test_one_that_cannot_be_seen_stops_its_own_queue(self) -> None:
        self.be(12, 0)
        self.look()
        self.hidden = {"acme/lib"}
        for _ in range(4):
            self.now += 300.0
            self.look()
        with self.assertRaisesRegex(Waits, "it hasn't compared acme/lib for more than 900 seconds"):
            self.carry_out("core", "lib")
        self.carry_out("web", "site")
        self.assertEqual([it.project for it in self.scene.landed], ["site"])
        sight = Sight(self.settings, Notes(self.folder / "watch.db"), "watch")
        self.assertEqual(sight.look(Moment.now()), {"acme/lib": 1200, "acme/site": 0})
        self.assertIn("acme/lib: GET /pulls: status 401", self.said.getvalue())
        self.assertIn("Land change 103", self.site.git("log", "-1", "--format=%s", "main"))
        self.hidden = set()
        self.look()
        self.carry_out("core", "lib")
        self.assertEqual([it.project for it in self.scene.landed], ["lib"])

    def test_its_list_is_asked_for_again_by_itself(self) -> None:
        asked: list[str] = []
        listed = self.forge.open_requests

        def open_requests(repository: str) -> dict[int, Listed]:
            asked.append(repository)
            return listed(repository)

        self.forge.open_requests = open_requests  # type: ignore[assignment]
        self.hidden = {"acme/lib"}
        for second in range(0, 1000, 10):
            self.adapter.once(float(second))
        self.assertEqual((asked.count("acme/site"), asked.count("acme/lib")), (4, 7))
        self.hidden = set()
        self.adapter.once(2000.0)
        self.adapter.once(2001.0)
        self.assertEqual((asked.count("acme/site"), asked.count("acme/lib")), (5, 8))

    def test_a_comparison_that_takes_long_becomes_whole(self) -> None:
        """Of many requests those at which the forge fails end each round, and rest while the next one would be due."""
        self.adapter.compare = 20.0
        for number in range(12, 20):
            place = Place("acme/lib", number)
            self.forge.requests[place] = Request("acme/lib", number, State.OPEN, self.commits[0], "main", "Title", "")
            self.forge.broken.add(place)
        for second in range(0, 400, 10):
            self.adapter.once(float(second))
        left = read(file_in(self.settings.folder))
        assert left is not None
        self.assertEqual(left.repositories["acme/lib"].began, Moment("one", self.now))
        self.assertIsNone(left.repositories["acme/lib"].looked)


if __name__ == "__main__":
    import unittest
    unittest.main()
