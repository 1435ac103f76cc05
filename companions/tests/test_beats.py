"""Beats: their form, and what a watch makes of what it hears, at times that the tests say."""
from __future__ import annotations

import contextlib
import dataclasses
import io
import json
import tomllib
import unittest
import uuid
from pathlib import Path
from typing import Any
from unittest import mock

from companions.beating import Beating
from companions.beats import HIGHEST, MOST, Beat, Heard, beat_of
from companions.gate import NoAnswer
from companions.reader import Reader, SettingsFault
from companions.settings import Settings
from companions.tests.watch_case import WatchCase
from companions.watch import Watch, hear
from companions.watch_settings import Hearing, hearing_of

TAKE, OTHER = (str(uuid.UUID(int=it)) for it in (77, 78))
SILENT = 60.0


class Form(unittest.TestCase):
    def test_what_is_said_is_read(self) -> None:
        for it in (Beat("w1", 10.0), Beat("a.B-c_9", 0.5, TAKE, 17), Beat("w" * 64, 3600.0, TAKE, HIGHEST, True)):
            self.assertEqual(beat_of(it.text()), it)
        self.assertEqual(Beat("w1", 10.0, TAKE, 17).text().decode(), '{"worker": "w1", "every": 10.0, "take": '
                         '"00000000-0000-0000-0000-00000000004d", "build": 17, "held": false}')
        self.assertEqual(beat_of(b'{"worker":"w1","every":10}'), Beat("w1", 10.0))

    def test_what_is_none_is_refused(self) -> None:
        good: dict[str, Any] = {"worker": "w1", "every": 10.0, "take": TAKE, "build": 17, "held": False}
        wrong = {"worker": (None, 1, "", "w" * 65, "../w1", "w\n1", "wörker", ["w1"], {}),
                 "every": (None, 0, -1, 3601, True, "10", float("nan"), float("inf"), [], 10 ** 400),
                 "take": (None, 1, "", "x", TAKE + "0", [TAKE]),
                 "build": (None, 0, -1, 1.5, True, "17", HIGHEST + 1, 10 ** 400, [17]),
                 "held": (1, "true", []), "more": (1, None)}
        for member, values in wrong.items():
            for value in values:
                with self.subTest(member, value=value), self.assertRaises(ValueError):
                    beat_of(json.dumps({**good, member: value}).encode())
        for text in (b"", b"{", b"[]", b"null", b"17", b"\xff", b"[" * 1000, b'{"worker":"w1"}', b'{"every":1}',
                     b'{"worker":"w1","every":1,"held":true}'):
            with self.subTest(text), self.assertRaises(ValueError):
                beat_of(text)


class OfSettings(unittest.TestCase):
    """`watch.silent` is at least three beats of the workers in this file."""

    def hearing(self, text: str, look: float = 10.0) -> Hearing:
        return hearing_of(Reader(Path("it.toml"), "watch.", tomllib.loads(text)), look)

    def test_defaults(self) -> None:
        self.assertEqual(self.hearing(""), Hearing("127.0.0.1", 8092, 60.0, 604800.0))
        self.assertEqual(self.hearing("", 40.0).silent, 120.0)

    def test_faults(self) -> None:
        less = "watch.silent: is less than 3 times worker.look, in which a worker beats once"
        for text, said in (("silent = 29", less),
                           ("silent = 0", "watch.silent: isn't above 0"), ("held = 0", "watch.held: isn't above 0"),
                           ('listen = "8092"', "watch.listen: isn't a host and a port, as 127.0.0.1:8092"),
                           ('listen = "127.0.0.1:65536"', "watch.listen: isn't a host and a port, as 127.0.0.1:8092")):
            with self.subTest(text), self.assertRaises(SettingsFault) as raised:
                self.hearing(text)
            self.assertEqual(str(raised.exception), f"it.toml: {said}")
        self.assertEqual(self.hearing("silent = 30").silent, 30.0)


class OfAWorker(unittest.TestCase):
    """What a worker says, and when. Its waits end at once here."""

    def setUp(self) -> None:
        known = Settings("http://127.0.0.1:1", {}, Path("/nowhere"), {}, 1.0, 7.0, 30.0, 1000.0, "gate <gate@local>")
        self.beating, self.waits, self.said = Beating(known, "w1"), list[float](), list[Beat]()
        self.enterContext(mock.patch.object(self.beating.gate, "request", self.request))
        self.enterContext(mock.patch.object(self.beating.news, "wait", self.wait))

    def request(self, method: str, path: str, text: bytes) -> None:
        self.assertEqual((method, path), ("POST", "/beat"))
        self.said.append(beat_of(text))

    def wait(self, seconds: float) -> None:
        self.waits.append(seconds)
        self.beating.is_ended = len(self.waits) == 3

    def test_it_beats_once_in_worker_look_seconds(self) -> None:
        self.beating.run()
        self.assertEqual((self.waits, self.said), ([7.0] * 3, [Beat("w1", 7.0)] * 3))

    def test_each_of_its_builds_is_said_and_a_new_one_at_once(self) -> None:
        self.beating.put(TAKE, 1)
        self.assertTrue(self.beating.news.is_set())
        self.beating.news.clear()
        self.beating.put(TAKE, 1)
        self.assertFalse(self.beating.news.is_set())
        self.beating.put(OTHER, 2, True)
        self.beating.beat()
        self.assertEqual(self.said, [Beat("w1", 7.0, TAKE, 1), Beat("w1", 7.0, OTHER, 2, True)])
        with self.beating.having(TAKE, 1):
            self.beating.drop(OTHER)
        self.beating.beat()
        self.assertEqual(self.said[2:], [Beat("w1", 7.0)])

    def test_what_is_not_heard_is_said_with_the_next_one(self) -> None:
        self.beating.put(TAKE, 1)
        with mock.patch.object(self.beating.gate, "request", side_effect=NoAnswer("none")):
            self.beating.beat()
        self.beating.beat()
        self.assertEqual(self.said, [Beat("w1", 7.0, TAKE, 1)])


class OfVoices(unittest.TestCase):
    """What is heard, by a clock that the tests set."""

    def setUp(self) -> None:
        self.now = 1000.0
        self.heard = Heard(SILENT, lambda: self.now)
        self.heard.know({1: "1/101/1", 2: "2/102/1"})

    def say(self, worker: str, build: int | None = None, held: bool = False, every: float = 10.0) -> None:
        self.heard.take(Beat(worker, every, None if build is None else TAKE, build, held))

    def go(self, seconds: float, *beats: tuple[Any, ...]) -> None:
        """Time passes, in which these are said every ten seconds, the last time at its end."""
        end = self.now + seconds
        while self.now < end:
            self.now = min(self.now + 10.0, end)
            for it in beats:
                self.say(*it)

    def test_who_falls_silent_while_others_are_heard(self) -> None:
        self.say("w1", 1)
        self.go(60.0, ("w2", 2))
        self.assertEqual([self.heard.silence_of(it) for it in (1, 2)], [None, None])
        self.go(1.0, ("w2", 2))
        self.assertEqual([self.heard.silence_of(it) for it in (1, 2)], [("w1", 61.0), None])
        self.assertEqual((self.heard.count(), self.heard.deaf_for()), (1, None))

    def test_an_idle_worker_is_heard_too(self) -> None:
        self.say("w1", 1)
        self.go(61.0, ("w2",))
        self.assertEqual(self.heard.silence_of(1), ("w1", 61.0))

    def test_who_was_never_heard_is_not_silent(self) -> None:
        self.go(10000.0, ("w2", 2))
        self.assertIsNone(self.heard.silence_of(1))

    def test_where_all_are_silent_at_once_nobody_is(self) -> None:
        self.say("w1", 1)
        self.now += 9.0
        self.say("w2", 2)
        for _ in range(200):
            self.now += 1.0
            self.assertEqual([self.heard.silence_of(it) for it in (1, 2)], [None, None])
        self.assertEqual(self.heard.deaf_for(), 200.0)

    def test_who_is_heard_first_again_says_nothing_of_the_others(self) -> None:
        """Each has its whole time from then on."""
        self.say("w1", 1)
        self.say("w2", 2)
        self.now += 500.0
        self.go(60.0, ("w2", 2))
        self.assertEqual([self.heard.silence_of(1), self.heard.deaf_for()], [None, None])
        self.go(11.0, ("w2", 2))
        self.assertEqual(self.heard.silence_of(1), ("w1", 61.0))

    def test_who_beats_rarely_has_more_time(self) -> None:
        self.say("w1", 1, every=100.0)
        self.go(300.0, ("w2", 2))
        self.assertIsNone(self.heard.silence_of(1))
        self.go(10.0, ("w2", 2))
        self.assertEqual(self.heard.silence_of(1), ("w1", 310.0))

    def test_a_build_that_ends_is_forgotten(self) -> None:
        """Also where another file of the gate gives its number again."""
        self.say("w1", 1)
        self.heard.know({1: "1/103/2", 2: "2/102/1"})
        self.go(100.0, ("w2", 2))
        self.assertIsNone(self.heard.silence_of(1))
        self.assertEqual(sorted(self.heard.voices), [2])

    def test_a_beat_may_come_before_the_watch_knows_its_build(self) -> None:
        """As that of a worker whose machine dies right after it got the build."""
        self.say("w3", 3)
        self.heard.know({1: "1/101/1", 2: "2/102/1", 3: "3/103/1"})
        self.go(61.0, ("w2", 2))
        self.assertEqual(self.heard.silence_of(3), ("w3", 61.0))
        self.say("w4", 4)
        self.go(61.0, ("w2", 2))
        self.heard.know({4: "4/104/1"})
        self.assertEqual(self.heard.voices, {})

    def test_held(self) -> None:
        self.say("w1", 1, True)
        self.assertEqual([self.heard.is_held(it) for it in (1, 2)], [True, False])
        self.go(61.0, ("w2", 2))
        self.assertFalse(self.heard.is_held(1))
        self.say("w1", 1, True)
        self.say("w1", 1)
        self.assertFalse(self.heard.is_held(1))

    def test_nothing_grows_with_what_is_sent(self) -> None:
        for at in range(3 * MOST):
            self.say(f"forged-{at}", 10000 + at)
            self.say(f"forged-{at}", 1)
        self.assertEqual((len(self.heard.workers), list(self.heard.voices), len(self.heard.early)), (MOST, [1], MOST))
        self.assertEqual(self.heard.count(), MOST)


class OfTheWatch(WatchCase):
    """What it says and tells the gate. The limit of the job is 60 seconds, and the grace is 30."""

    def setUp(self) -> None:
        super().setUp()
        self.settings = dataclasses.replace(self.settings, hearing=Hearing("127.0.0.1", 0, 20.0, 500.0))
        self.begin()

    def begin(self) -> None:
        self.now = 1000.0
        self.watch.notes.tables.close()
        self.watch = Watch(self.settings, lambda: self.now)
        self.watch.hears = True

    def say(self, worker: str, build: int | None = None, held: bool = False) -> None:
        self.watch.heard.take(Beat(worker, 5.0, None if build is None else TAKE, build, held))

    def go(self, seconds: float, *beats: tuple[Any, ...]) -> str:
        """What the watch says meanwhile: it looks once a second, and these come every five."""
        said = ""
        for at in range(int(seconds)):
            self.now += 1.0
            for it in beats if at % 5 == 0 else ():
                self.say(*it)
            said += self.look(self.now)
        return said

    def test_a_build_is_lost_with_its_worker(self) -> None:
        self.gate.give(1)
        self.gate.give(2, change=102)
        self.assertEqual(self.go(10, ("w1", 1), ("w2", 2)), "")
        self.assertEqual(self.figure("gated_workers_heard"), "2")
        said = self.go(17, ("w2", 2))
        self.assertEqual(said, "watch: build 1, unit of change 101 at revision 1, has a worker, w1, that has been"
                               " silent for 21 seconds: reported as lost: noted\n")
        self.assertEqual([(it["build"], it["outcome"]) for it in self.gate.told], [(1, "lost")])
        self.assertEqual((self.figure("gated_workers_heard"), self.figure("gated_builds_lost_total")), ("1", "1"))
        self.assertEqual(self.go(30, ("w2", 2)), "")

    def test_a_watch_that_hears_nobody_times_builds_by_their_limits(self) -> None:
        self.gate.give(1)
        self.assertEqual(self.go(91), "")
        self.assertEqual(self.figure("gated_workers_heard"), "0")
        self.assertEqual(self.go(1), "watch: build 1, unit of change 101 at revision 1, ran beyond its limit: reported"
                                     " as lost: noted\n")

    def test_a_watch_that_begins_has_heard_nobody(self) -> None:
        self.gate.give(1)
        self.gate.give(2, change=102)
        self.go(10, ("w1", 1), ("w2", 2))
        now = self.now
        self.begin()
        self.now = now
        self.assertEqual(self.go(50, ("w2", 2)), "")
        self.assertEqual(self.gate.told, [])

    def test_where_all_are_silent_nothing_is_lost_and_it_is_said_once(self) -> None:
        self.gate.give(1)
        self.gate.give(2, change=102)
        self.go(10, ("w1", 1), ("w2", 2))
        self.assertEqual(self.go(50), "watch: no worker has been heard for 21 seconds, and builds run whose workers"
                                      " were: it is the watch, the proxy or the way to them, so none is reported as"
                                      " lost for that\n")
        self.assertEqual(self.go(10, ("w2", 2)), "watch: workers are heard again\n")
        self.assertEqual(self.gate.told, [])
        self.assertIn("build 1, unit of change 101 at revision 1, has a worker, w1,", self.go(20, ("w2", 2)))

    def test_a_late_beat_keeps_a_build(self) -> None:
        """It comes between the look and the report."""
        self.gate.give(1)
        self.gate.give(2, change=102)
        self.go(10, ("w1", 1), ("w2", 2))
        asks = self.watch.ask_first

        def ask(anew: bool = False) -> None:
            if anew:
                self.say("w1", 1)
            asks(anew)

        self.watch.ask_first = ask  # type: ignore[assignment]
        self.assertEqual(self.go(60, ("w2", 2)), "")
        self.assertEqual(self.gate.told, [])

    def test_a_worker_that_beats_for_ever_has_its_limit(self) -> None:
        """So has whoever knows a worker's password, and beats for a worker that is dead."""
        self.gate.give(1)
        self.assertEqual(self.go(91, ("anybody", 1)), "")
        self.assertEqual(self.go(1, ("anybody", 1)), "watch: build 1, unit of change 101 at revision 1, ran beyond its"
                                                     " limit: reported as lost: noted\n")

    def test_a_build_that_is_held_is_not_timed(self) -> None:
        self.gate.give(1)
        said = self.go(300, ("ci", 1, True))
        self.assertEqual(said, "watch: build 1, unit of change 101 at revision 1, is held by its worker: the settings"
                               " lack something, as its worker says\n")
        self.assertEqual(self.figure("gated_builds_held"), "1")
        # It has its whole limit from when it is held no longer.
        self.assertEqual(self.go(90, ("ci", 1)), "")
        self.assertEqual(self.figure("gated_builds_held"), "0")
        self.assertIn("ran beyond its limit", self.go(5, ("ci", 1)))

    def test_a_build_is_held_for_a_time_at_most(self) -> None:
        """However often it is held anew, and the watch is started again."""
        self.gate.give(1)
        self.go(300, ("ci", 1, True))
        now = self.now
        self.begin()
        self.now = now
        self.go(5, ("ci", 1))
        self.assertEqual(self.go(190, ("ci", 1, True)), "")
        self.assertIn("ran beyond its limit", self.go(200, ("ci", 1, True)))

    def test_a_port_that_another_has_is_said_once(self) -> None:
        self.watch.hears = False
        self.watch.settings = dataclasses.replace(self.settings, hearing=Hearing("127.0.0.1", self.port))
        with contextlib.redirect_stderr(io.StringIO()) as said:
            hear(self.watch)
            hear(self.watch)
        self.assertEqual(said.getvalue(), "watch: can't hear workers: nothing can listen at "
                                          f"127.0.0.1:{self.port}: [Errno 98] Address already in use\n")
        self.assertFalse(self.watch.hears)
        self.look(1001.0)
        self.assertIsNone(self.figure("gated_workers_heard"))


if __name__ == "__main__":
    unittest.main()
