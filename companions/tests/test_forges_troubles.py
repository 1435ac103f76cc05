"""A forge of each form in trouble: with long texts, or it fails, refuses, wants a pause, moves what it has, is slow or
away."""
from __future__ import annotations

import contextlib
import io
import re
import time
import unittest
from collections.abc import Iterator
from datetime import timedelta
from unittest import mock

from companions.api import KINDS, PAGE, Unread
from companions.forges import SUCCESS, Forge, Opinion, Place
from companions.github import UNREVIEWED
from companions.gitlab import UNLISTED, UNSURE
from companions.tests.forges import StandInForge
from companions.tests.forges.case import LIB, ONE, TWO, Case
from companions.tests.forges.model import Status


class EachFormInTrouble:
    client: Forge

    def test_long_comments_of_others_hide_no_vote(self) -> None:
        self.model.approve(self.place, "ann")
        self.model.comment(self.place, "ben", "/gate approve")
        for _ in range(60):
            self.model.comment(self.place, "mallory", "x" * 9000)
        self.enterContext(mock.patch("companions.api.LARGEST", 40_000))
        both = [("ann", True, ONE), ("ben", True, self.of_comment(ONE))]
        # All comments of a request at Gitea are one answer.
        is_whole = self.kind == "gitea"
        self.assertEqual((self.votes(), self.asked().is_cut), (both[:1] if is_whole else both, is_whole))
        for _ in range(60):
            self.model.comment(self.place, "mallory", "x" * 9000)
        self.model.draft(self.place, True)
        self.forge.server.asked.clear()
        so = self.asked()
        self.assertLess(len(self.forge.server.asked), 120)
        self.assertEqual((so.is_draft, so.is_cut), (True, True))
        self.assertEqual(self.votes(), both if self.kind == "github" else both[:1])
        self.assertEqual(self.flaws(), [("ben", UNSURE)] if self.kind == "gitlab" else [])

    def test_a_look_asks_for_a_hundred_smaller_pages_in_all(self) -> None:
        """And comments use up none that reviews need."""
        for _ in range(20):
            self.model.review(self.place, "mallory", "x" * 9000)
        self.model.approve(self.place, "ann")
        for _ in range(120):
            self.model.comment(self.place, "mallory", "x" * 9000)
        self.enterContext(mock.patch("companions.api.LARGEST", 40_000))
        self.forge.server.asked.clear()
        so = self.asked()
        sizes = [int(it[1]) for it in (re.search(r"(?:per_page|limit)=(\d+)", target)
                                       for _, target in self.forge.server.asked) if it]
        self.assertEqual(sum(it < PAGE for it in sizes), 100)
        # What was done is read too, but where it has all comments in it.
        self.assertEqual((so.is_cut, [(it.person, it.flaw, it.is_unplaced) for it in so.votes]),
                         (True, [("ann", None, self.kind != "github")]))

    def test_a_comment_that_is_too_long_itself_is_left_out(self) -> None:
        self.model.approve(self.place, "ann")
        self.model.comment(self.place, "mallory", "x" * 50_000)
        self.model.comment(self.place, "ben", "/gate approve")
        self.enterContext(mock.patch("companions.api.LARGEST", 40_000))
        self.assertTrue(self.asked().is_cut)
        self.assertEqual([it[0] for it in self.votes()], ["ann", "ben"] if self.kind == "github" else ["ann"])
        number = self.client.comment(self.place, None, "waits")
        self.assertEqual(self.client.comment(self.place, number, "tests"), number)

    def test_long_texts_of_requests_hide_none(self) -> None:
        for _ in range(60):
            self.model.open(LIB, TWO, "main", "One more", "x" * 9000)
        self.enterContext(mock.patch("companions.api.LARGEST", 40_000))
        self.assertEqual(sorted(self.client.open_requests(LIB)), list(range(1, 62)))

    def test_so_many_long_texts_of_requests_hide_some_and_stop_nothing(self) -> None:
        """Anybody may open a request. Those that the gate was told of are asked for one by one."""
        for _ in range(120):
            self.model.open(LIB, TWO, "main", "One more", "x" * 9000)
        with mock.patch("companions.api.LARGEST", 40_000), mock.patch("companions.api.say") as said:
            for _ in range(2):
                self.forge.server.asked.clear()
                listed = len(self.client.open_requests(LIB))
                self.assertTrue(0 < listed < 121, listed)
                self.assertLess(len(self.forge.server.asked), 110)
        said.assert_called_once()
        self.assertIn(f"{LIB}: its open requests are too many, or their texts too long", said.call_args.args[1])
        self.assertEqual(sorted(self.client.open_requests(LIB)), list(range(1, 122)))
        self.model.open(LIB, TWO, "main", "One more", "x" * 9000)
        with mock.patch("companions.api.LARGEST", 40_000), mock.patch("companions.api.say") as said:
            self.client.open_requests(LIB)
        said.assert_called_once()

    def vote_around(self, short: int) -> None:
        """An approval, so many short texts, some that are too long together, an objection and a comment."""
        self.model.approve(self.place, "ann")
        for size in (*[10] * short, *[9000] * 5):
            self.model.review(self.place, "mallory", "x" * size)
        self.model.reject(self.place, "ben")
        self.model.comment(self.place, "cy", "/gate approve")
        self.enterContext(mock.patch("companions.api.LARGEST", 40_000))

    def test_a_page_that_is_too_large_of_a_forge_that_gives_fewer_than_are_asked_for(self) -> None:
        """As a Gitea whose MAX_RESPONSE_ITEMS is small: five pages of ten are more than one of its own."""
        self.vote_around(11)
        self.forge.form.cap = 12
        # GitLab lists no objections.
        objection = [] if self.kind == "gitlab" else [("ben", False)]
        self.assertEqual([it[:2] for it in self.votes()], [("ann", True), *objection, ("cy", True)])
        self.assertFalse(self.asked().is_cut)
        # The newest come first.
        for size in (*[9000] * 6, *[10] * 12):
            self.model.open(LIB, TWO, "main", "One more", "x" * size)
        self.assertEqual(sorted(self.client.open_requests(LIB)), list(range(1, 20)))

    def test_smaller_pages_are_not_believed_of_a_forge_that_gives_fewer_than_ten(self) -> None:
        self.vote_around(6)
        self.forge.form.cap = 7
        so = self.asked()
        if self.kind == "gitlab":
            self.assertEqual((so.is_cut, so.votes[0].is_unplaced, self.flaws()), (True, True, [("cy", UNSURE)]))
        else:
            self.assertEqual(self.flaws(), [(it, UNREVIEWED) for it in ("ann", "cy")])
        for size in (*[9000] * 6, *[10] * 7):
            self.model.open(LIB, TWO, "main", "One more", "x" * size)
        with mock.patch("companions.api.say") as said:
            self.assertLess(len(self.client.open_requests(LIB)), 14)
        said.assert_called_once()

    def test_a_forge_in_trouble_says_nothing(self) -> None:
        server = self.forge.server
        self.model.approve(self.place, "ann")
        calls = [lambda: self.client.request(self.place), lambda: list(self.client.open_requests(LIB)),
                 lambda: self.client.set_status(LIB, ONE, SUCCESS, "landed"), lambda: self.client.may_write(LIB, "ann"),
                 lambda: self.client.comment(self.place, None, "landed"),
                 lambda: self.client.comment(self.place, 1, "landed")]
        for call in calls:
            for trouble, status in (("fail", 500), ("cut", None)):
                server.plan = [trouble]
                self.fails(status, call)
        # Each answer that a look at a request needs may be missing.
        for before in range(3):
            server.plan = [*[""] * before, "cut"]
            self.fails(None, self.client.request, self.place)
        self.fails(401, self.forge.client(token="another").request, self.place)

    def test_a_forge_that_wants_a_pause_gets_one(self) -> None:
        server, api = self.forge.server, self.client.api
        # By the time of the forge, which its header `Date` says.
        soon = str(int(server.form.model.now.timestamp()) + 100)
        for limits, pause in (({"Retry-After": "60"}, 60), ({"Retry-After": "99999"}, 3600),
                              ({"Retry-After": "Fri, 31 Dec 9999 23:59:59 GMT"}, 3600),
                              ({"Retry-After": "Mon, 01 Jan 2024 00:00:00 GMT"}, 60),
                              ({"Retry-After": "soon"}, 60), ({}, 60), ({"X-RateLimit-Reset": soon}, 100),
                              ({"Retry-After": "9" * 5000}, 3600),
                              ({"X-RateLimit-Remaining": "0", "X-RateLimit-Reset": soon}, 100),
                              ({"RateLimit-Remaining": "0", "RateLimit-Reset": soon}, 100),
                              ({"X-RateLimit-Remaining": "1", "X-RateLimit-Reset": soon}, 60),
                              ({"X-RateLimit-Remaining": "0", "X-RateLimit-Reset": "5"}, 60)):
            with self.subTest(limits):
                server.plan, server.limits, api.resting = ["limit"], limits, 0.0
                api.refusals.of_name.clear()
                self.fails(429, self.client.request, self.place)
                self.assertAlmostEqual(self.pause(), pause, delta=5)
        server.asked.clear()
        fault = self.fails(None, self.client.request, self.place)
        self.assertIn("not asked, since the forge wants a pause", str(fault))
        self.assertEqual(server.asked, [])
        api.resting = 0.0
        api.refusals.end_all()
        self.assertEqual(self.asked().number, self.place.number)

    def pause(self) -> float:
        """For how long the forge isn't asked now."""
        api = self.client.api
        ends = [api.resting, *(until for name, (until, _) in api.refusals.of_name.items() if name in KINDS)]
        return max(0.0, max(ends) - time.monotonic())

    def test_a_forge_that_refuses_is_asked_less_and_less_often(self) -> None:
        server, api = self.forge.server, self.client.api
        for trouble in ("limit", "secondary"):
            for pause in (60, 120, 240, 480, 960, 1920, 3600, 3600):
                server.plan = [trouble]
                self.fails(429 if trouble == "limit" else 403, self.client.request, self.place)
                self.assertAlmostEqual(self.pause(), pause, delta=5)
                api.refusals.end_all()
            self.assertEqual((self.asked().number, self.pause()), (self.place.number, 0.0))
        other = self.client
        self.client = self.forge.client(token="ended")
        self.fails(401, self.client.request, self.place)
        self.assertAlmostEqual(self.pause(), 60, delta=5)
        self.client = other

    def test_a_right_that_is_missing_stops_nothing_else(self) -> None:
        server, api = self.forge.server, self.client.api
        server.plan = ["forbid"]
        self.fails(403, self.client.set_status, LIB, ONE, SUCCESS, "landed")
        self.assertEqual(self.asked().number, self.place.number)
        server.asked.clear()
        self.fails(403, self.client.set_status, LIB, ONE, SUCCESS, "landed")
        self.assertEqual(server.asked, [])
        for pause in (60, 120, 240, 480, 960, 1920, 3600, 3600):
            [(until, _)] = api.refusals.of_name.values()
            self.assertAlmostEqual(until - time.monotonic(), pause, delta=5)
            api.refusals.end_all()
            server.plan = ["forbid"]
            self.fails(403, self.client.set_status, LIB, ONE, SUCCESS, "landed")
        api.refusals.end_all()
        self.client.set_status(LIB, ONE, SUCCESS, "landed")
        self.assertEqual(api.refusals.of_name, {})

    def test_a_clock_that_is_set_stops_nothing(self) -> None:
        """It was three days ahead while the forge failed, or refused, with a pause of a minute or without."""
        server, ahead = self.forge.server, time.time() + 3 * 86400
        for trouble, status, limits in (("fail", 500, {}), ("limit", 429, {"Retry-After": "60"}), ("limit", 429, {})):
            self.client, server.plan, server.limits = self.forge.client(), [trouble], limits
            with mock.patch("companions.api.time.time", lambda: ahead):
                self.fails(status, self.client.request, self.place)
            minute = time.monotonic() + 61
            with mock.patch("companions.api.time.monotonic", lambda at=minute: at):
                self.assertEqual(self.asked().number, self.place.number)

    def test_a_repository_that_has_another_name_now_is_followed(self) -> None:
        server, told = self.forge.server, io.StringIO()
        slash = "%2F" if self.kind == "gitlab" else "/"
        server.moved = f"acme{slash}old", f"acme{slash}lib"
        with contextlib.redirect_stderr(told):
            so = self.client.request(Place("acme/old", 1))
            self.client.request(Place("acme/old", 1))
            self.assertEqual(list(self.client.open_requests("acme/old")), [1])
            self.client.set_status("acme/old", ONE, SUCCESS, "landed")
        self.assertEqual((so and so.head, self.model.statuses), (ONE, [Status(LIB, ONE, "success", "landed")]))
        lines = told.getvalue().splitlines()
        self.assertEqual(len(lines), 1, lines)
        self.assertIn("if its repository has another name, give that to project.forge", lines[0])
        kind = self.forge.form.prefix + ("/projects/" if self.kind == "gitlab" else "/repos/")
        for old, other, status in ((kind, "http://127.0.0.1:9/", 301), (f"acme{slash}very", f"acme{slash}very", None)):
            server.moved = old, other
            with contextlib.redirect_stderr(io.StringIO()):
                self.fails(status, self.client.set_status, "acme/very", ONE, SUCCESS, "landed")

    def test_a_slow_forge_isnt_waited_for(self) -> None:
        self.forge.server.delay = 0.5
        self.fails(None, self.forge.client(timeout=0.1).request, self.place)
        self.assertEqual(self.forge.client(timeout=5).request(Place(LIB, 9)), None)

    def test_a_forge_that_is_away(self) -> None:
        with StandInForge(self.kind) as other:
            client = other.client()
        self.fails(None, client.request, self.place)


class GitHubInTroubleTest(EachFormInTrouble, Case):
    kind = "github"

    def test_long_comments_use_up_no_more_than_their_part_of_an_hour_s_calls(self) -> None:
        self.enterContext(mock.patch("companions.api.LARGEST", 40_000))
        self.client.api.most_smaller = 60
        places = [self.place, *(self.model.open(LIB, TWO, "main", "One more") for _ in range(4))]
        for place in places:
            for _ in range(55):
                self.model.comment(place, "mallory", "x" * 9000)
            self.model.approve(place, "ann")
        self.forge.server.asked.clear()
        found = [self.client.request(it) for it in (*places, *places)]
        self.assertEqual([it and [vote.person for vote in it.votes] for it in found], [["ann"]] * 10)
        self.assertTrue(found[-1] and found[-1].is_cut)
        sizes = [int(it[1]) for it in (re.search(r"per_page=(\d+)", target)
                                       for _, target in self.forge.server.asked) if it]
        self.assertEqual(sum(it < PAGE for it in sizes), 60)
        # The list of requests is read nevertheless.
        for _ in range(60):
            self.model.open(LIB, TWO, "main", "One more", "x" * 9000)
        self.assertEqual(len(self.client.open_requests(LIB)), 65)
        # An hour later there are some again.
        self.model.comment(self.place, "ben", "/gate approve")
        self.assertEqual(self.votes(), [("ann", True, ONE)])
        with mock.patch("companions.rests.HOUR", 0.0):
            self.assertEqual([it[0] for it in self.votes()], ["ann", "ben"])

    def test_long_reviews_use_up_no_more_than_their_part_either(self) -> None:
        """And none of what comments have. Where it is used up, a review may be against each request that has long ones.
        """
        self.enterContext(mock.patch("companions.api.LARGEST", 40_000))
        self.client.api.most_smaller = 60
        other = self.model.open(LIB, TWO, "main", "One more")
        for place in (self.place, other):
            self.model.approve(place, "ann")
        self.forge.server.asked.clear()
        found = []
        for _ in range(15):
            for _ in range(5):
                self.model.review(self.place, "mallory", "x" * 9000)
            found.append([(it.person, it.flaw) for it in self.asked().votes])
        sizes = [int(it[1]) for it in (re.search(r"per_page=(\d+)", target)
                                       for _, target in self.forge.server.asked) if it]
        self.assertEqual(sum(it < PAGE for it in sizes), 60)
        self.assertEqual((found[0], found[-1]), ([("ann", None)], []))
        for _ in range(55):
            self.model.comment(other, "mallory", "x" * 9000)
        self.model.comment(other, "ben", "/gate approve")
        so = self.client.request(other)
        self.assertEqual(so and [(it.person, it.flaw) for it in so.votes], [("ann", None)])
        self.assertGreater(sum("per_page=1&" in target for _, target in self.forge.server.asked), 60 - 10)

    def test_an_objection_that_comes_while_long_comments_are_read_is_seen(self) -> None:
        self.model.approve(self.place, "ann")
        for _ in range(60):
            self.model.comment(self.place, "mallory", "x" * 9000)
        self.enterContext(mock.patch("companions.api.LARGEST", 40_000))
        comments = self.client.comments

        def read(place: Place, unread: Unread) -> Iterator[Opinion]:
            yield from comments(place, unread)
            self.model.reject(self.place, "ben")

        self.enterContext(mock.patch.object(self.client, "comments", read))
        self.assertEqual([it[:2] for it in self.votes()], [("ann", True), ("ben", False)])


class GiteaInTroubleTest(EachFormInTrouble, Case):
    kind = "gitea"


class GitLabInTroubleTest(EachFormInTrouble, Case):
    kind = "gitlab"

    def list_heads(self, many: int) -> None:
        """The request has had so many, two on a page, the newest first."""
        form, at = self.forge.form, self.model.now
        rows = [{"id": n, "head_commit_sha": TWO if n % 2 else ONE, "created_at": form.time(at + timedelta(seconds=n))}
                for n in range(many)]
        form.cap = 2
        self.enterContext(mock.patch.object(form, "versions", lambda question: form.listed(rows[::-1], question)))
        self.model.wait(many + 1)

    def asked_for_heads(self) -> int:
        asked = self.forge.server.asked
        return sum("/versions" in target for _, target in asked)

    def test_who_pushes_without_end_has_nothing_approved_that_names_no_commit(self) -> None:
        self.list_heads(200)
        self.model.approve(self.place, "ann")
        self.model.comment(self.place, "ben", "/gate approve")
        named = self.model.comment(self.place, "ben", f"/gate approve {ONE}")
        self.assertEqual(self.votes(), [("ann", True, TWO), ("ben", True, TWO), ("ben", True, ONE)])
        self.list_heads(1000)
        self.forge.server.asked.clear()
        so = self.asked()
        self.assertEqual(self.asked_for_heads(), 100)
        held = [(it.object, it.flaw) for it in so.votes if it.flaw != UNLISTED]
        self.assertEqual(held, [(f"note {named.note}", None)])
        self.assertEqual((len(so.votes), so.is_cut), (3, False))

    def test_whose_login_is_a_part_of_many_others_has_a_hundred_pages_read(self) -> None:
        form = self.forge.form
        rows = [{"id": n, "username": f"an{n}", "access_level": 30} for n in range(1000)]
        form.cap = 2
        self.enterContext(mock.patch.object(form, "members", lambda question: form.listed(rows, question)))
        self.assertFalse(self.client.may_write(LIB, "an"))
        self.assertEqual(len(self.forge.server.asked), 100)
        self.assertTrue(self.client.may_write(LIB, "an1"))

    def test_heads_are_asked_for_once_a_look(self) -> None:
        """Also where the forge has looked at none yet."""
        self.list_heads(0)
        for _ in range(5):
            self.model.comment(self.place, "ben", "/gate approve")
        self.asked()
        self.assertEqual(self.asked_for_heads(), 1)


if __name__ == "__main__":
    unittest.main()
