"""A forge of each form as recorded answers show it: its headers, objects, words, rights and limits; and what the
adapter makes of them."""
from __future__ import annotations

import contextlib
import http.client
import io
import json
import time
import unittest
import urllib.parse
from dataclasses import dataclass
from typing import Any
from unittest import mock

from companions.adapter import LAG
from companions.api import KINDS
from companions.forges import PENDING, SUCCESS
from companions.tests import adapter_case
from companions.tests.forges import StandInForge
from companions.tests.forges.case import LIB, ONE, TWO, Case
from companions.tests.forges.model import GATE
from companions.tests.forges.server import FORBIDDEN

# What stands in the header with the token, by form; the first is the adapter's own.
TOKENS = {"github": ("Authorization: Bearer ", "Authorization: token "),
          "gitea": ("Authorization: token ", "Authorization: Bearer "),
          "gitlab": ("Private-Token: ", "Authorization: Bearer ")}
UNKNOWN = {"github": "Bad credentials", "gitea": "invalid username, password or token", "gitlab": "401 Unauthorized"}
TYPES = {"github": "application/json; charset=utf-8", "gitea": "application/json;charset=utf-8",
         "gitlab": "application/json"}


@dataclass(frozen=True)
class Heard:
    """An answer."""
    status: int
    headers: dict[str, str]
    said: Any


class ShapeCase(Case):
    """A forge, and whoever asks it without the adapter."""

    def setUp(self) -> None:
        super().setUp()
        self.forge.form.tokens |= {"ann's": "ann", "cy's": "cy"}
        self.pull = self.path("/projects/acme%2Flib/merge_requests/1", f"/repos/{LIB}/pulls/1")
        self.talk = self.path(f"{self.pull}/notes", f"/repos/{LIB}/issues/1/comments")

    def path(self, gitlab: str, other: str) -> str:
        return gitlab if self.kind == "gitlab" else other

    def ask(self, method: str, path: str, said: Any = None, token: str = "a token", header: str = "") -> Heard:
        """Asks by the path behind the API's address, or by a whole address."""
        url = urllib.parse.urlsplit(path if path.startswith("http") else self.forge.url + path)
        name, _, before = (header or TOKENS[self.kind][0]).partition(": ")
        connection = http.client.HTTPConnection(url.hostname or "", url.port, timeout=30)
        with contextlib.closing(connection):
            connection.request(method, f"{url.path}?{url.query}", None if said is None else json.dumps(said),
                               {name: before + token})
            answer = connection.getresponse()
            content = answer.read()
            return Heard(answer.status, dict(answer.getheaders()), json.loads(content) if content else None)

    def comment_at(self, number: int) -> str:
        return self.path(f"{self.talk}/{number}", f"/repos/{LIB}/issues/comments/{number}")

    def number(self, entry: Any) -> int:
        return entry.note if self.kind == "gitlab" else entry.id


class EachShape:
    def test_what_comes_says_what_it_is(self) -> None:
        for path, status in ((self.pull, 200), (self.talk, 200), (self.pull + "9", 404)):
            heard = self.ask("GET", path)
            self.assertEqual((heard.status, heard.headers["Content-Type"]), (status, TYPES[self.kind]))

    def test_tokens_come_in_two_ways_and_a_wrong_one_is_told_so(self) -> None:
        for header in TOKENS[self.kind]:
            self.assertEqual(self.ask("GET", self.pull, header=header).status, 200)
            heard = self.ask("GET", self.pull, token="ended", header=header)
            self.assertEqual((heard.status, heard.said["message"]), (401, UNKNOWN[self.kind]))
        fault = self.fails(401, self.forge.client(token="ended").request, self.place)
        self.assertIn(UNKNOWN[self.kind], str(fault))

    def test_who_may_write_edits_what_others_wrote(self) -> None:
        said = self.model.comment(self.place, "ben", "Well")
        where, kind = self.comment_at(self.number(said)), "PUT" if self.kind == "gitlab" else "PATCH"
        self.assertEqual(self.ask(kind, where, {"body": "No"}, "cy's").status, 403)
        self.assertEqual(said.text, "Well")
        heard = self.ask(kind, where, {"body": "/gate approve"}, "ann's")
        self.assertEqual((heard.status, heard.said["body"], said.person), (200, "/gate approve", "ben"))
        self.assertGreater(heard.said["updated_at"], heard.said["created_at"])
        self.assertEqual((self.votes(), self.flaws()),
                         ([], [("ben", "approved by a comment that somebody has edited")]))

    def test_what_the_gate_has_kept_of_somebody_else_is_not_edited(self) -> None:
        said = self.model.comment(self.place, "ben", "Well")
        number = self.client.comment(self.place, self.number(said), "waits")
        self.assertEqual((said.text, [self.number(it) for it in self.model.comments(self.place, GATE)]),
                         ("Well", [number]))
        # Another adapter, as after a start, has the number alone.
        self.assertEqual(self.forge.client().comment(self.place, number, "tests"), number)

    def test_objects_say_when_they_changed_and_where_they_are(self) -> None:
        first = self.ask("GET", self.pull).said
        self.model.comment(self.place, "ben", "Well")
        second = self.ask("GET", self.pull).said
        self.assertGreater(second["updated_at"], first["updated_at"])
        whole = self.path("/projects/acme%2Flib", f"/repos/{LIB}")
        links = self.ask("GET", whole).said
        where = links["_links"]["self"] if self.kind == "gitlab" else links["url"]
        self.assertEqual(self.ask("GET", where).said, links)
        if self.kind != "gitlab":
            self.assertEqual(self.ask("GET", second["_links"]["self"]["href"]).said, second)
            self.assertEqual([it["url"] for it in self.ask("GET", second["comments_url"]).said],
                             [f"{self.forge.url}{self.comment_at(1)}"])

    def test_a_repository_has_a_number(self) -> None:
        self.model.add("acme/app", "ann")
        numbers = {name: self.model.repositories[name] for name in (LIB, "acme/app")}
        self.assertEqual(len(set(numbers.values())), 2)
        if self.kind == "gitea":
            return
        way = self.path(f"/projects/{numbers[LIB]}/merge_requests", f"/repositories/{numbers[LIB]}/pulls")
        self.assertEqual(self.ask("GET", f"{way}/1").said, self.ask("GET", self.pull).said)
        for _ in range(7):
            self.model.open(LIB, TWO, "main", "One more")
        heard = self.ask("GET", f"{way}?per_page=3&page=2")
        self.assertEqual(set(links_of(heard)), {"prev", "next", "last"})
        self.assertEqual(len(self.ask("GET", links_of(heard)["last"]).said), 2)

    def test_a_repository_that_was_renamed_is_looked_at_by_its_old_name(self) -> None:
        self.model.rename(LIB, "acme/library")
        with contextlib.redirect_stderr(io.StringIO()):
            so = self.client.request(self.place)
            self.assertEqual((so and so.head, list(self.client.open_requests(LIB))), (ONE, [1]))
            # GitLab refers no one who wants to write: who has asked knows where it is.
            if self.kind == "gitlab":
                self.fails(405, self.forge.client().set_status, LIB, ONE, SUCCESS, "landed")
            self.client.set_status(LIB, ONE, SUCCESS, "landed")
            number = self.client.comment(self.place, None, "landed")
            self.assertEqual(self.client.comment(self.place, number, "Landed"), number)
        self.assertEqual(self.model.status("acme/library", ONE).text, "landed")
        # Another repository has the name by now.
        self.model.former.clear()
        self.model.add(LIB, "ann")
        self.model.open(LIB, TWO, "main", "Another")
        self.assertEqual(self.asked().head, TWO)
        self.client.set_status(LIB, TWO, SUCCESS, "tested")
        self.assertEqual(self.model.status(LIB, TWO).text, "tested")

    def test_reviews_that_say_nothing_yet_are_no_votes(self) -> None:
        self.model.begin_review(self.place, GATE)
        self.model.begin_review(self.place, "ben")
        self.model.ask_review(self.place, "ann")
        self.model.review(self.place, "ben", "Well")
        self.model.approve(self.place, "cy")
        self.assertEqual(self.asked().votes, self.votes_of("cy"))
        if self.kind != "gitlab":
            states = [it["state"] for it in self.ask("GET", f"{self.pull}/reviews").said]
            self.assertEqual(states, ["PENDING", "COMMENTED", "APPROVED"] if self.kind == "github" else
                             ["PENDING", "REQUEST_REVIEW", "COMMENT", "APPROVED"])

    def votes_of(self, person: str) -> tuple[Any, ...]:
        return tuple(it for it in self.asked().votes if it.person == person and it.approves)

    def test_long_texts_are_refused(self) -> None:
        most = self.forge.form.comment_limit
        mark = len(self.ask("POST", self.talk, {"body": "x" * most}).said["body"])
        self.assertEqual(mark, most)
        self.assertIn(self.ask("POST", self.talk, {"body": "x" * (most + 1)}).status, (400, 422))
        of_commit = self.path(f"/projects/acme%2Flib/statuses/{ONE}", f"/repos/{LIB}/statuses/{ONE}")
        form, status = self.forge.form, {"state": "success", "context": "gate"}
        cases: list[tuple[str, str, dict[str, str], str, int]] = [
            ("POST", of_commit, status, "description", form.description_limit),
            (self.path("PUT", "PATCH"), self.pull, {}, "title", form.title_limit)]
        for method, where, said, name, limit in cases:
            heard = [self.ask(method, where, {**said, name: "x" * it}).status for it in (limit, limit + 1)]
            self.assertEqual([it // 100 for it in heard], [2, 4], name)
        self.fails(400 if self.kind == "gitlab" else 422, self.client.comment, self.place, None, "x" * most)

    def test_headers_say_how_many_calls_are_left(self) -> None:
        name = self.forge.form.limits_name
        heard = [self.ask(*it).headers for it in (("GET", self.pull), ("GET", self.pull + "9"),
                                                  ("POST", self.talk, {"body": "Well"}))]
        if not name:
            self.assertEqual([it for each in heard for it in each if "RateLimit" in it], [])
            return
        left = [int(it[f"{name}-Remaining"]) for it in heard]
        self.assertEqual((left[0] - left[1], left[1] - left[2]), (1, 1))
        self.assertTrue(all(int(it[f"{name}-Reset"]) > time.time() for it in heard))


def links_of(heard: Heard) -> dict[str, str]:
    """The links of an answer, by what they are."""
    parts = [it.split(">; rel=") for it in heard.headers["Link"].removeprefix("<").split(", <")]
    return {name.strip('"'): url for url, name in parts}


class GitHubShapeTest(EachShape, ShapeCase):
    kind = "github"

    def test_by_which_words_it_refuses_and_what_rests_then(self) -> None:
        """What is refused for a right rests alone, and for a limit nothing is asked."""
        alone, api, server = ("forbid", "push", "agent"), self.client.api, self.forge.server
        for trouble in FORBIDDEN:
            server.plan = [trouble]
            fault = self.fails(403, self.client.set_status, LIB, ONE, SUCCESS, "landed")
            self.assertIn(FORBIDDEN[trouble], str(fault))
            now = time.monotonic()
            is_all = api.resting > now or any(api.refusals.is_resting(it, now) for it in KINDS)
            self.assertEqual((trouble, is_all), (trouble, trouble not in alone))
            api.resting = 0.0
            api.refusals.end_all()

    def test_nothing_is_asked_until_the_hour_is_over_whose_calls_are_used_up(self) -> None:
        server, self.forge.form.hourly = self.forge.server, 6
        server.is_limited = True
        self.asked()
        self.model.comment(self.place, "ann", "Well")
        # What hasn't changed isn't counted.
        self.asked()
        self.assertEqual((server.unchanged, server.counted), (1, 5))
        self.client.set_status(LIB, ONE, PENDING, "waits")
        self.fails(403, self.client.set_status, LIB, ONE, SUCCESS, "landed")
        self.assertAlmostEqual(self.client.api.resting - time.monotonic(), 3600, delta=30)

    def test_a_commit_has_a_thousand_statuses(self) -> None:
        with mock.patch("companions.tests.forges.model.MOST_STATUSES", 3):
            for n in range(3):
                self.client.set_status(LIB, ONE, PENDING, f"{n}")
            fault = self.fails(422, self.client.set_status, LIB, ONE, SUCCESS, "landed")
        self.assertIn("This SHA and context has reached the maximum number of statuses.", str(fault))
        self.assertEqual(len(self.model.statuses), 3)


class GiteaShapeTest(EachShape, ShapeCase):
    kind = "gitea"


class GitLabShapeTest(EachShape, ShapeCase):
    kind = "gitlab"

    def test_a_request_has_no_head_at_first(self) -> None:
        self.model.prepare(self.place, False)
        heard = self.ask("GET", self.pull)
        self.assertEqual((heard.said["sha"], heard.said["merge_status"]), (None, "preparing"))
        self.fails(None, self.client.request, self.place)
        self.assertEqual(list(self.client.open_requests(LIB)), [1])
        self.model.prepare(self.place)
        self.assertEqual(self.asked().head, ONE)


class LaggingTest(adapter_case.Case):
    """An adapter before a forge that answers from a copy of its data, in which what a hook names isn't yet."""

    def start(self) -> None:
        self.there = self.enterContext(StandInForge("gitea"))
        self.forge = self.there.client()  # type: ignore[assignment]
        self.model = self.there.model
        self.model.add(LIB, "ada", "bob")
        super().start()

    def test_what_comes_behind_its_hook_is_found(self) -> None:
        place = self.model.open(LIB, self.commits[0], "main", "Add one")
        self.origin.name("refs/pull/1/head", self.commits[0])
        change = self.look(place)[0].split()[1]
        self.look()
        self.there.server.lag()
        self.model.approve(place, "ada")
        self.assertEqual(self.forge.request(place).votes, ())
        self.assertEqual(self.look(place), [])
        self.there.server.catch_up()
        self.assertEqual(self.adapter.later, {place: 1.0 + LAG})
        self.adapter.compare_at = 1000.0
        self.adapter.once(1.0 + LAG)
        told = [(it["kind"], str(it["change"])) for it in self.standin.deliveries()]
        self.assertEqual(told[-1], ("approved", change))


if __name__ == "__main__":
    unittest.main()
