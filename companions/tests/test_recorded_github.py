"""What api.github.com has answered PyGithub over the years, read by the adapter. What is expected is read of the same
recordings another way: by other members of them, or by their text."""
from __future__ import annotations

import contextlib
import io
import json
import re
import time
import unittest
from datetime import datetime, timezone
from typing import Any
from urllib.parse import urlsplit

from companions.api import KINDS, Api, ForgeFault, Unread
from companions.forges import SUCCESS, Place, time_of
from companions.requests import State
from companions.tests.recorded.case import ORIGIN, RecordedCase, place_in
from companions.tests.recorded.readers import github_answers, is_json
from companions.tests.recorded.replay import Answer
from companions.tokens import HEADER, Ending

# One review in the text of a list: who, what, when and of which commit, in the order in which GitHub writes them.
REVIEW = re.compile(r'"user":\{"login":"([^"]+)","id":(\d+).*?"state":"(\w+)".*?"submitted_at":"([^"]+)"'
                    r'(?:,"commit_id":"(\w+)")?')
SAYS = {"APPROVED": True, "CHANGES_REQUESTED": False, "DISMISSED": None}
# The recorded refusals after which nothing is asked for a minute.
REFUSED = {"Authentication.testAuthorizationHeaderWithLogin", "Authentication.testAuthorizationHeaderWithToken",
           "Exceptions.testBadAuthentication",
           "SpecificExceptions.test2FARequired", "SpecificExceptions.testAuthenticatedRateLimitExceeded",
           "SpecificExceptions.testBadCredentials", "SpecificExceptions.testRateLimitExceeded"}
MOVED = (301, 302, 307, 308)
# Where an Enterprise Server has its API.
ENTERPRISE = "/api/v3"


class PyGithubCase(RecordedCase):
    packages = ("pygithub",)

    def of(self, pattern: str, method: str = "GET", status: int = 200) -> list[Answer]:
        """The answers to a path, whatever is asked of it, and whichever address the API had."""
        found = [Answer(it.file, it.method, it.path.removeprefix(ENTERPRISE), it.status, it.content, it.headers)
                 for it in github_answers() if (it.method, it.status) == (method, status)]
        return [it for it in found if re.fullmatch(pattern, it.path.partition("?")[0])]

    def alone(self, it: Answer, said: Any = None) -> Answer:
        """An answer as that to its path alone, with other content if some is given."""
        content = it.content if said is None else json.dumps(said)
        return Answer(it.file, it.method, it.path.partition("?")[0], it.status, content)


class RequestsTest(PyGithubCase):
    def test_pull_requests(self) -> None:
        found = self.of(r"/repos/[^/]+/[^/]+/pulls/\d+")
        for it in found:
            said, place = json.loads(it.content), place_in(it.path)
            with self.subTest(it.file, place=place):
                so = self.github(it).request(place)
                state = State.MERGED if said["merged_at"] else State(said["state"])
                self.assertEqual((so.state, so.target, so.title, so.text, so.is_draft, so.votes),
                                 (state, said["base"]["label"].partition(":")[2], said["title"], said["body"] or "",
                                  '"draft":true' in it.content.replace(" ", ""), ()))
                self.assertIn(f"/statuses/{so.head}", said.get("statuses_url") or f"/statuses/{said['head']['sha']}")
        self.assertEqual(len(found), 27)

    def test_lists_of_reviews(self) -> None:
        """Two lists, and two reviews that were given, each as a list of its own."""
        path, votes = r"/repos/.*/pulls/\d+/reviews", 0
        found = [*self.of(path), *(Answer(it.file, "GET", it.path, 200, f"[{it.content}]")
                                   for it in self.of(path, "POST"))]
        for it in found:
            opinions = list(self.github(it).reviews(place_in(it.path), Unread()))
            wanted = [(who, int(number), SAYS[state], commit, time_of(at))
                      for who, number, state, at, commit in REVIEW.findall(it.content) if state in SAYS]
            self.assertEqual([(one.vote.person, one.vote.account, one.vote.approves, one.vote.commit, one.at)
                              for one in opinions], wanted, it.file)
            votes += len(wanted)
        self.assertEqual((len(found), votes), (4, len(re.findall('"state":"(?:APPROVED|DISMISSED|CHANGES_REQUESTED)"',
                                                                 "".join(it.content for it in found)))))

    def test_comments(self) -> None:
        """All that were written, as if each of them were an approval."""
        found, count = self.of(r"/repos/[^/]+/[^/]+/issues/\d+/comments"), 0
        for it in found:
            rows, place = json.loads(it.content), place_in(it.path)
            self.assertEqual(list(self.github(self.alone(it)).comments(place, Unread())), [])
            meant = self.alone(it, [{**row, "body": "/gate approve"} for row in rows])
            wanted = [(row["user"]["login"], row["user"]["id"], row["created_at"],
                       row["updated_at"] != row["created_at"]) for row in rows]
            self.assertEqual([(one.vote.person, one.vote.account, one.at, bool(one.vote.flaw))
                              for one in self.github(meant).comments(place, Unread())],
                             [(who, number, time_of(at), is_edited) for who, number, at, is_edited in wanted], it.file)
            count += len(wanted)
        self.assertEqual((len(found), count > 10), (5, True))

    def test_events(self) -> None:
        """None of the recorded ones is of another target branch, or of a push that was forced."""
        found = self.of(r"/repos/[^/]+/[^/]+/issues/\d+/events")
        for it in found:
            self.assertEqual(list(self.github(self.alone(it)).changes(place_in(it.path), Unread())), [])
            named = json.dumps(json.loads(it.content)[0]["event"])
            forced = self.alone(it, json.loads(it.content.replace(named, '"head_ref_force_pushed"')))
            wanted = [("head_ref_force_pushed", time_of(row["created_at"])) for row in json.loads(forced.content)
                      if row["event"] == "head_ref_force_pushed"]
            self.assertEqual(list(self.github(forced).changes(place_in(it.path), Unread())), wanted)
            self.assertTrue(wanted)
        self.assertEqual(len(found), 3)

    def test_rights_and_accounts(self) -> None:
        path = r"/repos/[^/]+/[^/]+/collaborators/([^/]+)/permission"
        [may], [refused] = self.of(path), self.of(path, status=403)
        self.assertIs(self.github(may).may_write("PyGithub/PyGithub", "jacquev6"), True)
        self.fails(403, self.github(refused).may_write, "PyGithub/PyGithub", "lyloa")
        found = self.of("/users/[^/]+")
        for it in found:
            number, login = re.search(r'[{,]\s*"id":\s*(\d+)', it.content), it.path.rpartition("/")[2]
            if number is not None and is_json(it.content):
                self.assertEqual(self.github(it).account_of(login), int(number[1]))
            else:
                # One of them is cut, and isn't JSON any more.
                self.fails(None, self.github(it).account_of, login)
        self.assertEqual(len(found), 98)
        [missing], [away] = self.of("/users/[^/]+", status=404), self.of("/users/[^/]+", status=503)
        self.assertIsNone(self.github(missing).account_of("ThisUserShouldReallyNotExist"))
        self.fails(503, self.github(away).account_of, "jacquev6")

    def test_what_was_written(self) -> None:
        statuses = self.of(r"/repos/[^/]+/[^/]+/statuses/\w+", "POST", 201)
        for it in statuses:
            repository, commit = re.findall(r"/repos/(.*)/statuses/(\w+)", it.path)[0]
            self.github(it).set_status(repository, commit, SUCCESS, "landed")
        written = self.of(r"/repos/[^/]+/[^/]+/issues/\d+/comments", "POST", 201)
        whose = Answer("", "GET", "/user", 200, '{"id": 1}')
        for it in written:
            number = int(it.header("Location").rpartition("/")[2]) if it.header("Location") else None
            answered = self.github(it, whose).comment(place_in(it.path), None, "waits")
            self.assertIn(number, (answered, None))
        [edited] = self.of(r"/repos/[^/]+/[^/]+/issues/comments/\d+", "PATCH")
        number, owner = int(edited.path.rpartition("/")[2]), json.loads(edited.content)["user"]
        kept = Answer("", "GET", edited.path, 200, json.dumps({"id": number, "user": owner}))
        client = self.github(edited, kept, Answer("", "GET", "/user", 200, json.dumps(owner)))
        self.assertEqual(client.comment(Place("PyGithub/PyGithub", 28), number, "tests"), number)
        self.assertEqual((len(statuses), len(written)), (2, 2))


class HttpTest(PyGithubCase):
    """What of the answers is of no kind of object."""

    def test_pages_by_links(self) -> None:
        """The lists of which each page was recorded from the first to the last."""
        chains = list(filter(None, (self.chain(it) for it in github_answers())))
        for chain in chains:
            base = chain[0].path.partition("?")[0]
            pages = [Answer(it.file, "GET", f"{base}?page={at}", 200, it.content, it.headers)
                     for at, it in enumerate(chain, 1)]
            replay = self.replay(*pages)
            rows = Api(replay.url, {}).pages(base, "per_page", True)
            wanted = list(dict.fromkeys(row["id"] for it in chain for row in json.loads(it.content)))
            self.assertEqual(([row["id"] for row in rows], len(replay.asked)), (wanted, len(chain)), chain[0].file)
        self.assertGreaterEqual(len(chains), 20)

    def chain(self, first: Answer) -> list[Answer]:
        """All pages of a list, the first one given, where all are in one recording and their elements have numbers."""
        pages, at = [first], first
        if first.method != "GET" or first.status != 200 or "page=" in first.path.replace("per_page", ""):
            return []
        while 'rel="next"' in at.header("Link"):
            there = at.header("Link").partition('>; rel="next"')[0].rpartition("<")[2].removeprefix(ORIGIN)
            found = [it for it in github_answers() if it.file == first.file and it.path == there and it not in pages]
            if not found:
                return []
            at = found[0]
            pages.append(at)
        rows = [json.loads(it.content) for it in pages] if len(pages) > 1 else []
        has_numbers = all(isinstance(it, list) and all(isinstance(row, dict) and row.get("id") for row in it)
                          for it in rows)
        return pages if rows and has_numbers else []

    def test_what_has_not_changed(self) -> None:
        """A question that was answered by 304 has the answer of before, which has to be recorded too."""
        count = 0
        for it in (it for it in github_answers() if it.status == 304):
            before = [one for one in github_answers() if (one.file, one.method, one.path, one.status) ==
                      (it.file, it.method, it.path, 200) and one.header("ETag")]
            if not before:
                continue
            api = Api(self.replay(before[0], it).url, {})
            first = api.call("GET", it.path)
            self.assertEqual((api.call("GET", it.path), first), (json.loads(before[0].content),) * 2)
            count += 1
        self.assertGreaterEqual(count, 20)

    def test_what_is_elsewhere_now(self) -> None:
        """A repository with another name is found by its number; nothing is asked of another server."""
        followed = 0
        for it in (it for it in github_answers() if it.status in MOVED and it.method == "GET"):
            there = urlsplit(it.header("Location"))
            found = [one for one in github_answers() if (one.file, one.status, one.path) == (it.file, 200, there.path)]
            is_here = f"{there.scheme}://{there.netloc}" == ORIGIN and not it.path.startswith(ENTERPRISE)
            if is_here and there.path != it.path and found:
                self.assertEqual(self.followed(it, found[0]), json.loads(found[0].content))
                followed += 1
            elif not is_here:
                self.fails(it.status, self.followed, it)
        self.assertGreaterEqual(followed, 3)

    def followed(self, *answers: Answer) -> Any:
        base = ENTERPRISE if answers[0].path.startswith(ENTERPRISE) else ""
        with contextlib.redirect_stderr(io.StringIO()):
            return Api(self.replay(*answers).url + base, {}).call("GET", answers[0].path.removeprefix(base))

    def test_when_tokens_end(self) -> None:
        """Each end that was recorded, once: it is told of within a week before, and not earlier."""
        found = {it.header(HEADER): it for it in github_answers() if it.header(HEADER)}
        for said, it in found.items():
            day, clock, zone = said.split(" ")
            at = datetime.fromisoformat(f"{day}T{clock}{zone.replace('UTC', '+0000')}")
            told_of = f"the token ends at {at.astimezone(timezone.utc):%Y-%m-%d %H:%M} UTC, in 10 hours"
            for hours, line in ((10, told_of), (7 * 24 + 1, "")):
                api, told = Api(self.replay(it).url, {}), io.StringIO()
                api.ending = Ending(lambda now=at.timestamp() - hours * 3600: now)
                with contextlib.redirect_stderr(told), contextlib.suppress(ForgeFault):
                    api.call(it.method, it.path)
                self.assertEqual(told.getvalue().partition(": make")[0].removeprefix("adapter: "), line, said)
        self.assertEqual(len(found), 30)

    def test_refusals(self) -> None:
        """Each is a fault of its status; some of them are of all that could be asked."""
        seen = set[str]()
        for it in (it for it in github_answers() if it.status >= 400):
            api = Api(self.replay(it).url, {})
            self.fails(it.status, api.call, it.method, it.path)
            now = time.monotonic()
            ends = [api.resting, *(until for name, (until, _) in api.refusals.of_name.items() if name in KINDS)]
            if max(ends) > now:
                seen.add(it.file)
                self.assertAlmostEqual(max(ends) - now, 60, delta=10)
        self.assertEqual({it for it in seen if it.startswith(("SpecificE", "Exc", "Auth"))}, REFUSED)


if __name__ == "__main__":
    unittest.main()
