"""What the gate writes at a forge of each form: how much of it the forge takes, and hooks about it."""
from __future__ import annotations

import json
import unittest
from unittest import mock

from companions.api import ForgeFault, Full
from companions.forges import SUCCESS, Forge, Limits, Owned, Place
from companions.requests import State
from companions.tests.forges.case import LIB, ONE, TWO, Case
from companions.tests.forges.hooks import Hook

# GitHub's answer where a commit has 1,000 statuses of one context.
FULL = ('{"message":"Validation Failed","errors":[{"resource":"Status","code":"custom","message":"This SHA and context'
        ' has reached the maximum number of statuses."}]}')


class EachFormWrites:
    client: Forge

    def place_of(self, hook: Hook) -> Place | None:
        return self.client.place_of(hook.headers, hook.body)

    def test_a_hook_about_what_the_gate_wrote_is_about_no_request(self) -> None:
        waiting = self.forge.hooks.waiting
        number = self.client.comment(self.place, None, "waits")
        self.client.comment(self.place, number, "tests")
        self.client.set_status(LIB, ONE, SUCCESS, "landed")
        self.assertEqual([(it.what, self.place_of(it)) for it in waiting[1:]],
                         [("commented", None), ("comment edited", None)])
        # An adapter that was started anew knows its comment's number, and hears of the hook before the answer.
        self.client = self.forge.client()
        self.model.listeners.append(lambda *_: heard.append(self.place_of(waiting[-1])))
        heard: list[Place | None] = []
        self.client.comment(self.place, number, "landed")
        self.assertEqual(heard, [None])

    def test_a_hook_about_a_copy_of_it_or_another_comment_is_about_its_request(self) -> None:
        self.client.comment(self.place, None, "waits")
        copied = self.model.comments(self.place, "gate-bot")[0].text
        self.model.comment(self.place, "mallory", copied)
        self.model.comment(self.place, "gate-bot", "/gate approve")
        self.model.comment(self.place, "gate-bot", f"{copied}\n/gate approve")
        self.assertEqual([self.place_of(it) for it in self.forge.hooks.waiting[2:]], [self.place] * 3)
        self.assertEqual(self.place_of(self.forge.hooks.waiting[0]), self.place)

    def test_what_it_knows_of_its_own_comments_is_bounded(self) -> None:
        owned = self.client.owned = Owned(3)
        places = [self.place, *(self.model.open(LIB, TWO, "main", "One more") for _ in range(4))]
        numbers = [self.client.comment(it, None, "waits") for it in places]
        self.assertEqual([*owned.numbers], numbers[2:])
        # One that is used stays, and one that was forgotten is asked for once more.
        for at, calls in ((2, 1), (0, 2), (2, 1), (3, 2), (0, 1)):
            self.forge.server.asked.clear()
            self.assertEqual(self.client.comment(places[at], numbers[at], f"tests {len(owned.numbers)}"), numbers[at])
            self.assertEqual(len(self.forge.server.asked), calls, at)
            self.assertEqual(len(owned.numbers), 3)
        self.model.comment(self.place, "mallory", "Well")
        other = self.model.comments(self.place, "mallory")[0]
        number = other.note if self.kind == "gitlab" else other.id
        self.assertEqual((self.client.comment(self.place, number, "landed"), number in owned), (numbers[0], False))

    def test_a_request_is_closed_where_it_is_open_with_that_head(self) -> None:
        self.assertEqual((self.client.close(self.place, TWO), self.asked().state), (False, State.OPEN))
        self.assertEqual((self.client.close(self.place, ONE), self.asked().state), (True, State.CLOSED))
        self.assertFalse(self.client.close(self.place, ONE))
        self.assertFalse(self.client.close(Place(LIB, 9), ONE))
        self.model.reopen(self.place)
        self.model.merge(self.place, "ann")
        self.assertEqual((self.client.close(self.place, ONE), self.asked().state), (False, State.MERGED))
        self.assertEqual(self.client.leaves_open, self.kind == "gitea")

    def test_limits(self) -> None:
        self.assertEqual(self.client.limits, Limits(60, 400, 1000) if self.kind == "github" else Limits(60, None, None))


class GitHubWritesTest(EachFormWrites, Case):
    kind = "github"

    def test_a_commit_that_takes_no_more_statuses(self) -> None:
        self.enterContext(mock.patch("companions.tests.forges.model.MOST_STATUSES", 2))
        for text in ("waits", "tests"):
            self.client.set_status(LIB, ONE, SUCCESS, text)
        self.assertRaises(Full, self.client.set_status, LIB, ONE, SUCCESS, "landed")
        json.loads(FULL)
        for status, said, kind in ((422, FULL, Full), (422, '{"message":"No commit found for SHA"}', ForgeFault),
                                   (500, FULL, ForgeFault)):
            with self.subTest(status=status), mock.patch.object(self.client.api, "call",
                                                                side_effect=ForgeFault("POST", status, said[:200])):
                with self.assertRaises(ForgeFault) as raised:
                    self.client.set_status(LIB, ONE, SUCCESS, "landed")
                self.assertEqual(type(raised.exception), kind)


class GiteaWritesTest(EachFormWrites, Case):
    kind = "gitea"

    def test_a_request_that_is_seen_as_merged_meanwhile_is_not_closed(self) -> None:
        """Gitea's EditPullRequest answers so."""
        self.enterContext(mock.patch.object(self.client, "outline", return_value=self.client.outline(self.place)))
        self.enterContext(mock.patch.object(self.client.api, "call", side_effect=ForgeFault("PATCH", 412)))
        self.assertFalse(self.client.close(self.place, ONE))


class GitLabWritesTest(EachFormWrites, Case):
    kind = "gitlab"


if __name__ == "__main__":
    unittest.main()
