"""Each call of each form of forge, before a stand-in that speaks its API."""
from __future__ import annotations

import unittest
from dataclasses import replace
from datetime import timedelta
from email.message import Message

from companions.forges import ELSEWHERE, FAILURE, PENDING, PUSHED, SUCCESS, Place
from companions.gitlab import UNDECIDED
from companions.people_texts import unapproved
from companions.requests import GONE, State
from companions.tests.forges.case import LIB, ONE, TWO, Case
from companions.tests.forges.model import GATE, Status


class EachForm:
    """What holds for each form."""

    def test_a_request_as_it_is(self) -> None:
        it = self.asked()
        self.assertEqual((it.repository, it.number, it.state, it.head, it.target, it.title, it.text, it.votes),
                         (LIB, 1, State.OPEN, ONE, "main", "Add one", "", ()))
        self.model.edit(self.place, "Add two", "Words\r\n\r\nDepends-On: #7")
        self.model.push(self.place, TWO)
        self.model.retarget(self.place, "next/one")
        it = self.asked()
        self.assertEqual((it.head, it.target, it.title, it.text),
                         (TWO, "next/one", "Add two", "Words\r\n\r\nDepends-On: #7"))

    def test_states(self) -> None:
        for act, state in ((self.model.close, State.CLOSED), (self.model.reopen, State.OPEN),
                           (lambda place: self.model.merge(place, "lander"), State.MERGED)):
            act(self.place)
            self.assertEqual(self.asked().state, state)

    def test_a_draft(self) -> None:
        self.assertFalse(self.asked().is_draft)
        self.model.draft(self.place, True)
        self.assertTrue(self.asked().is_draft)

    def test_there_is_none(self) -> None:
        self.assertIsNone(self.client.request(Place(LIB, 2)))
        self.assertIsNone(self.client.request(Place("acme/other", 1)))

    def test_approvals_are_of_the_head_they_were_made_at(self) -> None:
        self.model.approve(self.place, "ann")
        self.model.push(self.place, TWO)
        self.model.approve(self.place, "ben")
        self.assertEqual(self.votes(), [("ann", True, ONE), ("ben", True, TWO)])
        self.model.push(self.place, ONE)
        self.assertEqual(self.votes(), [("ann", True, ONE), ("ben", True, TWO)])

    def test_comments_approve_by_their_whole_text(self) -> None:
        self.model.comment(self.place, "cy", "I'd say /gate approve\n> /gate approve\n")
        self.assertEqual((self.votes(), self.flaws()), ([], []))
        for text in ("Well\r\n /gate approve \r\nthanks", "```\n/gate approve\n```", "<!--\n/gate approve\n-->",
                     "> So:\n/gate approve", "/gate approve\n/gate approve"):
            said = self.model.comment(self.place, "ann", text)
            self.assertEqual((self.votes(), self.flaws()), ([], [("ann", "wrote more than the line /gate approve")]))
            self.model.delete_comment(self.place, said)
        said = self.model.comment(self.place, "ann", "\r\n\t /gate approve \r\n")
        self.assertEqual(self.votes(), [("ann", True, self.of_comment(ONE))])
        self.model.push(self.place, TWO)
        other = self.model.comment(self.place, "ben", "/gate approve")
        self.model.edit_comment(self.place, said, "I'm not sure")
        self.assertEqual(self.votes(), [("ben", True, self.of_comment(TWO))])
        self.model.delete_comment(self.place, other)
        self.assertEqual(self.votes(), [])

    def test_what_was_approved_at_another_target_branch_is_not_approved_at_this_one(self) -> None:
        self.model.retarget(self.place, "topic")
        self.model.approve(self.place, "ann")
        self.model.comment(self.place, "ben", "/gate approve")
        self.model.comment(self.place, "ben", "changed target branch from `a` to `b`")
        self.assertEqual([it[0] for it in self.votes()], ["ann", "ben"])
        self.model.reject(self.place, "cy")
        self.model.retarget(self.place, "main")
        self.assertEqual(self.flaws(), [(it, ELSEWHERE) for it in ("ann", "ben")])
        self.assertEqual(self.votes(), [] if self.kind == "gitlab" else [("cy", False, ONE)])
        self.model.comment(self.place, "ann", "/gate approve")
        self.assertIn("ann", [it[0] for it in self.votes()])

    def test_a_comment_is_of_no_head_that_was_pushed_behind_it(self) -> None:
        """Somebody shows another commit for a while, has it approved and pushes the first one back."""
        self.model.push(self.place, TWO)
        self.model.comment(self.place, "ann", "/gate approve")
        self.assertEqual(self.votes(), [("ann", True, self.of_comment(TWO))])
        self.model.push(self.place, ONE)
        self.assertEqual((self.votes(), self.flaws()), ([("ann", True, TWO)], []) if self.kind == "gitlab" else
                         ([], [("ann", PUSHED)]))
        self.model.comment(self.place, "ann", "/gate approve")
        self.assertEqual(self.votes()[-1], ("ann", True, self.of_comment(ONE)))

    def test_an_edited_comment_is_no_vote(self) -> None:
        said = self.model.comment(self.place, "ann", "Well, no")
        self.model.edit_comment(self.place, said, "/gate approve")
        self.assertEqual((self.votes(), self.flaws()),
                         ([], [("ann", "approved by a comment that somebody has edited")]))
        self.model.comment(self.place, "ann", "/gate approve")
        self.assertEqual(len(self.votes()), 1)
        self.model.edit_comment(self.place, self.model.comments(self.place, "ann")[1], "/gate approve\n")
        self.assertEqual((self.votes(), len(self.flaws())), ([], 2))

    def test_an_edit_within_the_second_of_a_comment_shows_at_gitlab_alone(self) -> None:
        self.model.pace = timedelta(milliseconds=10)
        said = self.model.comment(self.place, "ann", "Well, no")
        self.model.edit_comment(self.place, said, f"/gate approve {ONE}")
        self.assertEqual(self.votes(), [] if self.kind == "gitlab" else [("ann", True, ONE)])

    def test_each_vote_is_an_object_of_its_own_and_stays_it(self) -> None:
        self.model.approve(self.place, "ann")
        self.model.comment(self.place, "ann", "/gate approve")
        first = [it.object for it in self.asked().votes]
        self.model.comment(self.place, "ben", "/gate approve")
        self.model.push(self.place, TWO)
        self.model.approve(self.place, "cy")
        second = [it.object for it in self.asked().votes]
        self.assertEqual((len(set(first)), len(set(second)), second[:2]), (2, 4, first))

    def test_what_was_taken_back_brings_nothing_earlier_back(self) -> None:
        self.model.comment(self.place, "ann", "/gate approve")
        self.model.approve(self.place, "ann")
        first = self.asked().votes[-1]
        self.model.approve(self.place, "ben")
        self.model.dismiss(self.place, "ann")
        self.assertEqual(self.votes(), [("ben", True, ONE)])
        self.model.approve(self.place, "ann")
        self.assertEqual(self.votes(), [("ben", True, ONE), ("ann", True, ONE)])
        self.assertNotEqual(self.asked().votes[-1].object, first.object)

    def test_the_forge_may_drop_approvals_at_a_new_head(self) -> None:
        self.model.keeps_approvals = False
        self.model.approve(self.place, "ann")
        self.model.push(self.place, TWO)
        self.assertEqual(self.votes(), [])
        self.model.approve(self.place, "ann")
        self.assertIn(("ann", True, TWO), self.votes())

    def test_lists_come_by_pages_of_any_size(self) -> None:
        for _ in range(129):
            self.model.open(LIB, TWO, "main", "One more")
        self.model.close(Place(LIB, 60))
        for n in range(60):
            self.model.comment(self.place, "ann", f"{n}")
            self.model.approve(self.place, f"person {n}")
        self.model.comment(self.place, "ben", "/gate approve")
        for cap in (100, 50, 7):
            self.forge.form.cap = cap
            found = list(self.client.open_requests(LIB))
            self.assertEqual(sorted(found), [it for it in range(1, 131) if it != 60])
            wanted = [(f"person {n}", True, ONE) for n in range(60)]
            self.assertEqual(self.votes(), [*wanted, ("ben", True, self.of_comment(ONE))])

    def test_a_look_doesnt_ask_much(self) -> None:
        self.model.approve(self.place, "ann")
        self.model.comment(self.place, "ben", "/gate approve")
        self.forge.server.asked.clear()
        self.assertEqual(len(self.votes()), 2)
        # Gitea's lists end with a page that brings nothing.
        self.assertLessEqual(len(self.forge.server.asked), 7 if self.kind == "gitea" else 4)

    def test_an_outline_is_one_call(self) -> None:
        self.model.approve(self.place, "ann")
        so = self.asked()
        self.forge.server.asked.clear()
        self.assertEqual(self.client.outline(self.place), replace(so, votes=()))
        self.assertIsNone(self.client.outline(Place(LIB, 2)))
        self.assertEqual(len(self.forge.server.asked), 2)

    def test_a_request_has_an_author_and_an_address(self) -> None:
        form = self.forge.form
        self.assertEqual(self.asked().author, "ann")
        self.assertEqual(f"{form.web}/{LIB}{self.client.requests_at}{self.place.number}", form.address(self.place))

    def test_a_hidden_list_isnt_an_empty_one(self) -> None:
        self.fails(404, lambda: list(self.client.open_requests("acme/other")))
        self.assertEqual(list(self.client.open_requests(LIB)), [1])
        self.model.close(self.place)
        self.assertEqual(list(self.client.open_requests(LIB)), [])

    def test_statuses(self) -> None:
        for state in (PENDING, SUCCESS, PENDING, FAILURE, FAILURE, PENDING):
            self.assertIs(self.client.set_status(LIB, ONE, state, "ä" * 300), True)
            status = self.model.status(LIB, ONE)
            self.assertEqual(status.state, state)
            self.assertTrue(status.text == UNDECIDED or set(status.text) == {"ä"})
        self.assertIsNone(self.model.status(LIB, TWO))
        self.fails(404 if self.kind == "gitlab" else 422, self.client.set_status, LIB, TWO, PENDING, "waits")

    def test_a_comment_is_kept_up_to_date(self) -> None:
        self.model.comment(self.place, "ann", "Words")
        number = self.client.comment(self.place, None, "waits")
        self.assertEqual(self.client.comment(self.place, number, "tests"), number)
        [said] = self.model.comments(self.place, GATE)
        self.assertRegex(said.text, "^tests\n\n<!-- gate [0-9a-f]{32} -->$")
        self.model.delete_comment(self.place, said)
        other = self.client.comment(self.place, number, "has landed")
        self.assertNotEqual(other, number)
        self.assertEqual(self.shown(), ["has landed"])

    def shown(self) -> list[str]:
        """What people see of the gate's comments."""
        return [it.text.partition("\n\n<!--")[0] for it in self.model.comments(self.place, GATE)]

    def test_an_unknown_comment_is_found_again(self) -> None:
        """The answer to the first one got lost. Who quotes it, or copies another request's, has another one."""
        for n in range(60):
            self.model.comment(self.place, "ann", f"{n}")
        self.model.open(LIB, TWO, "main", "Add two")
        self.client.comment(Place(LIB, 2), None, "waits")
        [elsewhere] = self.model.comments(Place(LIB, 2), GATE)
        self.model.comment(self.place, "ann", elsewhere.text)
        # Whose account it is, is asked once, and two pages are looked through before.
        self.client.api.account()
        self.forge.server.plan = ["", "", "cut"]
        self.fails(None, self.client.comment, self.place, None, "waits")
        [said] = self.model.comments(self.place, GATE)
        number = self.client.comment(self.place, None, "waits")
        self.model.comment(self.place, "ann", f"{said.text}\nYes")
        self.assertEqual(self.client.comment(self.place, None, "tests"), number)
        self.assertEqual(self.shown(), ["tests"])
        self.model.delete_comment(self.place, said)
        self.assertNotEqual(self.client.comment(self.place, None, "has landed"), number)
        self.assertEqual(len(self.model.comments(self.place, "ann")), 62)

    def test_the_gate_doesnt_approve(self) -> None:
        self.client.comment(self.place, None, "Write this to approve:\n\n/gate approve")
        self.assertEqual(self.votes(), [])

    def test_somebody_who_copies_the_mark_has_a_comment_of_his_own(self) -> None:
        number = self.client.comment(self.place, None, "waits")
        [said] = self.model.comments(self.place, GATE)
        copied = self.model.comment(self.place, "mallory", said.text)
        self.model.delete_comment(self.place, said)
        other = self.client.comment(self.place, number, "tests")
        self.assertEqual(self.shown(), ["tests"])
        # The number of another's comment, as an earlier version may have kept it.
        kept = copied.note if self.kind == "gitlab" else copied.id
        self.assertEqual(self.client.comment(self.place, kept, "has landed"), other)
        self.assertEqual((self.shown(), self.model.comments(self.place, "mallory")), (["has landed"], [copied]))
        self.assertTrue(copied.text.startswith("waits"))

    def test_no_comment_where_none_can_be(self) -> None:
        self.fails(404, self.client.comment, Place(LIB, 9), None, "waits")

    def test_who_may_write(self) -> None:
        may = {it: self.client.may_write(LIB, it) for it in ("ann", "ben", "cy", "an", "nobody", "a/b?c")}
        self.assertEqual(may, {"ann": True, "ben": True, "cy": False, "an": False, "nobody": False, "a/b?c": False})

    def test_accounts(self) -> None:
        self.model.approve(self.place, "ann")
        self.model.comment(self.place, "ben", "/gate approve")
        numbers = [self.client.account_of(it) for it in ("ann", "Ben")]
        self.assertEqual([it.account for it in self.asked().votes], numbers)
        self.assertEqual(len({*numbers, self.client.account_of("cy")}), 3)
        self.assertIsNone(self.client.account_of("nobody"))
        self.model.give_up("ann")
        self.assertNotIn(self.client.account_of("ann"), numbers)

    def test_a_head_has_a_name_in_git(self) -> None:
        wanted = "refs/merge-requests/7/head" if self.kind == "gitlab" else "refs/pull/7/head"
        self.assertEqual(self.client.head_ref(7), wanted)

    def test_hooks_say_where_to_look(self) -> None:
        self.model.push(self.place, TWO)
        self.model.edit(self.place, text="Words")
        self.model.approve(self.place, "ann")
        self.model.comment(self.place, "ann", "Words")
        for act in (self.model.close, self.model.reopen, lambda place: self.model.merge(place, "lander")):
            act(self.place)
        told = self.forge.hooks.waiting
        self.assertEqual([it.what for it in told], ["opened", "pushed", "edited", "approved", "commented", "closed",
                                                    "reopened", "merged"])
        for hook in told:
            headers = Message()
            for name, value in hook.headers.items():
                headers[name.lower()] = value
            self.assertEqual(self.client.place_of(headers, hook.body), self.place)

    def test_hooks_of_others_arent_read(self) -> None:
        hook = self.forge.hooks.waiting[0]
        names = [it for it in hook.headers if "Signature" in it or "Token" in it]
        for value in ("", "0" * 64, f"sha256={'0' * 64}", "a secreT", "a secretx", "ä"):
            with self.assertRaises(PermissionError):
                self.client.place_of({**hook.headers, **dict.fromkeys(names, value)}, hook.body)
        with self.assertRaises(PermissionError):
            self.client.place_of({}, b"[" * 100000)
        with self.assertRaises(ValueError):
            type(self.client)(self.forge.url, "a token", "")


class GitHubTest(EachForm, Case):
    kind = "github"

    def test_rejections_count_in_order(self) -> None:
        self.model.comment(self.place, "ann", "/gate approve")
        self.model.reject(self.place, "ann")
        self.model.comment(self.place, "ben", "/gate approve")
        self.assertEqual([it[:2] for it in self.votes()], [("ann", True), ("ann", False), ("ben", True)])
        self.model.dismiss(self.place, "ann")
        self.assertEqual([it[:2] for it in self.votes()], [("ben", True)])
        self.model.comment(self.place, "ann", "/gate approve")
        self.assertEqual([it[:2] for it in self.votes()], [("ben", True), ("ann", True)])

    def test_within_a_second_a_rejection_is_the_later_one(self) -> None:
        self.model.pace = timedelta(milliseconds=10)
        self.model.reject(self.place, "ann")
        self.model.comment(self.place, "ann", "/gate approve")
        self.assertEqual([it[:2] for it in self.votes()], [("ann", True), ("ann", False)])

    def test_a_review_whose_commit_is_gone_is_of_none(self) -> None:
        self.model.approve(self.place, "ann")
        self.model.push(self.place, TWO)
        self.model.lose(self.place, ONE)
        self.assertEqual(self.votes(), [("ann", True, GONE)])

    def test_the_line_in_a_review_approves_nothing_and_is_answered(self) -> None:
        self.model.review(self.place, "ann", "Nice.\n/gate approve")
        self.model.review(self.place, "ben", "Nice.")
        self.assertEqual((self.votes(), self.flaws()),
                         ([], [("ann", "wrote /gate approve in a review and not in a comment")]))

    def test_whose_account_is_deleted_has_no_vote(self) -> None:
        self.model.approve(self.place, "")
        self.model.comment(self.place, "", "/gate approve")
        self.assertEqual(self.votes(), [])

    def test_texts_are_short(self) -> None:
        self.client.set_status(LIB, ONE, PENDING, "a" * 200)
        self.assertEqual(self.model.status(LIB, ONE), Status(LIB, ONE, "pending", "a" * 140))


class GiteaTest(GitHubTest):
    kind = "gitea"

    def test_an_objection_that_was_begun_before_an_approval_and_given_behind_it_is_behind_it(self) -> None:
        begun = self.model.now
        self.model.comment(self.place, "ann", "/gate approve")
        self.model.reject(self.place, "ann").begun = begun
        self.assertEqual([it[:2] for it in self.votes()], [("ann", True), ("ann", False)])
        self.model.approve(self.place, "ann")
        self.assertEqual([it[:2] for it in self.votes()][-1], ("ann", True))


class GitLabTest(EachForm, Case):
    kind = "gitlab"

    def test_a_pending_status_is_set_once_and_never_untrue(self) -> None:
        for text in ("waits", "tests"):
            self.assertIs(self.client.set_status(LIB, ONE, PENDING, text), True)
        self.assertEqual(self.model.statuses, [Status(LIB, ONE, "pending", UNDECIDED)])
        # It is true where there is no comment yet.
        self.assertTrue(UNDECIDED.startswith(unapproved(None).status))
        self.client.set_status(LIB, ONE, FAILURE, "unit failed")
        self.assertEqual(self.model.status(LIB, ONE), Status(LIB, ONE, "failure", "unit failed"))

    def test_a_fork_has_no_status(self) -> None:
        self.model.open(LIB, TWO, "main", "From a fork", is_fork=True)
        # So nobody was told of its commit.
        for state in (PENDING, SUCCESS, FAILURE):
            self.assertIs(self.client.set_status(LIB, TWO, state, "landed"), False)
        self.assertEqual(self.model.statuses, [])

    def test_groups_have_groups(self) -> None:
        self.model.add("acme/core/lib", "ann")
        place = self.model.open("acme/core/lib", ONE, "main", "Add one")
        self.assertEqual(self.client.request(place).head, ONE)
        self.assertEqual(list(self.client.open_requests("acme/core/lib")), [1])

    def test_a_person_who_takes_it_back_takes_all_back(self) -> None:
        """A system note is GitLab's alone: who writes the same words says nothing."""
        self.model.approve(self.place, "ann")
        self.model.comment(self.place, "ann", "approved this merge request")
        self.model.comment(self.place, "ann", "/gate approve")
        self.model.comment(self.place, "ann", "unapproved this merge request")
        self.assertEqual(self.votes(), [("ann", True, ONE)] * 2)
        self.model.dismiss(self.place, "ann")
        self.assertEqual(self.votes(), [])


if __name__ == "__main__":
    unittest.main()
