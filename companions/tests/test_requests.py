"""From what is so of a request, and what was told of its change, to what has to be told."""
from __future__ import annotations

import unittest
from dataclasses import replace
from datetime import datetime, timedelta, timezone
from typing import Any

from companions.requests import (BEHIND_GAP, GONE, NO_REVISION, Request, Revision, State, Telling, Told, Vote, closing,
                                 first_seen, tellings, uncounted)

A, B = "a" * 40, "b" * 40
APPROVERS = frozenset({"ada", "bob", "eve"})

# When people were told of the last revision, by the forge's time.
NOON = datetime(2024, 5, 1, 12, tzinfo=timezone.utc)
# Two reviews and a review that objects, each of the commit A; a comment, which names none.
ADA, BOB = Vote("review 1", "ada", True, A), Vote("review 2", "bob", True, A)
EVE = Vote("review 3", "eve", False, A)
SAID = Vote("comment 4", "ada", True, None, said=NOON + timedelta(seconds=60))
FLAW = "wrote something else"

NOTHING = Told(5)
ONE = Told(5, (Revision(A, ()),), shown=NOON, sure=NOON)
TWO = replace(ONE, revisions=(Revision(A, ()), Revision(B, ())))
BACK = replace(ONE, revisions=(Revision(A, ()), Revision(B, ()), Revision(A, ())))


def so(*votes: Vote, head: str = A, state: State = State.OPEN, is_draft: bool = False, moved: float | None = None
       ) -> Request:
    """A request, which was pushed to so many seconds behind noon."""
    at = None if moved is None else NOON + timedelta(seconds=moved)
    return Request("acme/lib", 12, state, head, "main", "Title", "Text", votes, is_draft, moved=at)


def said(seconds: float, commit: str | None = None) -> Vote:
    """A comment of so many seconds behind noon, at a forge that says which commit the request had then, or doesn't."""
    return Vote("comment 4", "ada", True, commit, said=NOON + timedelta(seconds=seconds))


def ada(number: int, approves: bool | None = True, commit: str | None = A) -> Vote:
    return Vote(f"review {number}", "ada", approves, commit)


def told(of: Told, *approved: Vote, at: int = 1, back: tuple[Vote, ...] = (), seen: tuple[Vote, ...] = (),
         **more: Any) -> Told:
    """What was told, with votes that approved a revision, some of them withdrawn, and others that were seen at it."""
    return replace(of, approvals={it.object: at for it in approved}, withdrawals=frozenset(it.object for it in back),
                   seen={it.object: at for it in (*approved, *seen)}, **more)


# Of each case its name, the request, what was told of it, what it needs, and what is expected, shortly: `revision 2`,
# `approved 2 review 1`, `withdrawn 1 review 1 review 3`, `closed 1 merged`.
Cases = tuple[tuple[str, Request, Told, tuple[int, ...], list[str]], ...]
REVISIONS: Cases = (
    ("a new request", so(), NOTHING, (), ["revision 1 " + A]),
    ("nothing has changed", so(), ONE, (), []),
    ("a new head", so(head=B), ONE, (), ["revision 2 " + B]),
    ("a head that goes back to an earlier commit", so(), TWO, (), ["revision 3 " + A]),
    ("which is told once", so(), BACK, (), []),
    ("needs that are named at once", so(), NOTHING, (3, 4), [f"revision 1 {A} 3 4"]),
    ("a text that now names a need", so(), ONE, (3,), [f"revision 2 {A} 3"]),
    ("which is told once", so(), replace(ONE, revisions=(Revision(A, ()), Revision(A, (3,)))), (3,), []),
    ("a text that names a need no more", so(), replace(ONE, revisions=(Revision(A, (3,)),)), (), ["revision 2 " + A]),
    ("needs in another order", so(), replace(ONE, revisions=(Revision(A, (3, 4)),)), (4, 3), [f"revision 2 {A} 4 3"]),
    ("closed and opened again", so(), replace(ONE, closed=True), (), ["revision 2 " + A]),
    ("opened again with a new head", so(head=B), replace(ONE, closed=True), (), ["revision 2 " + B]),
    ("retargeted away and back, so it was closed", so(), replace(TWO, closed=True), (), ["revision 3 " + A]),
    ("pushed to after it has landed", so(head=B), replace(ONE, landed=True), (), []),
    ("a new head while its order is shown: the lane waits", so(head=B), replace(ONE, ordered=True), (),
     ["revision 2 " + B]),
)

CLOSINGS: Cases = (
    ("closed, and told nothing yet", so(state=State.CLOSED), NOTHING, (), []),
    ("merged, and told nothing yet", so(state=State.MERGED), NOTHING, (), []),
    ("closed, approved, and told nothing yet", so(ADA, state=State.CLOSED), NOTHING, (), []),
    ("closed", so(state=State.CLOSED), ONE, (), ["closed 1 closed"]),
    ("closed with a head that was never told", so(state=State.CLOSED, head=B), ONE, (), ["closed 1 closed"]),
    ("closed, and told so", so(state=State.CLOSED), replace(ONE, closed=True), (), []),
    ("closed at its second revision", so(state=State.CLOSED), TWO, (), ["closed 2 closed"]),
    ("closed while it is approved", so(ADA, state=State.CLOSED), told(ONE, ADA), (), ["closed 1 closed"]),
    ("closed, and approved behind that", so(ADA, state=State.CLOSED), replace(ONE, closed=True), (), []),
    ("closed while its order is shown: the lane waits", so(state=State.CLOSED), replace(ONE, ordered=True), (),
     ["closed 1 closed"]),
    ("closed by hand after it has landed", so(state=State.CLOSED), replace(ONE, landed=True), (), []),
    ("merged by the lander", so(state=State.MERGED), replace(ONE, landed=True), (), []),
    ("merged by the lander, who hasn't told it", so(state=State.MERGED), replace(ONE, ordered=True), (), []),
    ("merged past the gate", so(state=State.MERGED), ONE, (), ["closed 1 merged"]),
    ("merged past the gate while it is approved", so(ADA, state=State.MERGED), told(ONE, ADA), (), ["closed 1 merged"]),
    ("merged past the gate, and told so", so(state=State.MERGED), replace(ONE, closed=True), (), []),
)

VOTES: Cases = (
    ("approved", so(ADA), ONE, (), ["approved 1 review 1"]),
    ("opened and approved at once", so(ADA), NOTHING, (), ["revision 1 " + A, "approved 1 review 1"]),
    ("looked at again", so(ADA), told(ONE, ADA), (), []),
    ("by whom it may not be", so(Vote("review 9", "mallory", True, A)), ONE, (), []),
    ("a vote of an earlier commit", so(ADA, head=B), TWO, (), []),
    ("an earlier commit that comes back, with its old vote", so(ADA), told(BACK, ADA), (), []),
    ("an earlier commit that comes back, with a vote that wasn't told", so(ADA), BACK, (), ["approved 3 review 1"]),
    ("pushed over after it was approved", so(ADA, head=B), told(ONE, ADA), (), ["revision 2 " + B]),
    ("other needs after it was approved", so(ADA), told(ONE, ADA), (3,), [f"revision 2 {A} 3"]),
    ("closed and opened again, with its old vote", so(ADA), told(ONE, ADA, closed=True), (), ["revision 2 " + A]),
    ("opened again, and approved anew", so(ADA, ada(7)), told(ONE, ADA, closed=True), (),
     ["revision 2 " + A, "approved 2 review 7"]),
    ("a vote that was first seen at another branch", so(ADA), told(ONE, seen=(ADA,), at=0), (), []),
    ("a vote that was told of another branch", so(ADA), told(ONE, ADA, at=0), (), []),
    ("a commit that the forge no longer names", so(ada(1, commit=GONE)), ONE, (), []),
    ("which it named when the vote was first seen", so(ada(1, commit=GONE)),
     told(ONE, seen=(ADA,), commits={"review 1": A}), (), ["approved 1 review 1"]),
    ("which was another one", so(ada(1, commit=GONE)), told(ONE, seen=(ADA,), commits={"review 1": B}), (), []),
    ("whose approval was told, which stays", so(ada(1, commit=GONE)), told(ONE, ADA), (), []),
    ("first seen together with a new head", so(ada(1, commit=GONE), head=B), ONE, (), ["revision 2 " + B]),
    ("two approve at once: one delivery", so(ADA, BOB), ONE, (), ["approved 1 review 1"]),
    ("a second one approves", so(ADA, BOB), told(ONE, ADA), (), ["approved 1 review 2"]),
    ("failed, and approved by a new object", so(ADA, ada(7)), told(ONE, ADA), (), ["approved 1 review 7"]),
    ("failed, and looked at again", so(ADA, ada(7)), told(ONE, ADA, ada(7)), (), []),
    ("landed, and approved", so(ADA), replace(ONE, landed=True), (), []),
    ("approved as a draft", so(ADA, is_draft=True), ONE, (), []),
    ("which is none any more", so(ADA), told(ONE, seen=(ADA,)), (), ["approved 1 review 1"]),
    ("approved, and then a draft", so(ADA, is_draft=True), told(ONE, ADA), (), ["withdrawn 1 review 1 draft"]),
    ("which stays one", so(ADA, is_draft=True), told(ONE, ADA, back=(ADA,)), (), []),
)

COMMENTS: Cases = (
    ("a vote without a commit", so(SAID), ONE, (), ["approved 1 comment 4"]),
    ("which is still shown at the next revision", so(SAID, head=B), told(ONE, SAID), (), ["revision 2 " + B]),
    ("and behind that", so(SAID, head=B), told(TWO, SAID), (), []),
    ("seen at one revision, and not told of it", so(SAID, head=B), told(TWO, seen=(SAID,)), (), []),
    ("seen at this revision, while somebody objected", so(SAID), told(ONE, seen=(SAID, EVE)), (),
     ["approved 1 comment 4"]),
    ("first seen together with a new request", so(SAID), NOTHING, (), ["revision 1 " + A]),
    ("first seen together with a new head", so(SAID, head=B), ONE, (), ["revision 2 " + B]),
    ("first seen together with other needs", so(SAID), ONE, (3,), [f"revision 2 {A} 3"]),
    ("first seen together with an opening", so(SAID), replace(ONE, closed=True), (), ["revision 2 " + A]),
    ("seen with a new revision, and looked at again", so(SAID), told(ONE, seen=(SAID,), at=0), (), []),
    ("given again, once the revision is known", so(SAID, replace(SAID, object="comment 5")),
     told(ONE, seen=(SAID,), at=0), (), ["approved 1 comment 5"]),
    ("made so soon that nobody can have read what the gate told of", so(said(59)), ONE, (), []),
    ("and looked at again", so(said(59)), told(ONE, seen=(SAID,)), (), []),
    ("made before the gate told of the revision", so(said(-1)), ONE, (), []),
    ("or while it has told of nothing", so(SAID), replace(ONE, shown=None), (), []),
    ("where people read for longer", so(said(299)), replace(ONE, reading=300.0), (), []),
    ("where people read for shorter", so(said(20)), replace(ONE, reading=20.0), (), ["approved 1 comment 4"]),
    ("a forge that says which commit it was: the same", so(said(60, A)), ONE, (), ["approved 1 comment 4"]),
    ("made too soon", so(said(59, A)), ONE, (), []),
    ("made at another commit", so(said(60, B)), ONE, (), []),
    ("first seen together with the revision", so(said(60, A)), NOTHING, (), ["revision 1 " + A]),
    ("one that names the whole commit, whatever was told of", so(Vote("comment 4", "ada", True, A)),
     replace(ONE, shown=None), (), ["approved 1 comment 4"]),
    ("or another one", so(Vote("comment 4", "ada", True, B)), ONE, (), []),
    ("one that names the commit, with a new request", so(Vote("comment 4", "ada", True, A)), NOTHING, (),
     ["revision 1 " + A, "approved 1 comment 4"]),
    ("which is none", so(replace(SAID, flaw=FLAW)), ONE, (), []),
    ("which was one when it was told", so(replace(SAID, flaw=FLAW)), told(ONE, SAID), (),
     ["withdrawn 1 comment 4"]),
    ("which is none and ends no objection", so(EVE, replace(SAID, person="eve", flaw=FLAW), ADA), ONE, (), []),
    ("beside a review, with a new request", so(ADA, SAID), NOTHING, (), ["revision 1 " + A, "approved 1 review 1"]),
    ("at a head that goes back", so(SAID), told(BACK, SAID), (), []),
)

GAPS: Cases = (
    ("a comment that is first seen behind a gap", so(SAID), replace(ONE, sure=None), (), []),
    ("and looked at again without one", so(SAID), told(ONE, seen=(SAID,), at=-1), (), []),
    ("at a forge that says which commit it was", so(said(60, A)), replace(ONE, sure=None), (), []),
    ("one that was made so soon behind it that its person may have read what was there in it", so(said(359)),
     replace(ONE, sure=NOON + timedelta(seconds=300)), (), []),
    ("one that was made some time behind it", so(said(360)), replace(ONE, sure=NOON + timedelta(seconds=300)), (),
     ["approved 1 comment 4"]),
    ("one that was seen before the gap", so(SAID), told(ONE, seen=(SAID,), sure=None), (), ["approved 1 comment 4"]),
    ("one that names the commit", so(Vote("comment 4", "ada", True, A)), replace(ONE, sure=None), (),
     ["approved 1 comment 4"]),
    ("a review behind a gap", so(ADA), replace(ONE, sure=None), (), ["approved 1 review 1"]),
    ("pushed over and back since it was told", so(SAID, moved=1), ONE, (), ["revision 2 " + A]),
    ("with a comment that was seen before", so(SAID, moved=61), told(ONE, seen=(SAID,)), (), ["revision 2 " + A]),
    ("with one that names the commit", so(Vote("comment 4", "ada", True, A), moved=1), ONE, (),
     ["revision 2 " + A, "approved 2 comment 4"]),
    ("which was approved before", so(ADA, moved=1), told(ONE, ADA), (), ["revision 2 " + A]),
    ("pushed before it was told", so(SAID, moved=-1), ONE, (), ["approved 1 comment 4"]),
    ("pushed in the second in which it was told", so(SAID, moved=0.9), ONE, (), ["approved 1 comment 4"]),
    ("pushed while nobody has been told of it", so(ADA, moved=1), replace(ONE, shown=None), (),
     ["approved 1 review 1"]),
)

WITHDRAWALS: Cases = (
    ("taken back", so(), told(ONE, ADA), (), ["withdrawn 1 review 1"]),
    ("taken back, and told so", so(), told(ONE, ADA, back=(ADA,)), (), []),
    ("taken back before it was told", so(), told(ONE, seen=(ADA,)), (), []),
    ("dismissed", so(ada(1, None)), told(ONE, ADA), (), ["withdrawn 1 review 1"]),
    ("dismissed and given again", so(ada(7)), told(ONE, ADA, back=(ADA,)), (), ["approved 1 review 7"]),
    ("dismissed and given again between two looks: it keeps its place", so(ada(7)), told(ONE, ADA), (),
     ["approved 1 review 7"]),
    ("the same object is shown again", so(ADA), told(ONE, ADA, back=(ADA,)), (), []),
    ("approved twice, and the second dismissed: so is the first", so(ADA, ada(7, None)), told(ONE, ADA, ada(7)), (),
     ["withdrawn 1 review 1 review 7"]),
    ("a dismissed objection gives back no approval that was before it", so(ADA, ada(7, None)), ONE, (), []),
    ("one of two takes his back", so(BOB), told(ONE, ADA, BOB), (), []),
    ("and then the other", so(), told(ONE, ADA, BOB), (), ["withdrawn 1 review 1 review 2"]),
    ("one of two objects", so(ADA, BOB, ada(7, False)), told(ONE, ADA, BOB), (),
     ["withdrawn 1 review 1 review 2 review 7"]),
    ("and is told once", so(ADA, BOB, ada(7, False)), told(ONE, ADA, BOB, back=(ADA, BOB)), (), []),
    ("who objected approves", so(ada(7, False), ada(8)), told(ONE, ADA, back=(ADA,)), (), ["approved 1 review 8"]),
    ("a third one objects", so(ADA, EVE), told(ONE, ADA), (), ["withdrawn 1 review 1 review 3"]),
    ("approved while somebody objects", so(EVE, ADA), ONE, (), []),
    ("who objects may not approve", so(ADA, Vote("review 9", "mallory", False, A)), told(ONE, ADA), (), []),
    ("an objection to an earlier commit stays one", so(EVE, ada(7, commit=B), head=B), TWO, (), []),
    ("the objection is dismissed: what was withdrawn stays so", so(ADA, replace(EVE, approves=None)),
     told(ONE, ADA, back=(ADA,)), (), []),
    ("taken back at the next revision, which had none", so(head=B), told(TWO, ADA), (), []),
    ("taken back together with a new head", so(head=B), told(ONE, ADA), (), ["revision 2 " + B]),
    ("an approval of the second revision is taken back", so(head=B), told(TWO, ADA, at=2), (),
     ["withdrawn 2 review 1"]),
    ("taken back after it has landed", so(), told(ONE, ADA, landed=True), (), []),
    ("a comment is deleted", so(), told(ONE, SAID), (), ["withdrawn 1 comment 4"]),
    ("approved again, withdrawn again", so(), told(ONE, ADA, ada(7), back=(ADA,)), (), ["withdrawn 1 review 7"]),
)


class Table(unittest.TestCase):
    def check(self, cases: Cases) -> None:
        for name, request, known, needs, expected in cases:
            with self.subTest(name):
                found = tellings(request, known, needs, APPROVERS)
                self.assertEqual([" ".join([it.kind, str(it.revision), *it.stands_for]) for it in found], expected)

    def test_revisions(self) -> None:
        self.check(REVISIONS)

    def test_closings(self) -> None:
        self.check(CLOSINGS)

    def test_votes(self) -> None:
        self.check(VOTES)

    def test_votes_without_a_commit(self) -> None:
        self.check(COMMENTS)

    def test_votes_behind_a_gap(self) -> None:
        self.check(GAPS)

    def test_withdrawals(self) -> None:
        self.check(WITHDRAWALS)

    def test_the_table_has_no_case_twice(self) -> None:
        cases = [*REVISIONS, *CLOSINGS, *VOTES, *COMMENTS, *GAPS, *WITHDRAWALS]
        self.assertEqual(len({repr(it[1:4]) for it in cases}), len(cases))
        self.assertGreaterEqual(len(cases), 60)


class Rules(unittest.TestCase):
    def test_an_approver_who_may_no_more_is_withdrawn(self) -> None:
        self.assertEqual([it.kind for it in tellings(so(ADA), told(ONE, ADA), (), frozenset({"bob"}))], ["withdrawn"])

    def test_all_votes_that_count_are_told_with_the_first(self) -> None:
        steps = tellings(so(ADA, BOB, Vote("review 8", "eve", True, B)), ONE, (), APPROVERS)
        self.assertEqual([it.votes for it in steps], [("review 1", "review 2")])

    def test_a_withdrawal_takes_back_the_approvals_alone(self) -> None:
        steps = tellings(so(ADA, EVE), told(ONE, ADA), (), APPROVERS)
        self.assertEqual([it.votes for it in steps], [("review 1",)])

    def test_a_retarget_closes_what_was_told_and_is_open(self) -> None:
        self.assertEqual(closing(TWO, "retargeted"), [Telling("closed", 2, ("retargeted",))])
        for known in (NOTHING, replace(TWO, closed=True), replace(TWO, landed=True)):
            self.assertEqual(closing(known, "retargeted"), [])

    def test_what_was_told_is_told_no_more(self) -> None:
        """Told its own deliveries, no state has any left."""
        for name, request, known, needs, _ in (*REVISIONS, *CLOSINGS, *VOTES, *COMMENTS, *GAPS, *WITHDRAWALS):
            with self.subTest(name):
                steps = tellings(request, known, needs, APPROVERS)
                after = follow(request, known, needs, steps)
                self.assertEqual(tellings(request, after, needs, APPROVERS), [])

    def test_a_vote_is_first_seen_at_a_revision(self) -> None:
        self.assertEqual(first_seen(so(ADA, SAID), NOTHING, ()), {"review 1": 1, "comment 4": 0})
        self.assertEqual(first_seen(so(ADA, SAID), ONE, ()), {"review 1": 1, "comment 4": 1})
        self.assertEqual(first_seen(so(ADA, SAID), told(ONE, ADA), ()), {"comment 4": 1})
        self.assertEqual(first_seen(so(ADA, SAID, state=State.CLOSED), ONE, ()), {"review 1": 1, "comment 4": 0})

    def test_a_vote_behind_a_gap_is_of_no_revision_unless_it_names_the_commit(self) -> None:
        gap = replace(ONE, sure=None)
        self.assertEqual(first_seen(so(ADA, SAID), gap, ()), {"review 1": 1, "comment 4": BEHIND_GAP})
        self.assertEqual(first_seen(so(SAID, head=B), gap, ()), {"comment 4": NO_REVISION})
        self.assertEqual(first_seen(so(SAID), told(gap, seen=(SAID,)), ()), {})

    def test_why_votes_do_not_count_is_told(self) -> None:
        for request, known, lines in (
                (so(ADA), told(ONE, ADA), []),
                (so(ADA), ONE, []),
                (so(ADA, head=B), TWO, ["ada approved another commit than that of now: review 1 doesn't count"]),
                (so(said(60, B)), ONE, ["ada approved another commit than that of now: comment 4 doesn't count"]),
                (so(said(59)), ONE, ["ada approved within 60 seconds of the gate's word of this commit, and named none:"
                                     " comment 4 doesn't count"]),
                (so(SAID), replace(ONE, shown=None),
                 ["ada approved before the gate has told of this commit, and named none: comment 4 doesn't count"]),
                (so(SAID), told(ONE, seen=(SAID,), at=BEHIND_GAP),
                 ["ada approved while the gate couldn't look at this request, or soon behind that, and named no commit:"
                  " comment 4 doesn't count"]),
                (so(SAID), replace(ONE, sure=None),
                 ["ada approved while the gate couldn't look at this request, or soon behind that, and named no commit:"
                  " comment 4 doesn't count"]),
                (so(ada(1, commit=GONE)), ONE,
                 ["ada approved a commit that the forge no longer names: review 1 doesn't count"]),
                (so(ADA), told(BACK, ADA),
                 ["ada approved an earlier revision, or another branch: review 1 doesn't count"]),
                (so(SAID), told(ONE, seen=(SAID,), at=0),
                 ["ada approved before the gate knew this revision at this branch: comment 4 doesn't count"]),
                (so(ADA), told(ONE, ADA, back=(ADA,)),
                 ["ada approved, and that was withdrawn since: review 1 doesn't count"]),
                (so(Vote("review 9", "mallory", True, A), Vote("review 10", "mallory", False, A)), ONE, []),
                (so(Vote("review 9", "mallory", True, A)), ONE,
                 ["mallory isn't among those who may approve: review 9 doesn't count"]),
                (so(Vote("comment 8", "mallory", True, None, FLAW), replace(SAID, flaw=FLAW)), ONE,
                 ["ada wrote something else: comment 4 doesn't count",
                  "mallory wrote something else: comment 8 doesn't count"]),
                (so(ADA, EVE), ONE, ["eve objects (review 3)"]),
                (replace(so(ADA), is_cut=True), ONE,
                 ["some of its comments are too long to be read: no approval by one of them counts"]),
                (so(ADA, is_draft=True), ONE, ["it is a draft, which isn't to land"]),
                (so(is_draft=True), ONE, []),
                (so(ADA, head=B), replace(TWO, landed=True), []),
                (so(ADA, head=B, state=State.CLOSED), TWO, [])):
            with self.subTest(lines):
                self.assertEqual(uncounted(request, known, (), APPROVERS), lines)


def follow(request: Request, known: Told, needs: tuple[int, ...], steps: list[Telling]) -> Told:
    """What was told once these are, as the tables would have it."""
    seen = {**known.seen, **first_seen(request, known, needs)}
    for it in steps:
        if it.kind == "revision":
            revisions = (*known.revisions, Revision(request.head, needs))
            known = replace(known, revisions=revisions, closed=False, shown=None)
        elif it.kind == "closed":
            known = replace(known, closed=True)
        elif it.kind == "approved":
            known = replace(known, approvals={**known.approvals, **{name: it.revision for name in it.votes}})
        else:
            known = replace(known, withdrawals=known.withdrawals | {*it.votes})
    return replace(known, seen=seen)


if __name__ == "__main__":
    unittest.main()
