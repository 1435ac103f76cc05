"""What an adapter has people told on their requests."""
from __future__ import annotations

from dataclasses import replace
from unittest import mock

from companions.forges import Limits
from companions.moments import Moment
from companions.requests import State, Vote
from companions.rights import MANY
from companions.tests.adapter_case import Case


class People(Case):
    def test_a_request_is_followed_to_its_landing(self) -> None:
        place, commit = self.be(12, 0), self.commits[0]
        self.assertEqual(self.tell(place), [f"acme/lib {commit}: pending: Waits for approval"])
        self.be(12, 0, self.approve(1))
        self.gate.items = ["1 1 1 - ok unit=running"]
        self.assertEqual(self.tell(place), [
            f"acme/lib {commit}: pending: Testing at place 1 of 1 in core: unit running",
            "acme/lib 12, comment 1: **Being tested in `core`.**"])
        self.assertEqual(self.tell(), [])
        self.gate.items, self.gate.reports = [], ["1 1 1 landed 1"]
        self.gate.land(1)
        self.be(12, 0, state=State.MERGED)
        self.assertEqual(self.tell(place), [f"acme/lib {commit}: success: Landed in core as 1",
                                            "acme/lib 12, comment 1: **Landed in `core` as 1.**"])
        self.assertEqual(self.adapter.subjects.all(), [])

    def test_what_is_wrong_with_its_text_and_its_votes_is_told(self) -> None:
        self.be(12, 0, self.approve(1, person="eve"), text="Depends-On: nothing")
        self.tell()
        self.assertEqual(self.forge.comments[1][1].split("\n\n")[2:], [
            "These votes don't approve it:", "    eve isn't among those who may approve: review 1 doesn't count",
            "To approve this commit by a comment, write one that is this line alone:",
            f"    /gate approve {self.commits[0]}",
            "These lines of its text name no request that the gate takes, so nothing is waited for:",
            "    Depends-On: nothing: names no request of this forge", "Mend them in the text of the request."])

    def test_however_often_outsiders_vote_few_lines_are_kept_of_it(self) -> None:
        votes = [self.approve(number, person="eve") for number in range(1, 2001)]
        self.be(12, 0, *votes)
        self.tell()
        lines = [f"eve isn't among those who may approve: review {number} doesn't count" for number in range(1, 10)]
        self.assertEqual(self.adapter.changes.remarks(1, "vote"), [*lines, "and 1991 more"])
        shown = "\n".join(f"    {it}" for it in (*lines, "and 1991 more"))
        self.assertIn(shown, self.forge.comments[1][1].split("\n\n"))
        self.be(12, 0, *votes[:10])
        self.tell()
        lines.append("eve isn't among those who may approve: review 10 doesn't count")
        self.assertEqual(self.adapter.changes.remarks(1, "vote"), lines)

    def test_no_more_is_written_in_an_hour_than_the_forge_s_form_allows(self) -> None:
        """A tenth of it is for requests that somebody has approved."""
        self.forge.limits = Limits(60, 4)
        self.start()
        for number, head in ((12, 0), (13, 1), (14, 2), (15, 3)):
            self.be(number, head)
        self.assertEqual([len(self.tell()) for _ in range(3)], [3, 0, 0])

    def test_one_that_is_closed_is_told_once_the_gate_has_answered(self) -> None:
        # Others are asked about first.
        others = [self.be(number, 1) for number in (9, 10, 11)]
        place = self.be(12, 0, self.approve(1))
        self.tell()
        self.be(12, 0, state=State.CLOSED)
        self.gate.order(4)
        self.tell(place)
        self.assertEqual([it.change for it in self.adapter.subjects.all()], [1, 2, 3, 4])
        self.gate.orders = []
        self.assertEqual(self.tell()[0], f"acme/lib {self.commits[0]}: failure: Closed without landing")
        self.assertEqual((len(self.adapter.subjects.all()), self.tell(place)), (len(others), []))

    def test_one_whose_branch_is_not_gated_any_more(self) -> None:
        place = self.be(12, 0)
        self.tell()
        self.be(12, 0, target="topic")
        self.assertEqual(self.tell(place)[0],
                         f"acme/lib {self.commits[0]}: pending: Not for the gate: it lands nothing in this branch")
        self.be(12, 0, target="old")
        self.assertEqual(self.tell(place)[0], f"acme/lib {self.commits[0]}: pending: Waits for approval")

    def test_one_that_never_was_the_gate_s_is_told_nothing(self) -> None:
        self.be(12, 0, self.approve(1), target="topic")
        self.be(13, 0, self.approve(2), state=State.CLOSED)
        self.assertEqual((self.tell(), self.adapter.subjects.all()), ([], []))

    def test_who_may_write_may_approve_where_nobody_is_named(self) -> None:
        self.settings = replace(self.settings, adapter=replace(self.settings.adapter, approvers=None))
        self.start()
        place = self.be(12, 0, self.approve(1, person="eve"), self.approve(2, person="bob"))
        self.assertEqual(self.look(place), ["revision 1 1", "approved 1 1"])
        self.look(place)
        self.assertEqual(self.forge.asked_about, ["bob", "eve"])
        self.adapter.looks.approvers.writers.clear()
        self.forge.writers.discard("bob")
        self.assertEqual(self.look(place), ["withdrawn 1 1"])

    def test_a_right_is_an_account_s_and_what_is_known_of_rights_is_bounded(self) -> None:
        self.settings = replace(self.settings, adapter=replace(self.settings.adapter, approvers=None))
        self.start()
        known = self.adapter.looks.approvers.writers
        known.update({("acme/lib", f"eve{it}", 99): (False, 0.0) for it in range(MANY)})
        place = self.be(12, 0, self.approve(1), Vote("review 2", "bob", False, self.commits[0]))
        self.look(place)
        self.assertEqual(len(known), MANY + 2)
        # Somebody else takes the login while the forge's answer of before holds still.
        self.forge.accounts["bob"], self.forge.writers = 77, {"ada"}
        self.assertEqual(self.look(place), ["approved 1 1"])
        self.assertEqual({*self.adapter.looks.approvers.writers},
                         {("acme/lib", "ada", 11), ("acme/lib", "bob", 12), ("acme/lib", "bob", 77)})

    def test_a_login_that_another_account_has_taken_approves_nothing(self) -> None:
        self.settings = replace(self.settings, adapter=replace(self.settings.adapter,
                                                               approvers=frozenset({"Ada", "bob", "nobody"})))
        self.start()
        place = self.be(12, 0, self.approve(1))
        self.assertEqual(self.look(place), ["revision 1 1", "approved 1 1"])
        self.assertIn("adapter: approvers: the forge has no account nobody: nobody approves by this name", self.lines())
        self.forge.accounts["ada"] = 77
        self.start()
        self.assertEqual(self.look(place), ["withdrawn 1 1"])
        self.be(12, 0, self.approve(2))
        self.assertEqual((self.look(place), self.look(place)), ([], []))
        self.assertEqual([it for it in self.lines() if "is account" in it], [
            "adapter: approvers: ada is account 77 now, and 11 before: its votes don't count. If it is the same person,"
            " take the name out of approvers, restart, and name it again"])
        for names, told in (({"bob"}, []), ({"ada", "bob"}, ["approved 1 1"])):
            self.settings = replace(self.settings, adapter=replace(self.settings.adapter, approvers=frozenset(names)))
            self.start()
            self.assertEqual(self.look(place), told)

    def test_accounts_are_looked_up_at_the_start_and_not_once_somebody_votes(self) -> None:
        self.adapter.compare_at = 9.0
        self.adapter.once(1.0)
        self.assertEqual(sorted(self.forge.asked_about), ["ada", "bob"])
        # Somebody else takes the login before its person has ever voted.
        self.forge.accounts["ada"] = 77
        self.be(12, 0, self.approve(1), self.approve(2, person="bob"))
        self.assertEqual(self.look(), ["revision 1 1", "approved 1 1"])
        self.assertEqual(self.adapter.changes.remarks(1, "vote"),
                         ["ada isn't among those who may approve: review 1 doesn't count"])

    def test_approvals_wait_for_accounts_that_the_forge_does_not_tell(self) -> None:
        self.forge.hidden = {"ada"}
        place = self.be(12, 0, self.approve(1))
        self.assertEqual(self.look(place), ["revision 1 1"])
        self.forge.hidden.clear()
        self.assertEqual(self.look(place), ["approved 1 1"])
        self.forge.asked_about.clear()
        self.start()
        self.assertEqual((self.look(place), self.forge.asked_about), ([], []))

    def test_a_right_that_the_forge_does_not_tell_holds_up_approvals_alone(self) -> None:
        self.settings = replace(self.settings, adapter=replace(self.settings.adapter, approvers=None))
        self.start()
        self.forge.hidden = {"ada", "eve"}
        place = self.be(12, 0, self.approve(1))
        self.assertEqual(self.look(place), ["revision 1 1"])
        self.assertIn("adapter: acme/lib 12: GET ada: 403", self.lines())
        self.be(12, 0, self.approve(1), self.approve(2, person="bob"), Vote("review 3", "eve", False, self.commits[0]))
        self.assertEqual(self.look(place), [])
        self.be(12, 0, self.approve(1), self.approve(2, person="bob"))
        self.assertEqual(self.look(place), ["approved 1 1"])
        # Nothing that was approved is withdrawn since nobody knows any more whose approval it was.
        self.forge.hidden.add("bob")
        self.adapter.looks.approvers.writers.clear()
        self.assertEqual(self.look(place), [])
        self.be(12, 1, self.approve(1), self.approve(2, person="bob"))
        self.assertEqual(self.look(place), ["revision 1 2"])
        self.be(12, 1, self.approve(1), state=State.CLOSED)
        self.assertEqual(self.look(place), ["closed 1 2"])

    def test_a_request_that_was_closed_here_is_looked_at(self) -> None:
        self.forge.leaves_open = True
        self.start()
        place = self.be(12, 0, self.approve(12))
        self.tell(place)
        self.gate.items, self.gate.reports = [], ["1 1 1 landed 1"]
        self.gate.land(1)
        self.now = Moment.now()
        self.enterContext(mock.patch.object(Moment, "now", staticmethod(lambda: self.now)))
        self.tell()
        self.now = Moment(self.now.boot, self.now.uptime + 61)
        self.assertIn("acme/lib 12: closed at", " ".join(self.tell()))
        self.assertEqual([place for _, place in self.adapter.hints.all()], [place])


if __name__ == "__main__":
    import unittest
    unittest.main()
