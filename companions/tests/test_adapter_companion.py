"""The adapter: looks at requests, and what the gate is told then."""
from __future__ import annotations

import itertools
import re
import threading
import time
from dataclasses import replace
from unittest import mock

from companions.forges import Place
from companions.repository import Repository
from companions.requests import State, Vote
from companions.rests import Rests
from companions.tests.adapter_case import NEVER, Case
from companions.tests.forge import earlier_message, message_of


class Requests(Case):
    def test_a_request_is_told_and_approved(self) -> None:
        self.be(12, 0, self.approve(1), title="Add it")
        self.assertEqual(self.look(), ["revision 1 1", "approved 1 1"])
        self.assertEqual(self.standin.deliveries()[0]["message"], "acme/lib 12: Add it\n")
        self.assertEqual(self.origin.git("rev-parse", "refs/changes/1/1"), self.commits[0])
        self.assertEqual(self.look(), [])

    def test_what_a_look_has_kept_is_sent_before_the_next_look(self) -> None:
        places = [self.be(it, 0) for it in (12, 13)]
        sent: dict[Place, int] = {}
        self.forge.when_asked = lambda place: sent.setdefault(place, len(self.standin.deliveries()))
        self.look(*places)
        self.assertEqual([sent[it] for it in places], [0, 1])

    def test_a_hook_that_comes_while_others_are_looked_at_is_followed_next(self) -> None:
        first, second, third = (self.be(it, 0) for it in (12, 13, 14))
        self.forge.when_asked = lambda place: place == first and self.adapter.hints.put(third)
        self.look(first, second)
        self.assertEqual(self.forge.asked, [first, third, second])

    def test_those_that_fail_leave_room_to_all_others(self) -> None:
        bad = [self.be(it, 0) for it in range(21, 37)]
        self.forge.broken = set(bad)
        for _ in range(6):
            self.adapter.once(1.0)
        # All sixteen have failed by now, and their rests are over.
        for it in bad:
            self.adapter.rests.failed(f"acme/lib {it.number}", -1000.0)
        self.adapter.rests.end_all()
        good = [self.be(it, 0) for it in range(41, 49)]
        self.forge.asked.clear()
        for it in good[:4]:
            self.adapter.hints.put(it, is_hook=False)
        for it in [*bad, *good[4:]]:
            self.adapter.hints.put(it)
        self.adapter.compare_at = 9.0
        self.adapter.once(2.0)
        self.assertEqual(self.forge.asked, [*good[4:], *good[:4], *bad[:3]])
        self.assertEqual(len(self.standin.deliveries()), 8)

    def test_one_that_fails_rests_longer_each_time(self) -> None:
        place = self.be(12, 0)
        self.forge.broken = {place}
        self.adapter.hints.put(place)
        self.adapter.rests = Rests(5.0, 30.0)
        tried = []
        for now in range(200):
            self.adapter.compare_at = NEVER
            before = len(self.forge.asked)
            self.adapter.once(float(now))
            tried += [now] if len(self.forge.asked) > before else []
        self.assertEqual(tried, [0, 5, 15, 35, 65, 95, 125, 155, 185])
        self.forge.broken.clear()
        self.adapter.once(300.0)
        self.assertEqual((self.adapter.rests.times("acme/lib 12"), len(self.standin.deliveries())), (0, 1))

    def test_rests_go_by_a_clock_that_nobody_sets(self) -> None:
        """Three days ahead and 4,000 seconds back, from round to round."""
        days, rounds, end = itertools.cycle((0.0, 3 * 86400.0, -4000.0)), list[float](), time.monotonic() + 3600

        def once(now: float) -> None:
            rounds.append(now)
            if len(rounds) == 6:
                raise StopIteration

        self.adapter.settings = replace(self.settings, pause=0.001)
        begin, day = time.monotonic(), time.time()
        with (mock.patch.object(self.adapter, "once", once), mock.patch("time.time", lambda: day + next(days)),
              self.assertRaises(StopIteration)):
            self.adapter.run(threading.Event())
        self.assertEqual(rounds, sorted(rounds))
        self.assertTrue(begin <= rounds[0] and rounds[-1] < end)

    def test_what_a_lagging_copy_of_the_forge_has_hidden_is_seen_soon(self) -> None:
        place = self.be(12, 0)
        self.look(place)
        self.adapter.compare_at = NEVER
        self.adapter.hints.put(place)
        self.adapter.once(100.0)
        self.be(12, 1)
        before = len(self.forge.asked)
        self.adapter.once(114.0)
        self.assertEqual(len(self.forge.asked), before)
        self.adapter.once(115.0)
        self.adapter.once(200.0)
        self.assertEqual((len(self.forge.asked), self.gate.changes[1]["revision"]), (before + 1, 2))

    def test_a_restart_tells_nothing_again(self) -> None:
        place = self.be(12, 0, self.approve(1))
        self.look()
        self.start()
        self.assertEqual((self.look(), self.look(place), self.look(place, place)), ([], [], []))

    def test_one_that_is_killed_before_it_sends_sends_later(self) -> None:
        place = self.be(12, 0, self.approve(1))
        self.adapter.file.ask()
        self.adapter.looks.look(place)
        self.start()
        self.be(12, 1)
        self.assertEqual(self.look(place), ["revision 1 1", "approved 1 1", "revision 1 2"])

    def test_a_ref_that_was_never_told_is_given_another_commit(self) -> None:
        self.origin.revision(1, 1, self.commits[3])
        self.be(12, 0, self.approve(1))
        self.assertEqual(self.look(), ["revision 1 1", "approved 1 1"])
        self.assertEqual(self.origin.git("rev-parse", "refs/changes/1/1"), self.commits[0])

    def test_approved_revisions_keep_their_commits(self) -> None:
        place = self.be(12, 0, self.approve(1))
        self.look()
        for number, head in ((2, 1), (3, 0)):
            self.be(12, head, self.approve(number, head))
            self.look(place)
        self.assertEqual([self.origin.git("rev-parse", f"refs/changes/1/{it}") for it in (1, 2, 3)],
                         [self.commits[0], self.commits[1], self.commits[0]])

    def test_a_retarget_closes_one_change_and_opens_another(self) -> None:
        place = self.be(12, 0, self.approve(1))
        self.look()
        self.be(12, 0, self.approve(1), target="old")
        self.assertEqual(sorted(self.look(place)), ["closed 1 1", "revision 2 1"])
        self.be(12, 0, self.approve(1), self.approve(2), target="main")
        self.assertEqual(sorted(self.look(place)), ["approved 1 2", "closed 2 1", "revision 1 2"])

    def test_a_branch_that_is_not_gated_is_left_alone_and_its_votes_are_of_it(self) -> None:
        place = self.be(12, 0, self.approve(1), target="topic")
        self.assertEqual(self.look(), [])
        self.be(12, 0, self.approve(1), target="main")
        self.assertEqual(self.look(place), ["revision 1 1"])
        self.be(12, 0, self.approve(1), self.approve(2))
        self.assertEqual(self.look(place), ["approved 1 1"])

    def test_needs_become_numbers(self) -> None:
        self.be(13, 1)
        place = self.be(12, 0, text="Depends-On: #13\nDepends-On: nothing\nDepends-On: acme/lib!12")
        self.assertEqual(sorted(self.look()), ["revision 1 1", "revision 2 1"])
        self.assertIn("acme/lib 12: Title\n\nDepends-On: https://forge/c/",
                      "".join(it["message"] for it in self.standin.deliveries()))
        change = self.adapter.changes.of_request(place)["main"]
        self.assertEqual(self.adapter.changes.remarks(change, "need"), [
            "Depends-On: nothing: names no request of this forge",
            "Depends-On: acme/lib!12: names this request itself"])

    def test_what_was_merged_without_the_gate_is_no_need(self) -> None:
        self.be(13, 1, state=State.MERGED)
        self.be(12, 0, text="Depends-On: #13")
        self.look()
        self.assertEqual(self.standin.deliveries()[-1]["message"], "acme/lib 12: Title\n")

    def test_one_whose_vote_has_no_commit_is_looked_at_twice(self) -> None:
        place = self.be(12, 0)
        self.tell()
        said = self.comment(1)
        self.be(12, 0, said)
        self.forge.asked.clear()
        self.forge.when_asked = lambda _: self.forge.asked and self.be(12, 1, said)
        self.assertEqual(self.look(place), [])
        self.forge.when_asked = lambda _: None
        self.assertEqual(self.look(place), ["revision 1 2"])
        self.tell(place)
        self.be(12, 1, said, self.comment(2))
        self.assertEqual(self.look(place), ["approved 1 2"])


class Dates(Case):
    """A landing has the later date of what it merges, so a commit of 2090 would date all landings behind it."""

    def dated(self, ahead: int, head: int = 0) -> str:
        """One of the commits, made anew so many seconds ahead of the clock."""
        text = self.origin.git("cat-file", "commit", self.commits[head])
        text = re.sub(r"^(committer .*> )\d+", rf"\g<1>{int(time.time()) + ahead}", text, flags=re.MULTILINE)
        return self.origin.git("hash-object", "-t", "commit", "-w", "--stdin", given=text + "\n")

    def test_one_that_is_dated_more_than_a_day_ahead_is_not_told_and_its_request_says_so(self) -> None:
        head = self.dated(86400 + 600)
        self.be(12, head, Vote("review 1", "ada", True, head))
        self.assertEqual(self.tell()[0], f"acme/lib {head}: failure: The gate didn't take this commit: it is dated more"
                                         " than a day ahead")
        self.assertEqual((self.standin.deliveries(), self.origin.git("for-each-ref", "refs/changes")), ([], ""))
        self.be(12, 1)
        self.assertEqual(self.tell()[0], f"acme/lib {self.commits[1]}: pending: Waits for approval")

    def test_one_that_is_dated_a_day_ahead_at_most_is_told(self) -> None:
        self.be(12, self.dated(86400 - 600))
        self.assertEqual(self.look(), ["revision 1 1"])

    def test_a_date_beyond_all_is_ahead_too(self) -> None:
        self.be(12, self.dated(10 ** 12))
        self.assertEqual(self.look(), [])

    def test_one_behind_an_approved_revision_takes_that_one_out_of_its_queue(self) -> None:
        place = self.be(12, 0, self.approve(1))
        self.look()
        head = self.dated(10 ** 9, 1)
        self.be(12, head, self.approve(1), Vote("review 2", "bob", True, head))
        self.assertEqual((self.look(place), self.look()), (["withdrawn 1 1"], []))
        self.gate.reports = ["1 1 1 withdrawn -"]
        self.assertEqual(self.tell()[0], f"acme/lib {head}: failure: The gate didn't take this commit: it is dated more"
                                         " than a day ahead")
        # Once the clock is so far, or the commit is made anew, it is told, and the approval of it counts.
        with mock.patch("companions.looks.time.time", return_value=time.time() + 10 ** 9):
            self.assertEqual(self.look(), ["revision 1 2", "approved 1 2"])
        self.assertEqual(self.adapter.changes.remarks(1, "ahead"), [])


class Closings(Case):
    def test_a_request_that_is_closed_and_opened_again(self) -> None:
        place = self.be(12, 0, self.approve(1))
        self.look()
        self.be(12, 0, state=State.CLOSED)
        self.assertEqual((self.look(), self.look()), (["closed 1 1"], []))
        self.be(12, 0, self.approve(1), state=State.OPEN)
        self.assertEqual(self.look(place), ["revision 1 2"])

    def test_one_that_was_never_told_is_none(self) -> None:
        for number, state in ((12, State.CLOSED), (13, State.MERGED)):
            self.assertEqual(self.look(self.be(number, 0, self.approve(number), state=state)), [])
        self.assertEqual(self.look(Place("acme/lib", 99)), [])

    def test_merged_past_the_gate(self) -> None:
        self.be(12, 0, self.approve(1))
        self.look()
        self.be(12, 0, state=State.MERGED)
        self.assertEqual(self.look(), ["closed 1 1"])

    def test_merged_by_the_lander(self) -> None:
        place = self.be(12, 0, self.approve(1))
        self.look()
        self.gate.order(1)
        self.be(12, 0, state=State.MERGED)
        self.assertEqual((self.look(), self.look(place)), ([], []))
        self.gate.land(1)
        self.assertEqual((self.look(), self.look(place)), ([], []))
        self.assertEqual(self.adapter.changes.still_open("acme/lib"), [])

    def test_what_the_branch_has_is_not_closed_whatever_the_gate_says(self) -> None:
        place = self.be(12, 0, self.approve(1))
        self.look()
        self.origin.land("core", 1, {"own": "1"}, message_of("core", 1, 1))
        self.be(12, 1, state=State.MERGED)
        self.assertEqual((self.look(place), self.look()), ([], []))
        self.assertTrue(self.adapter.changes.told(1).landed)

    def test_a_change_whose_order_is_shown_holds_up_itself_alone(self) -> None:
        one, two = self.be(12, 0, self.approve(1)), self.be(13, 1)
        self.look()
        self.gate.order(1)
        self.be(12, 0, state=State.CLOSED)
        self.be(13, 1, self.approve(2, 1))
        self.assertEqual(self.look(one, two), ["closed 1 1", "approved 2 1"])
        self.assertEqual(self.look(two), ["closed 1 1"])
        self.gate.land(1)
        self.assertEqual((self.look(two), self.look(two)), (["closed 1 1"], []))

    def test_what_is_pushed_after_the_landing_is_told_to_its_author(self) -> None:
        place = self.be(12, 0, self.approve(1))
        self.look()
        self.gate.land(1)
        self.be(12, 1)
        self.gate.reports = ["1 1 1 landed 1"]
        self.assertEqual(self.tell(place), [
            f"acme/lib {self.commits[1]}: failure: Landed in core as 1, without this commit: open a new request",
            f"acme/lib {self.commits[0]}: success: Landed in core as 1",
            f"acme/lib 12, comment 1: **Landed in `core` as 1, at its earlier commit {self.commits[0][:12]}.**"])
        self.assertEqual(len(self.standin.deliveries()), 2)


class Troubles(Case):
    def test_a_request_s_trouble_is_its_own(self) -> None:
        for number in (12, 13, 14, 15):
            self.be(number, 0)
        self.forge.broken = {Place("acme/lib", it) for it in (12, 14)}
        self.assertEqual(self.look(), ["revision 1 1", "revision 2 1"])
        self.assertEqual(self.look(), [])
        self.assertEqual([it for it in self.lines() if "500" in it],
                         ["adapter: acme/lib 12: GET 12: 500", "adapter: acme/lib 14: GET 14: 500"])
        self.forge.broken.clear()
        self.assertEqual(self.look(), ["revision 3 1", "revision 4 1"])

    def test_a_commit_that_is_not_there_is_told_later(self) -> None:
        place = self.be(12, 0)
        self.forge.requests[place] = replace(self.forge.requests[place], head="f" * 40)
        self.assertEqual(self.look(), [])
        self.assertRegex(self.lines()[-1], "Trouble: refs/pull/12/head of .*lib.git doesn't have f{40} yet")
        self.forge.requests[place] = replace(self.forge.requests[place], head="--all")
        self.assertEqual(self.look(), [])
        self.assertIn("Trouble: the forge's head of it is no commit: '--all'", self.lines()[-1])
        self.be(12, 0)
        self.assertEqual(self.look(), ["revision 1 1"])

    def test_all_stays_while_the_gate_is_away(self) -> None:
        place = self.be(12, 0)
        self.gate.is_away = True
        self.assertEqual(self.look(place), [])
        self.gate.is_away = False
        self.assertEqual(self.look(place), ["revision 1 1"])

    def test_a_project_that_the_gate_lacks_is_told_once_it_has_it(self) -> None:
        place = self.be(12, 0, self.approve(1))
        self.gate.projects.discard("lib")
        self.assertEqual(self.look(), ["revision 1 1", "approved 1 1"])
        self.look(place)
        self.assertEqual(self.tell()[0], f"acme/lib {self.commits[0]}: failure: The gate didn't take this commit:"
                                         " it has no such project")
        self.gate.projects.add("lib")
        self.assertEqual(self.look(place), ["revision 1 1", "approved 1 1"])
        self.assertEqual(self.gate.changes[1]["order"], 1)

    def test_needs_that_the_gate_does_not_read_are_a_fault_of_the_settings(self) -> None:
        self.gate.base = "https://gate.example/"
        self.be(12, 0, self.approve(1), text="Depends-On: #13")
        place = self.be(13, 1)
        self.look()
        self.assertEqual(self.look(place, Place("acme/lib", 12)), [])
        self.assertIn("Trouble: the gate reads other needs of change 1 than it was told: adapter.base has to be"
                      " forge.base of the gate's settings", self.lines()[-1])

    def test_needs_that_were_told_with_another_base_are_told_anew_once_the_base_is_mended(self) -> None:
        self.gate.base = "https://gate.example/"
        self.be(12, 0, self.approve(1), text="Depends-On: #13")
        self.be(13, 1)
        self.assertEqual(self.look(), ["revision 1 1", "approved 1 1", "revision 2 1"])
        self.assertEqual(self.look(), [])
        table = replace(self.settings.adapter, base=self.gate.base)
        self.settings = replace(self.settings, adapter=table)
        self.start()
        self.assertEqual(self.look(), ["revision 1 2"])
        self.assertEqual([it["change"] for it in self.gate.changes[1]["needs"]], [2])
        self.be(12, 0, self.approve(1), self.approve(2), text="Depends-On: #13")
        self.assertEqual(self.look(), ["approved 1 2"])
        self.assertEqual(self.look(), [])

    def test_tables_that_are_older_than_the_gate_s_file_tell_nothing(self) -> None:
        self.gate.changes[1] = {"revision": 3, "state": "open", "order": None}
        self.be(12, 0)
        self.assertEqual(self.look(), [])
        self.assertIn("the gate has revision 3 of change 1, and the adapter 0", self.lines()[-1])


class Branches(Case):
    def close(self, *numbers: int) -> list[str]:
        """These requests are closed; what is told."""
        for number in numbers:
            self.be(number, 0, state=State.CLOSED)
        return self.look()

    def test_a_branch_is_read_on_from_where_it_was_read(self) -> None:
        for number in (12, 13, 14):
            self.be(number, 0)
        self.look()
        read: list[tuple[str, ...]] = []
        with mock.patch.object(Repository, "line", autospec=True, side_effect=lambda of, *it, line=Repository.line: (
                read.append(it) or line(of, *it))):
            one = self.origin.land("core", 1, {"own": "1"}, message_of("core", 1, 1))
            self.assertEqual(self.close(12), [])
            two = self.origin.land("core", 2, {"own": "2"}, message_of("core", 2, 2))
            self.assertEqual(self.close(13, 14), ["closed 3 1"])
        self.assertEqual(read, [(one,), (two, one)])

    def test_landings_of_both_forms_and_of_this_file_are_read(self) -> None:
        first = str(self.adapter.gate.first())
        for number in (12, 13, 14):
            self.be(number, 0)
        self.look()
        first = str(self.adapter.gate.first())
        self.origin.land("core", 1, {"own": "0"}, earlier_message("0c000000-0000-4000-8000-000000000001", "core", 1, 3))
        self.origin.land("core", 1, {"own": "1"}, earlier_message(first, "core", 1, 1))
        self.origin.land("core", 2, {"own": "2"}, message_of("core", 2, 2))
        self.assertEqual(self.close(12, 13, 14), ["closed 3 1"])

    def test_what_another_file_has_landed_is_below_the_first_note(self) -> None:
        self.be(12, 0)
        self.look()
        self.origin.first("core", self.origin.land("core", 7, {"own": "1"}, message_of("core", 7, 1)))
        self.assertEqual(self.close(12), ["closed 1 1"])


if __name__ == "__main__":
    import unittest
    unittest.main()
