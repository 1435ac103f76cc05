"""What people are told, byte for byte: people_texts.txt has each text under the name of its case."""
from __future__ import annotations

import unittest
from pathlib import Path
from typing import Any

from companions.conflicts import Cause
from companions.forges import Place
from companions.gate import status_of
from companions.people_gate import circle_of, items_of
from companions.people_seen import Item, Report, Seen, Subject, Words, cut, failures_of, listed
from companions.people_texts import comment_of, text_of
from companions.requests import State

TEXTS = Path(__file__).with_name("people_texts.txt")
OLD, NEW = "a" * 40, "b" * 40
PLACES = {100: Place("o/lib", 7), 101: Place("o/app", 12), 102: Place("o/app", 13)}
WORDS = Words(PLACES.get, "#", "https://logs.example/{build}.txt", "o/app")
UNIT = frozenset({"unit"})
FAILED = ({"build": 16, "job": "unit", "live": False, "outcome": "success"},
          {"build": 17, "job": "unit", "live": True, "outcome": "failure"})
DOCS = ({"build": 18, "job": "docs", "live": True, "outcome": "failure"},)
LOST = tuple({"build": at, "job": "e2e", "live": True, "outcome": "lost"} for at in (3, 4, 9))


def subject(*commits: str, **other: Any) -> Subject:
    return Subject(101, PLACES[101], commits or (OLD,), **other)


def known(*needs: tuple[int, str, str | None, int | None], **other: Any) -> dict[str, Any]:
    """An answer about the change."""
    said = [{"change": it[0], "state": it[1], "stands": it[2], "approval": it[3]} for it in needs]
    return {"approval": None, "change": 101, "full": False, "needs": said, "order": None, "queue": "core",
            "revision": 1, "state": "open", **other}


def item(*rows: str, window: int = 3) -> Item:
    """Item 101 of a queue with these items."""
    queue = status_of([f"queue core window {window} landed 0", *rows]).queues[0]
    return {row[1]: it for row, it in items_of(queue)}["101"]


def report(verdict: str, n: int | None = None, revision: int = 1) -> Report:
    return Report("core", 5, revision, verdict, n)


AHEAD, FAILS = "4 102 1 - ok unit=running", "4 102 1 - failing unit=failure docs=running"
VOTES = ("bob isn't among those who may approve: review 3 doesn't count", "eve objects (review 4)")
LINES = tuple(f"Depends-On: <b>@all</b> \x1b`{at}`" for at in range(12))
CASES: dict[str, tuple[Subject, Seen]] = {
    "not known yet": (subject(), Seen()),
    "not known yet at this revision": (subject(OLD, NEW), Seen(known=known())),
    "not known yet at this revision, and the earlier one failed": (subject(OLD, NEW), Seen(report=report("failed"))),
    "not known yet at this revision, and the earlier one is queued": (
        subject(OLD, NEW), Seen(item("5 101 1 - ok unit=running"))),
    "the earlier revision is being landed": (subject(OLD, NEW), Seen(item("5 101 1 - ok unit=success"))),
    "closed before it was known": (subject(state=State.CLOSED), Seen()),
    "refused for its needs": (subject(refused="E13"), Seen()),
    "refused for its project": (subject(refused="E7"), Seen()),
    "refused for its other project": (subject(refused="E8"), Seen()),
    "not told, as it is dated ahead": (subject(refused="ahead"), Seen()),
    "not told, as it is dated ahead, and the earlier one was withdrawn": (
        subject(OLD, NEW, refused="ahead"), Seen(report=report("withdrawn"))),
    "refused for whatever": (subject(refused="E14"), Seen()),
    "refused, and the earlier revision is queued": (
        subject(OLD, NEW, refused="E13"), Seen(item("5 101 1 - ok unit=running"))),
    "not approved": (subject(), Seen(known=known())),
    "not approved at the new revision": (subject(OLD, NEW), Seen(known=known(revision=2), report=report("failed"))),
    "not approved, and has lines that name no request": (
        subject(lines=("Depends-On: https://elsewhere/1",)), Seen(known=known())),
    "many lines that name no request": (subject(lines=LINES), Seen(known=known())),
    "a long line": (subject(lines=("Depends-On: " + "x" * 300,)), Seen(known=known())),
    "waits for one that isn't approved": (subject(), Seen(known=known((102, "open", None, None), approval=3))),
    "waits for many": (subject(), Seen(known=known(
        (100, "open", "web", None), (102, "open", None, 4), (103, "unknown", None, None), (104, "closed", None, None),
        (105, "landed", None, None), (106, "open", "core", None), approval=3))),
    "waits for one that landed elsewhere": (subject(), Seen(known=known((100, "landed", None, None), approval=3))),
    "waits for a place": (subject(), Seen(known=known(approval=3, full=True))),
    "waits though its earlier item failed": (
        subject(), Seen(known=known((102, "open", None, None), approval=3), report=report("failed"))),
    "waits for itself": (
        subject(), Seen(known=known((101, "open", None, 3), approval=3), circle=frozenset({101}))),
    "waits in a circle": (
        subject(), Seen(known=known((102, "open", None, 4), approval=3), circle=frozenset({102}))),
    "entered since the status": (subject(), Seen(known=known(order=9))),
    "queued": (subject(), Seen(item("5 101 1 - ok unit=waiting docs=waiting"))),
    "queued behind another": (subject(), Seen(item(AHEAD, "5 101 1 4 ok unit=waiting"))),
    "queued without a window": (subject(), Seen(item(AHEAD, "5 101 1 4 ok unit=waiting", window=0))),
    "queued behind a window of one": (subject(), Seen(item(AHEAD, "5 101 1 4 ok unit=waiting", window=1))),
    "queued behind a window of two": (
        subject(), Seen(item(AHEAD, "6 103 1 4 ok unit=running", "5 101 1 6 ok unit=waiting", window=2))),
    "testing": (subject(), Seen(item(AHEAD, "5 101 1 4 ok unit=running docs=waiting e2e=success"))),
    "testing many jobs": (subject(), Seen(item("5 101 1 - ok a=running b=waiting c=success d=success e=failure"),
                                          voting=frozenset("abcd"))),
    "tested, and isn't the first": (
        subject(), Seen(item(AHEAD, "5 101 1 4 ok unit=success docs=failure"), voting=UNIT)),
    "being landed": (subject(), Seen(item(FAILS, "5 101 1 - ok unit=success docs=failure"))),
    "being landed, and the queue is stopped": (
        subject(), Seen(item(FAILS, "5 101 1 - ok unit=success docs=failure"),
                        stopped="main of lib is at a1, and the last landing left b2\n\x1btake back what was pushed")),
    "tested, and the queue is stopped": (
        subject(), Seen(item(AHEAD, "5 101 1 4 ok unit=success docs=failure"), stopped="because")),
    "blocked by one": (subject(), Seen(item(FAILS, "5 101 1 - blocked unit=waiting"), failing=frozenset({102}))),
    "blocked by two": (subject(), Seen(item(FAILS, "5 101 1 - blocked unit=waiting"), failing=frozenset({100, 102}))),
    "blocked by who knows": (subject(), Seen(item(FAILS, "5 101 1 - blocked unit=waiting"))),
    "failing behind another": (subject(), Seen(item(AHEAD, "5 101 1 4 failing unit=failure docs=failure"),
                                               builds=FAILED + DOCS, voting=UNIT)),
    "failing as the first": (subject(), Seen(item("5 101 1 - failing unit=failure docs=running"), builds=FAILED)),
    "failing, and its builds aren't known": (
        subject(), Seen(item("5 101 1 - failing unit=failure docs=skipped"), voting=UNIT)),
    "failed": (subject(), Seen(builds=FAILED, report=report("failed"))),
    "failed where votes are known": (subject(), Seen(builds=FAILED + DOCS, report=report("failed"), voting=UNIT)),
    "failed where votes aren't known": (subject(), Seen(builds=FAILED + DOCS, report=report("failed"))),
    "failed, as it conflicts with another": (
        subject(), Seen(builds=FAILED, report=report("failed"), cause=Cause(("a.txt", "b/<c>", "d"), 102))),
    "failed, as it was begun from one that landed as one commit": (
        subject(), Seen(builds=FAILED, report=report("failed"), cause=Cause(("a.txt",), 102, True))),
    "failed, as it conflicts with its branch": (
        subject(), Seen(builds=FAILED, report=report("failed"), cause=Cause(("x" * 200,)))),
    "failed, as it has no common past": (subject(), Seen(builds=FAILED, report=report("failed"), cause=Cause(()))),
    "failing, as it conflicts with another": (
        subject(), Seen(item(AHEAD, "5 101 1 4 failing unit=failure docs=running"), builds=FAILED,
                        cause=Cause(("a.txt",), 100))),
    "refused by the lander, as it conflicts with another": (
        subject(), Seen(report=report("refused"),
                        refused="it can't be merged into main: it conflicts with change 102 in a.txt")),
    "failed by losses": (subject(), Seen(builds=LOST, report=report("failed"))),
    "failed by a job that no worker knows": (
        subject(), Seen(builds=LOST, report=report("failed"), jobs=frozenset({"unit"}))),
    "failed by a job that no worker knows, and by another": (
        subject(), Seen(builds=FAILED + LOST, report=report("failed"), jobs=frozenset({"unit"}))),
    "failing by a job that no worker knows": (
        subject(), Seen(item("5 101 1 - failing e2e=failure unit=running"), builds=LOST, jobs=frozenset({"unit"}))),
    "failed by three jobs": (subject(), Seen(builds=FAILED + DOCS + LOST, report=report("failed"))),
    "failed by who knows what": (subject(), Seen(report=report("failed"))),
    "refused by the lander": (subject(), Seen(report=report("refused"))),
    "refused by the lander, which says why": (
        subject(), Seen(report=report("refused"), refused="the forge declines it: no landing on Sundays")),
    "refused by the lander, which says much": (
        subject(), Seen(report=report("refused"), refused="the forge declines it:\n" + 20 * "no landing on Sundays\n")),
    "left with a need": (subject(), Seen(
        known=known((102, "open", None, None), (100, "landed", None, None)), report=report("needs"))),
    "left with a need that landed since": (
        subject(), Seen(known=known((102, "landed", None, None)), report=report("needs"))),
    "withdrawn": (subject(), Seen(report=report("withdrawn"))),
    "landed": (subject(), Seen(report=report("landed", 7))),
    "waits for approval, and was renamed": (subject(earlier=("Use <b>three", "Two \x1bwere.")), Seen(known=known())),
    "landed, and was renamed": (subject(earlier=("Use three",)), Seen(report=report("landed", 7))),
    "landed as one commit": (subject(), Seen(report=report("landed", 7), landing="c" * 40)),
    "landed at the same commit with other needs": (subject(OLD, OLD), Seen(report=report("landed", 7))),
    "landed at an earlier commit": (subject(OLD, NEW), Seen(report=report("landed", 7))),
    "landed, and the history isn't read so far": (subject(), Seen(known=known(state="landed"))),
    "closed": (subject(state=State.CLOSED), Seen(known=known(state="closed"), report=report("closed"))),
    "closed, which the gate isn't told yet": (subject(state=State.CLOSED), Seen(item("5 101 1 - ok unit=waiting"))),
    "approved by one who may not": (subject(votes=VOTES), Seen(known=known())),
    "merged past the gate, approved by one who may not": (
        subject(votes=VOTES, state=State.MERGED), Seen(known=known(state="closed"))),
    "merged past the gate": (subject(state=State.MERGED), Seen(known=known(state="closed"))),
    "retargeted to a branch that isn't gated": (subject(is_gated=False), Seen(known=known(state="closed"))),
    "retargeted while it stands in the queue": (subject(is_gated=False), Seen(item("5 101 1 - ok unit=success"))),
    "known at a later revision": (subject(), Seen(known=known(revision=2))),
    "queued at a later revision": (subject(), Seen(item("5 101 2 - ok unit=success"))),
    "landed at a later revision": (subject(), Seen(report=report("landed", 7, 2))),
    "opened again, which the gate isn't told yet": (subject(), Seen(report=report("closed"))),
}


def shown(about: Subject, seen: Seen) -> str:
    text = text_of(about, seen, WORDS)
    return "nothing\n" if text is None else f"{text.state}: {text.status}\n\n{comment_of(about, text)}\n"


class TextsTest(unittest.TestCase):
    maxDiff = None

    def test_texts(self) -> None:
        told = "".join(f"== {name}\n{shown(*case)}" for name, case in CASES.items())
        self.assertEqual(told, TEXTS.read_text(encoding="utf-8"))

    def test_statuses_are_short(self) -> None:
        for name, case in CASES.items():
            with self.subTest(name):
                text = text_of(*case, WORDS)
                self.assertTrue(text is None or len(text.status) <= 120)

    def test_names(self) -> None:
        self.assertEqual([WORDS.request(it) for it in (100, 101, 103)], ["o/lib#7", "#12", "change 103"])
        words = Words(PLACES.get, "!", None, "o/lib")
        self.assertEqual([words.request(it) for it in (100, 101)], ["!7", "o/app!12"])
        self.assertEqual(words.build(17), "build 17")

    def test_failures(self) -> None:
        def of(*ends: tuple[str, bool]) -> list[str]:
            return [str(it) for it in failures_of(
                {"build": at, "job": "unit", "live": live, "outcome": end} for at, (end, live) in enumerate(ends, 1))]

        self.assertEqual(of(("lost", True), ("lost", True)), [])
        self.assertEqual(of(("lost", True), ("lost", True), ("lost", True)), ["unit was lost (build 3)"])
        self.assertEqual(of(("lost", False), ("lost", True), ("lost", True)), [])
        self.assertEqual(of(("failure", False), ("running", True)), [])
        self.assertEqual(of(("failure", True), ("success", True)), [])
        self.assertEqual(of(("lost", True), ("failure", True)), ["unit failed (build 2)"])

    def test_circles(self) -> None:
        needs = {1: (2, 5), 2: (3,), 3: (1,), 4: (4,), 5: (6,), 6: (5,)}
        self.assertEqual({it: set(circle_of(it, needs)) for it in range(1, 8)},
                         {1: {2}, 2: {3}, 3: {1}, 4: {4}, 5: {6}, 6: {5}, 7: set()})

    def test_small_parts(self) -> None:
        self.assertEqual(cut("x" * 140), "x" * 140)
        self.assertEqual(cut("x" * 141), "x" * 137 + "...")
        self.assertEqual([listed(list("abcd"[:at])) for at in range(5)], ["", "a", "a and b", "a, b and 1 more",
                                                                          "a, b and 2 more"])


if __name__ == "__main__":
    unittest.main()
