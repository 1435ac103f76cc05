"""What the page asks for, in a real browser: one thing at a time, what has changed, and that while somebody sees it."""
from __future__ import annotations

import time
import unittest

from companions.tests.page_case import PageTest, request

# From when to when each question took, in the order in which they began. Of a refusal no more than its head is read.
SPANS = """return performance.getEntriesByType("resource").filter((it) => it.initiatorType === "fetch")
    .map((it) => [it.startTime, it.responseStatus === 200 ? it.responseEnd : it.responseStart])
    .sort((a, b) => a[0] - b[0])"""
# Somebody comes back to the page again and again.
COMES_BACK = "for (let at = 0; at < 20; at += 1) document.dispatchEvent(new Event('visibilitychange'));"
HIDES = "Object.defineProperty(document, 'hidden', {configurable: true, get: () => true})"
SHOWS = "delete document.hidden; document.dispatchEvent(new Event('visibilitychange'))"
# Somebody else asks for something, by the same proxy.
ASKS = "return fetch(new URL(arguments[0], location.origin), {cache: 'no-store'}).then((it) => it.text())"
# What each look may ask for: what runs is asked where the status is another one, and names now and then.
OFTEN = {"/status", "/running", "/running.json", "/requests.json"}


class LooksTest(PageTest):
    def test_it_asks_one_thing_at_a_time(self) -> None:
        """However often somebody comes back to it, and wherever he goes meanwhile."""
        self.approved(101, "lib")
        build = self.built("failure")
        (self.folder / "logs" / str(build)).mkdir()
        (self.folder / "logs" / str(build) / "unit-0a0b0c0d.log").write_text("one\n")
        self.look()
        for there in ("#/changes/101", f"#/builds/{build}", "#/", "#/changes/999", "#/"):
            before = len(self.asked())
            self.browser.run(f"{COMES_BACK} location.hash = arguments[0]; {COMES_BACK}", there)
            self.browser.wait(lambda it=before: len(self.asked()) > it + 3)
        spans = self.browser.run(SPANS)
        self.assertGreater(len(spans), 15)
        self.assertEqual([(a, b) for a, b in zip(spans, spans[1:]) if b[0] < a[1] - 1], [])

    def test_it_asks_nothing_while_nobody_sees_it(self) -> None:
        self.approved(101, "lib")
        self.look()
        self.browser.wait(lambda: self.items("core"))
        self.browser.run(HIDES)
        # What was under way ends.
        time.sleep(3)
        before = self.asked()
        self.approved(102, "app")
        time.sleep(12)
        self.assertEqual(self.asked(), before)
        self.browser.run(SHOWS)
        self.browser.wait(lambda: len(self.items("core")) == 2, returns=False)

    def test_only_what_has_changed_is_asked_for(self) -> None:
        """Who is approved changes no history, and what leaves a queue that of this queue alone. Where an answer fails,
        all is asked for again: then the next ones count."""
        self.approved(301, "site")
        self.look()
        self.browser.wait(lambda: self.items("web"))
        for change in range(101, 107):
            self.await_quiet()
            before = len(self.asked())
            self.approved(change, "app")
            self.browser.wait(lambda: len(self.items("core")) == 1)
            entered = {path for path, _ in self.asked()[before:]}
            before = len(self.asked())
            self.built("failure")
            said = f"change {change}failed its tests: unit failed"
            self.browser.wait(lambda it=said: self.browser.text(".lately li")[:1] == [it])
            left = {path for path, _ in self.asked()[before:]}
            if entered <= OFTEN and {it.rpartition("/")[0] for it in left - OFTEN} == {"/history/core", "/items"}:
                return
        self.fail(f"asked for {entered} where one had entered, and for {left} where it had left")

    def test_what_the_proxy_has_kept_is_asked_for_again(self) -> None:
        """For a second it answers as it did before: somebody has asked just before a change leaves."""
        for order, there, path, shown, wanted in (
                (1, "#/", "/history/core/1", ".lately li", "change 101failed its tests: unit failed"),
                (2, "#/changes/102", "/items/2", "#view p", "Revision 1, failed its tests.")):
            with self.subTest(there):
                self.approved(100 + order, "app")
                build = self.tell(kind="take", worker="w1")["build"]
                self.look(there)
                self.await_quiet()
                self.browser.run(HIDES)
                # What was under way ends, and no status is kept.
                time.sleep(3)
                self.assertNotIn("failed", self.browser.run(ASKS, path).partition('"builds"')[0])
                self.tell(kind="result", build=build, outcome="failure")
                self.browser.run(SHOWS)
                self.browser.wait(lambda at=shown, it=wanted: it in self.browser.text(at), returns=False)

    def test_names_that_are_the_same_are_not_sent_again(self) -> None:
        self.approved(101, "lib")
        self.say({101: request(11, "Read settings once")})
        self.look()
        self.browser.wait(lambda: self.names()[-1:] == [304])
        self.assertEqual(self.names()[0], 200)
        before = len(self.names())
        self.say({101: request(11, "Read settings twice")})
        self.browser.wait(lambda: "twice" in "".join(self.items("core")))
        self.assertIn(200, self.names()[before:])

    def names(self) -> list[int]:
        """With which statuses the adapter's file was answered."""
        return [status for path, status in self.asked() if path == "/requests.json"]


if __name__ == "__main__":
    unittest.main()
