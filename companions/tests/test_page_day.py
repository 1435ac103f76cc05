"""A day that the companions play, in a real browser: all day the page says of each item what the routes say."""
from __future__ import annotations

import json
import os
import shutil
import subprocess
import tempfile
import threading
import time
import unittest
import urllib.error
import urllib.request
from pathlib import Path
from typing import Any

from companions.tests.browser import Browser
from companions.tests.day.stage import search
from companions.tests.service import PROGRAM, TOP

WORDS = {"success": "passed", "failure": "failed"}
# Somebody comes back to the page; how often it has looked at the gate.
COMES_BACK = """document.dispatchEvent(new Event("visibilitychange"));
return document.getElementById("view")?.dataset.looks ?? 0"""
# What the page says: each item with its queue, its change, how it stands and its jobs; and what waits to enter.
SAYS = """
const all = (within, what) => [...within.querySelectorAll(what)];
const change = (it) => Number(it.querySelector(".heading a").hash.split("/")[2]);
return [
    all(document, ".train > .item").map((it) => [it.closest(".queue").querySelector("h2").textContent, change(it),
        it.classList[1], all(it, ".job > :not([aria-hidden])").map((job) => job.textContent)]),
    all(document, ".waiting > li").map(change)]"""
LATELY = """return [...document.querySelectorAll(".queue")].map((it) => [it.querySelector("h2").textContent,
    [...it.querySelectorAll(".lately li .stands")].map((one) => one.textContent.split(":")[0])])"""
BUILDS = """return [...document.querySelectorAll("#view > section")].filter((it) => /^Tests of/.test(it.textContent))
    .map((it) => [it.querySelector("h3").textContent,
        [...it.querySelectorAll("tbody tr")].map((row) => [...row.cells].map((cell) => cell.textContent))])"""
LEFT = {"landed": "landed as {}", "failed": "failed its tests", "refused": "was refused by the lander",
        "needs": "left, since a need did", "superseded": "left for a new commit",
        "withdrawn": "left, its approval withdrawn", "closed": "left, closed"}


def said_by(status: str) -> list[Any]:
    """The same, by the text of the status."""
    items, waiting, queue = list[Any](), list[int](), ""
    for words in (line.split() for line in status.splitlines()[:-1]):
        if words[0] == "queue":
            queue = words[1]
        elif words[0] == "waiting":
            waiting.append(int(words[1]))
        else:
            jobs = [it.split("=") for it in words[5:]]
            items.append([queue, int(words[1]), words[4], [f"{job} {WORDS.get(slot, slot)}" for job, slot in jobs]])
    return [items, waiting]


class DayTest(unittest.TestCase):
    def setUp(self) -> None:
        for name in ("nginx", "chromium", "chromedriver"):
            self.assertIsNotNone(shutil.which(name, path=search()), f"{name} isn't there")
        room = tempfile.TemporaryDirectory(ignore_cleanup_errors=True)
        self.addCleanup(room.cleanup)
        self.browser = Browser(Path(room.name))
        self.addCleanup(self.browser.close)
        around = {**os.environ, "GATED": str(PROGRAM), "SLOW": "1", "PATIENCE": "1000"}
        self.day = subprocess.Popen(["bash", TOP / "examples" / "gitea" / "run.sh", "--page"], env=around, text=True,
                                    stdin=subprocess.PIPE, stdout=subprocess.PIPE, stderr=subprocess.STDOUT)
        # What it has started ends with it.
        self.addCleanup(self.day.wait)
        self.addCleanup(self.day.terminate)
        self.said: list[str] = []
        self.reader = threading.Thread(target=self.read, daemon=True)
        self.reader.start()
        self.address = self.await_line("look at ").removeprefix("look at ")

    def read(self) -> None:
        assert self.day.stdout is not None
        with self.day.stdout as lines:
            self.said.extend(iter(lines.readline, ""))

    def await_line(self, begins: str) -> str:
        until = time.monotonic() + 300
        while not (found := [it.strip() for it in list(self.said) if it.startswith(begins)]):
            self.assertTrue(self.reader.is_alive() and time.monotonic() < until, "".join(self.said))
            time.sleep(0.1)
        return found[0]

    def is_over(self) -> bool:
        self.assertTrue(self.reader.is_alive(), "".join(self.said))
        return any(it.startswith("the day is over") for it in list(self.said))

    def get(self, path: str) -> str | None:
        """What the host says at a path; none while the gate is away."""
        try:
            with urllib.request.urlopen(f"{self.address}{path}", timeout=60) as answer:
                return str(answer.read().decode())
        except (OSError, urllib.error.HTTPError):
            return None

    def look(self) -> bool:
        """Has the page look at the gate, from now on: the look that is under way doesn't count. Whether it did so."""
        before, until = int(self.browser.run(COMES_BACK)), time.monotonic() + 5
        while int(self.browser.run(COMES_BACK)) < before + 2:
            if time.monotonic() > until:
                return False
            time.sleep(0.05)
        return True

    def is_the_same(self) -> bool:
        """Whether the gate stayed as it was during a look. Then the page says just that."""
        before = self.get("status")
        if before is None or not self.look():
            return False
        says, after = self.browser.run(SAYS), self.get("status")
        if before != after:
            return False
        self.assertEqual(says, said_by(before))
        return True

    def test_the_page_says_what_the_routes_say(self) -> None:
        self.browser.go(self.address)
        compared, stood = 0, 0
        while not self.is_over():
            if self.is_the_same():
                compared += 1
                stood += bool(self.browser.text(".train > .item"))
            time.sleep(0.1)
        self.assertIn("ok\n", self.said)
        self.assertGreater(compared, 10)
        self.assertGreater(stood, 3)
        self.browser.wait(self.is_the_same)
        self.browser.wait(self.has_what_left)
        shown = json.loads(self.get("requests.json") or "{}")["requests"]
        self.assertGreater(len(shown), 6)
        for it in shown:
            with self.subTest(it["name"]):
                self.check_change(it)
        assert self.day.stdin is not None
        self.day.stdin.close()
        self.assertEqual(self.day.wait(60), 0)

    def has_what_left(self) -> bool:
        """Whether the page says of each queue what left it last. It may lag by the second for which the proxy keeps
        an answer."""
        return all(says == self.left(queue) for queue, says in self.browser.run(LATELY))

    def left(self, queue: str) -> list[str]:
        rows = [line.split() for line in (self.get(f"history/{queue}") or "").splitlines()[1:-1]]
        return [LEFT[row[4]].format(row[5]) for row in reversed(rows[-10:])]

    def check_change(self, it: dict[str, Any]) -> None:
        """The sentence of the adapter, and all builds of its last item."""
        self.browser.run("location.hash = arguments[0]", f"#/changes/{it['change']}")
        says = [" ".join(it["says"].split())] if it["says"] else []
        self.browser.wait(lambda: self.browser.text("table") and self.browser.text(".says") == says)
        self.assertEqual(self.browser.text("#view > h2"), [it["title"]])
        hashes = [one["hash"] for one in it["revisions"]]
        self.browser.wait(lambda: self.browser.text("[aria-label=revisions] td:nth-child(2)") == hashes)
        if it["order"] is not None:
            item = json.loads(self.get(f"items/{it['order']}") or "{}")
            wanted = [f"Tests of item {it['order']}", [
                [f"build {one['build']}", one["job"], one["outcome"], "counts" if one["live"] else "doesn't count"]
                for one in item["builds"]]]
            self.browser.wait(lambda: wanted in self.browser.run(BUILDS))


if __name__ == "__main__":
    unittest.main()
