"""Makes the pictures of the page, from a real gate whose changes have titles.

    GATED=... PICTURES=docs/pictures python3 -m unittest companions.tests.pictures
"""
from __future__ import annotations

import hashlib
import json
import os
import time
from pathlib import Path
from typing import Any

from companions.people_texts import unmarked
from companions.tests.page_case import PageTest, request

PICTURES = Path(os.environ.get("PICTURES", "docs/pictures")).resolve()
# The most bytes of a picture.
MOST = 150_000
WHO = {101: (11, "Read settings once", "ann"), 102: (12, "Retry uploads that break off", "bob"),
       103: (13, "Show how long an upload takes", "carol"), 104: (14, "Drop the old upload form", "dan"),
       105: (15, "Say which file couldn't be read", "eve"), 106: (16, "Sort files by their dates", "ann"),
       90: (8, "Warn before a large upload", "carol"), 91: (9, "Bound the size of a file's name", "bob"),
       301: (31, "Explain uploads that break off", "fay"), 302: (32, "Greet in four languages", "gil")}
REPOSITORIES = {"lib": "acme/lib", "app": "acme/app", "site": "acme/site"}
LOG = """build {build}: change 102, revision 1, unit, after landing 1, behind [(101, 1)]
app: commit 2c1f0e7b53a94d1e8f6b7c9d0a1b2c3d4e5f6071, tree 9f8e7d6c5b4a39281706f5e4d3c2b1a098765432
in app, for 3600 s at most: make check

test_upload_is_retried ... ok
test_upload_gives_up_after_five_tries ... ok
test_nothing_is_sent_twice ... """


class Pictures(PageTest):
    def request(self, change: int, project: str, says: str, *advice: str, **more: Any) -> dict[str, Any]:
        number, title, author = WHO[change]
        repository = REPOSITORIES[project]
        return {**request(number, title, author=author, name=f"{repository}#{number}", says=unmarked(says),
                          advice=[unmarked(it) for it in advice],
                          revisions=[{"revision": 1, "hash": hashlib.sha1(title.encode()).hexdigest(), "approvals": 1,
                                      "withdrawn": 0}]),
                "address": f"https://forge.example/{repository}/pulls/{number}", **more}

    def take(self, outcome: str | None) -> int:
        build = int(self.tell(kind="take", worker="w1")["build"])
        if outcome is not None:
            self.tell(kind="result", build=build, outcome=outcome)
        return build

    def play(self) -> int:
        """A morning: one landed, one failed, one passed, one fails, one is blocked by that. A build that runs."""
        self.approved(90, "app")
        self.take("success")
        self.tell(kind="landed", order=1)
        self.approved(91, "app")
        self.take("failure")
        for change, project, need in ((101, "lib", None), (102, "app", None), (103, "app", 102), (104, "app", None),
                                      (105, "app", None), (106, "lib", None), (302, "site", None), (301, "site", 102)):
            self.approved(change, project, need)
        self.take("success")
        self.take(None)
        build = self.take(None)
        now = round(time.time())
        running = json.dumps({"builds": {build - 1: now - 412, build: now - 95}})
        (self.folder / "page" / "running.json").write_text(running)
        self.say({
            90: self.request(90, "app", "**Landed in `core` as 1.**", order=1),
            91: self.request(91, "app", "**Left `core`: its tests failed.**", order=2),
            101: self.request(101, "lib", "**Being tested in `core`.**"),
            102: self.request(102, "app", "**Being tested in `core`.**", "`unit` running.",
                              "If you push a new commit, it leaves the queue and has to be approved again."),
            103: self.request(103, "app", "**Queued in `core`.**", needs=[102]),
            104: self.request(104, "app", "**Queued in `core`.**"),
            105: self.request(105, "app", "**Queued in `core`.**"),
            106: self.request(106, "lib", "**Queued in `core`.**"),
            302: self.request(302, "site", "**Queued in `web`.**"),
            301: self.request(301, "site", "**Approved, and waits to enter `web`.** acme/app#12 stands in the queue"
                              " `core`: wait until it has landed.", needs=[102])})
        return build

    def shoot(self, name: str, width: int, height: int, scheme: str, until: str) -> None:
        self.browser.tell("Emulation.setEmulatedMedia", features=[{"name": "prefers-color-scheme", "value": scheme}])
        self.browser.tell("Emulation.setDeviceMetricsOverride", width=width, height=height, deviceScaleFactor=1,
                          mobile=False)
        self.browser.wait(lambda: until in " ".join(self.browser.text("#view")))
        self.browser.run("document.activeElement.blur()")
        file = PICTURES / f"{name}.png"
        self.browser.picture(file)
        self.assertLess(file.stat().st_size, MOST, name)

    def test_pictures(self) -> None:
        PICTURES.mkdir(parents=True, exist_ok=True)
        build = self.play()
        (self.folder / "logs" / str(build)).mkdir()
        (self.folder / "logs" / str(build) / "unit-0a0b0c0d.log").write_text(LOG.format(build=build))
        self.look()
        self.browser.wait(lambda: "failed its tests: unit failed" in " ".join(self.browser.text(".lately li")))
        self.shoot("queues", 1100, 980, "light", "Retry uploads")
        self.shoot("narrow", 400, 800, "dark", "Retry uploads")
        self.browser.run("location.hash = '#/changes/102'")
        self.shoot("change", 1100, 620, "dark", f"build {build}")
        self.browser.run(f"location.hash = '#/builds/{build}'")
        self.shoot("build", 1100, 620, "light", "test_nothing_is_sent_twice")
