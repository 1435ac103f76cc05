"""The page for people, in a real browser: what it says is what the gate says, whatever titles, ages and sizes are."""
from __future__ import annotations

import json
import re
import urllib.parse

from companions.tests.page_case import HOSTILE, PageTest, request
from companions.tests.service import end

WORDS = {"success": "passed", "failure": "failed"}
OPACITY = "return getComputedStyle(document.getElementById('view')).opacity"
# Whether an element that was kept is there still, and in sight.
SEEN = """const it = window.read, top = it.getBoundingClientRect().top;
return it.isConnected && scrollY > 0 && top > -it.offsetHeight && top < innerHeight"""


class QueuesTest(PageTest):
    def test_queues_are_shown_as_the_gate_says(self) -> None:
        self.approved(101, "lib")
        self.approved(102, "app")
        self.approved(301, "site", 101)
        self.built("success")
        self.look()
        self.assertEqual(self.browser.text("h2"), ["core", "web", "Waits to enter"])
        self.assertEqual(self.browser.text(".facts"), ["2 items, of which the first 3 get tests; 0 landed",
                                                       "0 items, of which the first 2 get tests; 0 landed"])
        self.assertEqual(self.items("core"), ["change 101is tested✓ unit passed○ docs waiting",
                                              "change 102waits for a worker○ unit waiting"])
        self.assertEqual(self.browser.text(".waiting li"),
                         ["change 301approved, waits for change 101, which stands in core"])

    def test_each_item_has_the_jobs_of_the_status(self) -> None:
        """After each of a dozen deliveries, each item of the page is compared with the status of then."""
        for change in (101, 102, 103, 104, 105):
            self.approved(change, "lib" if change % 2 else "app")
        self.look()
        for outcome in ("success", "success", "failure", "success", "lost", "success"):
            self.built(outcome)
            wanted = self.shown_by_the_gate()
            self.browser.wait(lambda: self.shown_by_the_page() == wanted)
        self.tell(kind="landed", order=1)
        self.browser.wait(lambda: self.browser.text(".lately li")
                          and self.shown_by_the_page() == self.shown_by_the_gate())
        self.assertIn("change 101landed as 1", self.browser.text(".lately li"))
        self.assertIn("core: change 101 landed as 1.", self.browser.text("#news")[0])

    def shown_by_the_gate(self) -> list[tuple[int, list[str]]]:
        rows = [line.split() for line in self.gate_text("/status").splitlines()]
        return [(int(row[1]), [f"{job} {WORDS.get(slot, slot)}"
                               for job, _, slot in (it.partition("=") for it in row[5:])])
                for row in rows if row[0].isdigit()]

    def shown_by_the_page(self) -> list[tuple[int, list[str]]]:
        script = """return [...document.querySelectorAll(".train > .item")].map((it) => [
            Number(it.querySelector(".heading a").hash.split("/")[2]),
            [...it.querySelectorAll(".job")].map((job) => job.textContent.replace(/^. | for .*$/g, ""))])"""
        return [(change, jobs) for change, jobs in self.browser.run(script)]

    def test_what_failed_names_the_job_that_decided(self) -> None:
        self.approved(102, "app")
        self.built("failure")
        self.look()
        self.browser.wait(lambda: self.browser.text(".lately li") == ["change 102failed its tests: unit failed"])

    def test_builds_that_were_lost_decide_where_there_were_three(self) -> None:
        self.approved(102, "app")
        self.built("lost")
        self.built("failure")
        self.approved(103, "app")
        for _ in range(3):
            self.built("lost")
        self.look()
        self.browser.wait(lambda: self.browser.text(".lately li") == [
            "change 103failed its tests: unit was lost", "change 102failed its tests: unit failed"])

    def test_titles_are_text_and_links_are_of_the_web(self) -> None:
        """A title that is markup, and an address that is a script."""
        self.approved(101, "lib")
        self.approved(102, "app")
        self.say({101: request(11, HOSTILE),
                  102: request(12, "x", address="javascript:document.title=3", author=HOSTILE)})
        self.look()
        self.browser.wait(lambda: "quoted" in self.items("core")[0])
        self.assertTrue(self.items("core")[0].startswith(f"{HOSTILE} acme/lib#11, change 101, by bob"))
        self.assertTrue(self.items("core")[1].startswith(f"x acme/lib#12, change 102, by {HOSTILE}"))
        self.assertEqual(self.browser.run("return [document.images.length, document.scripts.length, document.title]"),
                         [0, 1, "Gate"])
        self.assertEqual(self.browser.run("return [...document.links].map((it) => it.protocol).sort()"),
                         ["https:"] * 4)

    def test_a_thousand_items_are_drawn_in_time(self) -> None:
        """A look at a full queue, of which the first item leaves, takes scripts less than 100 ms of the processor."""
        end(self.process)
        lines = [f'{{"id":"0e000000-0000-4000-8000-{at:012d}",{said}}}\n' for at, said in enumerate(
            said for change in range(1, 1001) for said in (
                f'"kind":"revision","change":{change},"project":"app","revision":1,"message":""',
                f'"kind":"approved","change":{change},"revision":1'))]
        self.process = self.served(self.gate("full.db", lines))
        self.browser.measure()
        self.look()
        self.browser.wait(lambda: self.count() == 1000)
        # Somebody reads far below: what he reads stays before his eyes.
        self.browser.run("window.read = document.querySelectorAll('.train > .item')[700]; window.read.scrollIntoView()")
        self.assertTrue(self.browser.run(SEEN))
        self.await_quiet()
        before = self.browser.script_seconds()
        self.built("failure")
        self.browser.wait(lambda: self.count() == 999)
        self.assertLess(self.browser.script_seconds() - before, 0.1)
        self.assertTrue(self.browser.run(SEEN))
        self.assertEqual(self.browser.text(".edge"), ["the window ends"])

    def count(self) -> int:
        return int(self.browser.run("return document.querySelectorAll('.train > .item').length"))


class ChangeTest(PageTest):
    def test_one_change_has_its_sentence_and_its_builds(self) -> None:
        self.approved(101, "lib")
        self.approved(102, "app", 101)
        build = self.built("success")
        said = {"says": "Being tested at place 1 of 2 in `core`.", "advice": ["If you push, it leaves the queue."]}
        self.say({101: request(11, "Read settings once", **said)})
        self.look("#/changes/101")
        self.browser.wait(lambda: self.browser.text("table"))
        self.assertEqual(self.browser.text("#view > h2, #view > p"), [
            "Read settings once", "acme/lib#11, change 101, by bob", "Being tested at place 1 of 2 in `core`.",
            "If you push, it leaves the queue.", "It needs no other change."])
        self.assertEqual(self.browser.text(".facts td"),
                         ["lib, whose queue is core", "open, at place 1 of 2: is tested", "1"])
        self.assertEqual(self.browser.text("[aria-label=revisions] td"), ["1", "a" * 40, "1"])
        self.assertEqual(self.browser.text("#view > section:last-child tbody td"),
                         [f"build {build}", "unit", "success", "counts"])
        self.assertEqual(self.browser.run("return document.querySelector('table a').hash"), f"#/builds/{build}")
        self.browser.run("location.hash = '#/changes/102'")
        self.browser.wait(lambda: self.browser.text("[aria-label=needs] li"))
        self.assertEqual(self.browser.text("[aria-label=needs] li"),
                         ["Read settings once (acme/lib#11, change 101): stands in core"])
        self.browser.run("location.hash = '#/changes/999'")
        self.browser.wait(lambda: "The gate knows no change 999." in self.browser.text("#view p"))

    def test_without_an_adapter_it_has_what_the_gate_says(self) -> None:
        self.approved(101, "lib")
        self.look("#/changes/101")
        self.browser.wait(lambda: self.browser.text("#view > section:last-child h3") == ["Tests of item 1"])
        self.assertEqual(self.browser.text("#view > h2, #view > p"), ["Change 101", "It needs no other change."])
        # No part of it is a text by itself.
        parts = "return [...document.getElementById('view').childNodes].map((it) => it.nodeName)"
        self.assertEqual(self.browser.run(parts), ["H2", "TABLE", "P", "SECTION"])

    def test_one_that_left_long_ago_has_its_builds(self) -> None:
        """By the order of its last item, which the adapter says."""
        self.approved(102, "app")
        build = self.built("failure")
        for change in range(201, 212):
            self.approved(change, "app")
            self.built("failure")
        self.say({102: request(12, "Use two", order=1)})
        self.look("#/changes/102")
        self.browser.wait(lambda: self.browser.text("#view > section:last-child tbody td")
                          == [f"build {build}", "unit", "failure", "counts"])
        self.assertIn("Revision 1, failed its tests.", self.browser.text("#view p"))

    def test_a_request_is_found_by_its_number_its_title_and_its_author(self) -> None:
        self.approved(101, "lib")
        self.say({101: request(11, "Read settings once"), 102: request(101, "Other", author="carol")})
        self.look()
        self.browser.wait(lambda: "Read settings" in self.items("core")[0])
        self.browser.press("/settings\ue007")
        self.browser.wait(lambda: self.browser.run("return location.hash") == "#/changes/101")
        first = "Read settings once (acme/lib#11, change 101)"
        for asked, found in (("101", [first, "Other (acme/lib#101, change 102)"]), ("#11", ["change 11", first]),
                             ("bob", [first]), ("none such", [])):
            with self.subTest(asked):
                self.browser.run(f"location.hash = '#/search/{urllib.parse.quote(asked)}'")
                self.browser.wait(lambda: asked in self.browser.text("#view h2")[0])
                self.assertEqual(self.browser.text("#view li"), found)
        # An address that was cut.
        self.browser.run("location.hash = '#/search/%'")
        self.browser.wait(lambda: self.browser.text("#view h2") == ["Found for “%”"])


class AwayTest(PageTest):
    def test_a_gate_that_is_away_is_shown_as_it_was(self) -> None:
        self.approved(101, "lib")
        self.look()
        shown = self.browser.wait(lambda: self.items("core"))
        end(self.process)
        said = self.browser.wait(self.age)
        self.browser.wait(lambda: (self.age() or 0) > said + 3, returns=False)
        self.assertEqual(self.items("core"), shown)
        self.assertLess(float(self.browser.run(OPACITY)), 0.9)
        self.assertEqual(self.browser.text("#news"), ["The gate doesn't answer."])
        self.file = self.gate("other.db", [])
        self.process = self.served(self.file)
        self.said = 500
        self.approved(201, "app")
        self.browser.wait(lambda: self.items("core") == ["change 201waits for a worker○ unit waiting"])
        self.browser.wait(lambda: self.browser.text("#age") == [""])
        self.browser.wait(lambda: "The gate answers again." in self.browser.text("#news")[0])
        self.assertEqual(self.browser.run(OPACITY), "1")

    def age(self) -> int | None:
        """For how many seconds the gate doesn't answer, by the page; none where it says nothing of that."""
        says = r"The gate doesn't answer: shown is what it said (\d+) s ago\."
        found = re.fullmatch(says, self.browser.text("#age")[0])
        return int(found[1]) if found else None

    def left_and_away(self) -> None:
        """The page has shown a change that left, and that the gate is away."""
        self.approved(102, "app")
        self.built("failure")
        self.look()
        self.browser.wait(lambda: self.browser.text(".lately li"))
        end(self.process)
        self.browser.wait(lambda: "stale" in self.browser.run("return document.body.className"))

    def test_another_file_of_the_gate_is_said(self) -> None:
        self.left_and_away()
        self.process = self.served(self.gate("other.db", []))
        self.browser.wait(lambda: "another file" in self.browser.text("#news")[0])
        self.browser.wait(lambda: not self.browser.text(".lately li"))

    def test_very_much_that_left_meanwhile(self) -> None:
        """More than one answer has: what is shown is what left last, and the gate has no other file by that."""
        # Its status is the same afterwards: what left is looked at since the gate was away.
        self.left_and_away()
        replies = self.gated("deliver", self.file, given="".join(
            f'{{"id":"0e000000-0000-4000-8000-{at:012d}",{said}}}\n' for at, said in enumerate(
                said for build in range(2, 1022) for said in (
                    f'"kind":"revision","change":{1000 + build},"project":"app","revision":1,"message":""',
                    f'"kind":"approved","change":{1000 + build},"revision":1', '"kind":"take","worker":"w1"',
                    f'"kind":"result","build":{build},"outcome":"failure"'))))
        self.assertNotIn('"error"', replies)
        self.process = self.served(self.file)
        self.browser.wait(lambda: self.browser.text(".lately li")[:1] == ["change 2021failed its tests: unit failed"])
        self.approved(103, "app")
        # The page looks at what left where the status has changed since its last look.
        self.browser.wait(lambda: self.items("core"))
        self.built("failure")
        self.browser.wait(lambda: self.browser.text(".lately li")[:1] == ["change 103failed its tests: unit failed"])
        self.assertNotIn("another file", self.browser.text("#news")[0])


class HostTest(PageTest):
    def test_nothing_of_another_host_is_asked_or_run(self) -> None:
        self.approved(101, "lib")
        self.look()
        names = self.browser.run("return performance.getEntriesByType('resource').map((it) => it.name)")
        own = f"https://127.0.0.1:{self.port}/"
        self.assertEqual([it for it in names if not re.sub("//.*@", "//", it).startswith(own)], [])
        self.browser.run("const it = document.createElement('script'); it.textContent = 'document.title = 4';"
                         "document.body.append(it)")
        self.assertEqual(self.browser.run("return document.title"), "Gate")

    def test_an_unchanged_gate_costs_one_answer_a_look(self) -> None:
        """Of a person who looks the gate is asked for the status alone. Where a machine has so much to do that an
        answer fails, the page asks for more, and the next looks count."""
        self.approved(101, "lib")
        self.look()
        self.browser.wait(lambda: self.items("core"))
        for _ in range(8):
            at, before = self.looks(), len(self.asked_of_the_gate())
            self.browser.wait(lambda: len(self.asked_of_the_gate()) >= before + 3, returns=False)
            asked, looks = self.asked_of_the_gate()[before:], self.looks() - at
            # One is under way, and the line of another one may have come when its look was counted.
            if len(asked) <= looks + 2 and {*asked} == {"/status"}:
                return
        self.fail(f"{looks} looks asked for {asked}")

    def looks(self) -> int:
        return int(self.browser.run("return document.getElementById('view').dataset.looks"))

    def asked_of_the_gate(self) -> list[str]:
        return [path for path, _ in self.asked() if not re.search(r"^/$|[.](js|css|json)$", path)]

    def test_it_is_narrow_named_and_legible(self) -> None:
        """Each view, with long words of people and of a job."""
        self.approved(101, "lib")
        self.approved(102, "app", 101)
        build = self.built("failure")
        self.say({101: request(11, "A title without any end " * 8, says="y" * 300, advice=["    z" + "z" * 300]),
                  102: request(12, "x" * 300, needs=[101])})
        (self.folder / "logs" / str(build)).mkdir()
        (self.folder / "logs" / str(build) / "unit-0a0b0c0d.log").write_text("w" * 3000 + "\n")
        self.addCleanup(self.browser.tell, "Emulation.clearDeviceMetricsOverride")
        self.look()
        for view, there in (("#/", ".item"), ("#/changes/101", "table"), (f"#/builds/{build}", "pre"),
                            ("#/search/without", "#view li")):
            self.browser.run("location.hash = arguments[0]", view)
            self.browser.wait(lambda it=there: self.browser.text(it) and "without" in self.browser.text("#view")[0])
            for width in (1100, 400):
                with self.subTest(view, width=width):
                    self.browser.tell("Emulation.setDeviceMetricsOverride", width=width, height=800,
                                      deviceScaleFactor=1, mobile=False)
                    self.browser.wait(lambda it=width: self.browser.run("return innerWidth") == it)
                    self.assertLessEqual(self.browser.run("return document.documentElement.scrollWidth"), width)
            for scheme in ("light", "dark"):
                with self.subTest(view, scheme=scheme):
                    self.browser.tell("Emulation.setEmulatedMedia", features=[
                        {"name": "prefers-color-scheme", "value": scheme}])
                    self.assertEqual(json.loads(self.browser.run(CHECKS)), [])


# Each text has a contrast of 4.5 to what is behind it (WCAG 2.1, 1.4.3), each control a name; no heading is skipped.
CHECKS = """
const faults = [];
const rgb = (it) => it.match(/[\\d.]+/g).map(Number);
const light = (it) => rgb(it).slice(0, 3).map((v) => v / 255)
  .map((v) => (v <= 0.03928 ? v / 12.92 : ((v + 0.055) / 1.055) ** 2.4))
  .reduce((sum, v, at) => sum + v * [0.2126, 0.7152, 0.0722][at], 0);
const behind = (it) => {
  for (let at = it; at; at = at.parentElement) {
    const color = getComputedStyle(at).backgroundColor;
    if ((rgb(color)[3] ?? 1) > 0) return color;
  }
  return "rgb(255, 255, 255)";
};
for (const it of document.querySelectorAll("body *")) {
  const own = [...it.childNodes].some((node) => node.nodeType === 3 && node.textContent.trim());
  if (!own || !it.getClientRects().length) continue;
  const [a, b] = [light(getComputedStyle(it).color), light(behind(it))].sort((x, y) => y - x);
  if ((a + 0.05) / (b + 0.05) < 4.5) faults.push(`contrast: ${it.tagName} ${it.textContent.slice(0, 30)}`);
}
for (const it of document.querySelectorAll("a, button, input")) {
  const named = it.textContent.trim() || it.labels?.length || it.getAttribute("aria-label");
  if (!named) faults.push(`no name: ${it.outerHTML}`);
}
let last = 0;
for (const it of document.querySelectorAll("h1, h2, h3")) {
  const level = Number(it.tagName[1]);
  if (level > last + 1) faults.push(`heading: ${it.textContent}`);
  last = level;
}
return JSON.stringify(faults);
"""
