"""The logs that a CI names stand in the adapter's comments and for the page, for the very builds that they are of."""
from __future__ import annotations

import json
import tempfile
import unittest
from pathlib import Path
from typing import Any
from unittest import mock

from companions import links
from companions.links import Link, Links
from companions.links_file import LinksFile
from companions.people_others import KnownByOthers
from companions.people_seen import Report, Seen, Words
from companions.people_texts import text_of
from companions.tests.test_people_texts import PLACES, subject

LOGS = "https://logs.example/{build}.txt"
CI = "https://ci.example/#/builds/3"


def build(number: int, job: str = "unit", outcome: str = "failure") -> dict[str, Any]:
    return {"build": number, "job": job, "live": True, "outcome": outcome}


class Comments(unittest.TestCase):
    def setUp(self) -> None:
        temporary = tempfile.TemporaryDirectory()
        self.addCleanup(temporary.cleanup)
        self.folder = Path(temporary.name)
        self.others = KnownByOthers(self.folder, lambda change: None, mock.Mock(cause=lambda *_: None))

    def comment(self, *builds: dict[str, Any]) -> str:
        seen = Seen(report=Report("core", 5, 1, "failed", None), builds=builds, voting=frozenset({"unit"}))
        text = text_of(subject(), self.others()(subject(), seen), Words(PLACES.get, "#", LOGS, "o/app"))
        assert text is not None
        return text.comment[1]

    def test_the_link_of_the_ci_stands_in_the_place_of_the_settings_one(self) -> None:
        self.assertEqual(self.comment(build(7)), "- `unit` failed: [build 7](https://logs.example/7.txt)")
        Links(self.folder).put(Link(7, 101, 1, "unit", CI))
        self.assertEqual(self.comment(build(7)), f"- `unit` failed: [build 7]({CI})")
        self.assertEqual(self.comment(*(build(it, outcome="lost") for it in (6, 7, 8))),
                         "- `unit` was lost each time, its workers being gone: [build 6](https://logs.example/6.txt),"
                         f" [build 7]({CI}), [build 8](https://logs.example/8.txt)")

    def test_a_link_is_of_its_build_change_revision_and_job(self) -> None:
        for it in (Link(8, 101, 1, "unit", CI), Link(7, 102, 1, "unit", CI), Link(7, 101, 2, "unit", CI),
                   Link(7, 101, 1, "docs", CI)):
            Links(self.folder).put(it)
        self.assertEqual(self.comment(build(7)), "- `unit` failed: [build 7](https://logs.example/7.txt)")

    def test_the_newest_links_are_kept(self) -> None:
        writing = Links(self.folder)
        with mock.patch.object(links, "MOST", 3):
            for number in (1, 2, 3, 4):
                writing.put(Link(number, 101, 1, "unit", CI))
            writing.put(Link(3, 101, 1, "unit", CI + "0"))
        self.assertEqual([(it.build, it.link) for it in links.read(links.file_in(self.folder))],
                         [(2, CI), (4, CI), (3, CI + "0")])
        self.assertEqual(Links(self.folder).all, writing.all)


class Page(unittest.TestCase):
    """What the watch writes for the page."""

    def setUp(self) -> None:
        temporary = tempfile.TemporaryDirectory()
        self.addCleanup(temporary.cleanup)
        self.folder = Path(temporary.name)
        (self.folder / "page").mkdir()
        self.file = LinksFile(self.folder, self.folder / "page")

    def written(self) -> list[dict[str, Any]]:
        return list(json.loads((self.folder / "page" / "links.json").read_text("ascii"))["builds"])

    def test_it_has_what_the_ci_keeps_and_the_web_alone(self) -> None:
        self.file.look()
        self.assertEqual([*(self.folder / "page").iterdir()], [])
        Links(self.folder).put(Link(7, 101, 1, "unit", CI))
        links = ("javascript:alert(1)", "data:text/html,x", "", "//ci.example/", "file:///etc")
        for number, link in enumerate(links, 8):
            Links(self.folder).put(Link(number, 101, 1, "unit", link))
        self.file.look()
        self.assertEqual(self.written(), [{"build": 7, "change": 101, "revision": 1, "job": "unit", "link": CI}])

    def test_it_is_written_where_there_are_others(self) -> None:
        Links(self.folder).put(Link(7, 101, 1, "unit", CI))
        self.file.look()
        before = self.file.file.stat().st_ino
        self.file.look()
        self.assertEqual(self.file.file.stat().st_ino, before)
        Links(self.folder).put(Link(8, 101, 1, "docs", CI))
        self.file.look()
        self.assertEqual([it["build"] for it in self.written()], [7, 8])
        self.file.file.unlink()
        self.file.look()
        self.assertEqual([it["build"] for it in self.written()], [7, 8])


if __name__ == "__main__":
    unittest.main()
