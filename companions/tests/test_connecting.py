"""What docs/CONNECTING.md shows: its example of settings, and what it computes by hand."""
from __future__ import annotations

import hashlib
import json
import re
import tempfile
import unittest
import uuid
from pathlib import Path

from companions.ids import revision_id, success_id
from companions.merging import Merge, Parent
from companions.settings import Settings, read
from companions.squash import Squash, squashed, tag_of

PAGE = Path(__file__).resolve().parents[2] / "docs" / "CONNECTING.md"


def example() -> str:
    """The companions.toml of the walk."""
    found: list[str] = re.findall(r"^```toml\n(folder .*?)^```", PAGE.read_text(encoding="utf-8"),
                                  re.MULTILINE | re.DOTALL)
    return found[0]


def settings_of(text: str) -> Settings:
    with tempfile.TemporaryDirectory() as folder:
        file = Path(folder) / "companions.toml"
        file.write_text(text, encoding="utf-8")
        return read(file)


class PageTest(unittest.TestCase):
    def test_the_example_is_read(self) -> None:
        settings = settings_of(example())
        self.assertIsNotNone(settings.adapter)
        assert settings.adapter is not None
        self.assertEqual((settings.adapter.form, settings.adapter.port), ("gitea", 8090))
        self.assertEqual([it.forge for it in settings.projects.values()], ["acme/lib"])
        self.assertIn(f'[forge]\nbase = "{settings.adapter.base}"\n', PAGE.read_text(encoding="utf-8"))

    def test_the_example_of_an_id_is_the_function_s(self) -> None:
        page = PAGE.read_text(encoding="utf-8")
        first = re.findall(r"^  `(\S+)` as the first delivery's id,$", page, re.MULTILINE)[0]
        array = re.findall(r'^      (\["revision", .*\])$', page, re.MULTILINE)[0]
        told = re.findall(r"^  gives `(\S+)`\.", page, re.MULTILINE)[0]
        _, change, revision, commit, *needs = json.loads(array)
        self.assertEqual(revision_id(first, int(change), int(revision), commit, map(int, needs)), told)
        self.assertEqual(str(uuid.uuid5(uuid.UUID(first), array)), told)

    def test_the_example_of_a_success_is_the_function_s(self) -> None:
        page = PAGE.read_text(encoding="utf-8")
        space, said = re.findall(r"name space is always `(\S+)`,.*?\n\n      (\[\"success\", .*?\])\n\n  gives `\S+`",
                                 page, re.DOTALL)[0]
        told = re.findall(r"^  gives `(\S+)`\. Failures", page, re.MULTILINE)[0]
        _, build, queue, change, revision, job, commit = json.loads(said)
        self.assertEqual(success_id(int(build), queue, int(change), int(revision), job, commit), told)
        self.assertEqual(str(uuid.uuid5(uuid.UUID(space), said)), told)
        self.assertIn(f"\n`{commit}`.\n", page)

    def test_the_example_of_a_landing_commit_is_the_function_s(self) -> None:
        text, commit = re.findall(r"queue:\n\n(    tree .*?)\n\nThis is the whole content.*?`([0-9a-f]{40})`",
                                  PAGE.read_text(encoding="utf-8"), re.DOTALL)[0]
        content = (re.sub("^    ", "", text, flags=re.MULTILINE) + "\n").encode()
        has = dict(line.split(" ", 1) for line in content.decode().split("\n\n")[0].splitlines()[:2])
        onto = Parent(has["parent"], 1764500000, "")
        other = re.findall(rb"^parent (.*)$", content, re.MULTILINE)[1].decode()
        what = Merge("core", 4, 103, 2, onto, Parent(other, 1764480000, "Use three"),
                     {"lib": content.decode().split()[-1]}, "gate <gate@localhost>")
        self.assertEqual(what.content(has["tree"]), content)
        self.assertEqual(hashlib.sha1(b"commit %d\0" % len(content) + content).hexdigest(), commit)

    def test_the_example_of_a_tag_is_the_function_s(self) -> None:
        page = PAGE.read_text(encoding="utf-8")
        text, = re.findall(r"with `land = \"squash\"`:\n\n(    object .*?)\n\n- ", page, re.DOTALL)
        content = (re.sub("^    ", "", text, flags=re.MULTILINE) + "\n").encode()
        commit, squash = squashed(content) or ("", Squash("", ""))
        self.assertEqual(squash, Squash("Ann Example <ann@example>", "Use three\n\nTwo were too few."))
        self.assertEqual(tag_of(commit, 103, 2, 1764480000, "gate <gate@localhost>", squash), content)

    def test_each_line_of_a_first_day_says_how_it_is_known(self) -> None:
        days = PAGE.read_text(encoding="utf-8").split("\n## The first day at a forge\n")[1].split("\n## ")[0]
        for form in ("GitHub", "Gitea", "GitLab"):
            table = days.split(f"\n### {form}, on the first day\n")[1].split("\n###")[0]
            rows = [it for it in table.splitlines() if it.startswith("| ")][1:]
            self.assertGreaterEqual(len(rows), 5)
            for row in rows:
                self.assertRegex(row.rstrip(" |").rpartition(" | ")[2], r"\b(recorded|run|read)\b", row)


if __name__ == "__main__":
    unittest.main()
