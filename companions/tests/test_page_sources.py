"""The files of the page: few, as they are written, with no word of another host, and each is given out by the proxy."""
from __future__ import annotations

import re
import unittest

from companions.tests.service import SERVICE

PAGE = SERVICE.parent / "page"
# So many lines have all of them together at most.
MOST = 999
# What would make an element of somebody's text, or run it.
MARKUP = re.compile(r"innerHTML|outerHTML|insertAdjacentHTML|document\.write|DOMParser|createContextualFragment|eval\("
                    r"|new Function|setTimeout\(['\"`]|srcdoc")


class SourcesTest(unittest.TestCase):
    def setUp(self) -> None:
        self.files = {it.name: it.read_text(encoding="utf-8") for it in sorted(PAGE.iterdir())}
        self.scripts = {name: text for name, text in self.files.items() if name.endswith(".js")}

    def test_they_are_few_lines(self) -> None:
        self.assertGreater(len(self.scripts), 5)
        self.assertLessEqual(sum(text.count("\n") for text in self.files.values()), MOST)

    def test_scripts_are_of_this_folder_alone(self) -> None:
        """No framework, and nothing that has to be built."""
        found = set(re.findall(r'^(?:import|export) .*? from "(.*?)";$', "\n".join(self.scripts.values()),
                               re.MULTILINE))
        self.assertLessEqual(found, {f"./{it}" for it in self.scripts})
        self.assertEqual({f"./{it}" for it in self.scripts} - found, {"./page.js"})
        for name, text in self.scripts.items():
            self.assertEqual(len(re.findall(r"^import |\bimport\(", text, re.MULTILINE)),
                             len(re.findall(r'^import .*? from "\./', text, re.MULTILINE)), name)

    def test_no_other_host_is_named(self) -> None:
        for name, text in self.files.items():
            self.assertEqual(re.findall(r"(?:https?:|wss?:)?//[a-z0-9]+\.\S*", text), [], name)

    def test_nothing_is_made_of_markup(self) -> None:
        for name, text in self.scripts.items():
            self.assertEqual(MARKUP.findall(text), [], name)
        page = self.files["index.html"]
        self.assertEqual(re.findall(r"<script[^>]*>", page), ['<script type="module" src="page.js">'])
        self.assertEqual(re.findall(r"<style|\sstyle=|\son[a-z]+=", page), [])

    def test_the_proxy_gives_out_each_of_them(self) -> None:
        found = re.search(r"location ~ (\^/\(\|index\S*) \{", (SERVICE / "gate.conf").read_text(encoding="utf-8"))
        assert found is not None
        self.assertEqual([it for it in self.files if not re.match(found[1], f"/{it}")], [])


if __name__ == "__main__":
    unittest.main()
