from __future__ import annotations

import contextlib
import io
import unittest
from unittest import mock

from companions import adapter, lander, watch
from companions.settings import Settings
from companions.starting import hold_of, start
from companions.tests.test_core import ADAPTER, WHOLE, Case

MAINS = {"lander": lander.main, "adapter": adapter.main, "watch": watch.main}


class Folder(Case):
    """The hold of a part on its folder, which it takes before all else."""

    def said(self, part: str) -> tuple[bool, str]:
        with contextlib.redirect_stderr(io.StringIO()) as said:
            hold = hold_of(part, self.folder / "below" / part)
        if hold is not None:
            self.addCleanup(hold.close)
        return hold is not None, said.getvalue()

    def test_one_process_has_it(self) -> None:
        self.assertEqual(self.said("lander"), (True, ""))
        self.assertEqual(self.said("lander"), (False, "lander: stops: another lander has the folder\n"))

    def test_a_folder_that_can_not_be_made_is_told(self) -> None:
        (self.folder / "below").touch()
        for part in MAINS:
            path = self.folder / "below" / part
            self.assertEqual(self.said(part), (False, f"{part}: stops: its folder can't be used: [Errno 20] Not a"
                                                      f" directory: '{path}'\n"))


class Start(Case):
    def setUp(self) -> None:
        super().setUp()
        self.file = self.folder / "companions.toml"
        self.write(WHOLE + ADAPTER)

    def write(self, text: str) -> None:
        self.file.write_text(text.replace("/var/lib/companions", str(self.folder / "below")), encoding="utf-8")

    def started(self, part: str, *words: str) -> tuple[int, str]:
        with contextlib.redirect_stderr(io.StringIO()) as said:
            return MAINS[part](list(words)), said.getvalue()

    def test_it_runs_with_the_settings_while_it_has_its_folder(self) -> None:
        def run(settings: Settings) -> int:
            self.assertEqual(settings.folder, self.folder / "below")
            self.assertEqual(self.started("watch", str(self.file)), (1, "watch: stops: another watch has the folder\n"))
            return 7

        self.assertEqual(start("watch", [str(self.file)], run), 7)

    def test_the_folder_is_free_when_it_ends(self) -> None:
        run = mock.Mock(side_effect=[ValueError, 0])
        with self.assertRaises(ValueError):
            start("watch", [str(self.file)], run)
        self.assertEqual(start("watch", [str(self.file)], run), 0)

    def test_wrong_words_are_told(self) -> None:
        for part in MAINS:
            for words in ((), ("a", "b")):
                with self.subTest(part, words=words):
                    self.assertEqual(self.started(part, *words),
                                     (2, f"usage: python3 -m companions.{part} companions.toml\n"))

    def test_wrong_settings_are_told(self) -> None:
        self.write(WHOLE.replace("folder =", "folders ="))
        for part in MAINS:
            with self.subTest(part):
                self.assertEqual(self.started(part, str(self.file)), (1, f"{self.file}: folder: is missing\n"))

    def test_an_adapter_without_its_table_stops(self) -> None:
        self.write(WHOLE)
        self.assertEqual(self.started("adapter", str(self.file)),
                         (1, "adapter: stops: the settings have no table [adapter]\n"))

    def test_parts_end_where_they_have_no_folder(self) -> None:
        (self.folder / "below").touch()
        for part in MAINS:
            with self.subTest(part):
                status, said = self.started(part, str(self.file))
                self.assertEqual(status, 1)
                self.assertIn(f"{part}: stops: its folder can't be used: ", said)


if __name__ == "__main__":
    unittest.main()
