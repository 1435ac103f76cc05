"""Long sentences that are found in small pages, and none in those of the repository: bench.test_sentences."""
from __future__ import annotations

import contextlib
import io
import tempfile
import unittest
from pathlib import Path

from bench import sentences
from bench.sentences import Sentence

# No sentence of a page has more words than this. Write with fewer than 31.
MOST = 35


def counts(page: str) -> list[tuple[int, int]]:
    """Each sentence of a page by its line and its words, but for those without any."""
    return [(it.line, it.words) for it in sentences.sentences(page) if it.words]


class Small(unittest.TestCase):
    def test_sentences_of_a_paragraph(self) -> None:
        page = "One is short. Is the\nother (or not)? Yes: 1.5 of 2, say. git is new.\n"
        self.assertEqual(list(sentences.sentences(page)), [
            Sentence(1, 3, "One is short."), Sentence(1, 5, "Is the other (or not)?"),
            Sentence(1, 5, "Yes: 1.5 of 2, say."), Sentence(1, 3, "git is new.")])

    def test_what_is_read_alone(self) -> None:
        page = ("# A heading\nand text\n\nTwo words\n- an item\n  that goes on\n\n  and its text\n1. first\n"
                "> a quote\n> goes on\n![A picture](x.png)\n")
        self.assertEqual(counts(page), [(1, 2), (2, 2), (4, 2), (5, 5), (8, 3), (9, 5), (12, 2)])

    def test_cells_are_lists(self) -> None:
        self.assertEqual(counts("| a cell; of two | one more. And this |\n|---|---|\n"), [(1, 2)] * 4)

    def test_a_semicolon_ends_no_sentence_elsewhere(self) -> None:
        self.assertEqual(counts("One goes on; it is one.\n"), [(1, 6)])

    def test_a_list_of_names_is_a_word(self) -> None:
        self.assertEqual(counts("See `a b`, `c`, `d` and `e`. Not `f` but `g`.\n"), [(1, 2), (1, 4)])

    def test_addresses_dont_count(self) -> None:
        self.assertEqual(counts("See [the page](docs/A.md#a. B c) too.\n"), [(1, 4)])

    def test_code_doesnt_count(self) -> None:
        page = ("A word\n\n    code that is indented\n\nand\n\n```\n| fenced | code |\n# code\n```\n- item\n\n"
                "  more\n\n        deep code\n")
        self.assertEqual(counts(page), [(1, 2), (5, 1), (11, 1), (13, 1)])

    def test_what_is_printed(self) -> None:
        with tempfile.TemporaryDirectory() as folder, contextlib.redirect_stdout(io.StringIO()) as out:
            top = Path(folder)
            (top / "docs").mkdir()
            (top / "README.md").write_text("One two three four.\n", encoding="utf-8")
            (top / "docs/A.md").write_text("# A\n\nOne two three.\n", encoding="utf-8")
            self.assertEqual([sentences.main(["--over", "2"], top), sentences.main(["--over", "3", "docs/*.md"], top)],
                             [1, 0])
        self.assertEqual(out.getvalue(), "README.md:1: 4 words: One two three four.\n"
                         "docs/A.md:3: 3 words: One two three.\n2 sentences over 2 words\n0 sentences over 3 words\n")


class Pages(unittest.TestCase):
    def test_no_sentence_is_long(self) -> None:
        self.assertGreater(len(list(sentences.long_ones(sentences.TOP, list(sentences.PAGES), 0))), 4000)
        self.assertEqual([f"{file}:{it.line}: {it.text}" for file, it in
                          sentences.long_ones(sentences.TOP, list(sentences.PAGES), MOST)], [])


if __name__ == "__main__":
    unittest.main()
