"""A gate over a file of other pages than a new one's: it answers the same, and its copies keep them."""
from __future__ import annotations

import contextlib
import json
import sqlite3
from pathlib import Path

from companions.tests.service import TOP, ServiceTest

# The least and the greatest that SQLite has, a new file's, and that of the files of earlier programs.
SIZES = (512, 1024, 4096, 65536)
# Texts that take a part of a page, several small ones, and more than a great one has room for in a few rows.
TEXTS = (0, 700, 3_000, 16_000)


def long_day() -> list[str]:
    """The examples' day, and behind it changes enough for trees of several levels where pages are small."""
    deliveries = [json.loads(line) for line in (TOP / "examples" / "deliveries.jsonl").read_text().splitlines()]
    for at in range(120):
        change = 1_000 + at
        deliveries += [
            {"kind": "revision", "change": change, "project": "site", "revision": 1, "message": "x" * TEXTS[at % 4]},
            {"kind": "approved", "change": change, "revision": 1}, {"kind": "take", "worker": "w1"},
        ]
        if at % 3 == 0:
            deliveries.append({"kind": "withdrawn", "change": change, "revision": 1})
    for at, it in enumerate(deliveries):
        it["id"] = f"0d000000-0000-4000-8000-{at:012}"
    return [json.dumps(it) + "\n" for it in deliveries]


def page_size(file: Path) -> int:
    """By its header (https://sqlite.org/fileformat.html#page_size), where 1 stands for the greatest."""
    size = int.from_bytes(file.read_bytes()[16:18], "big")
    return 65_536 if size == 1 else size


class PageSizesTest(ServiceTest):
    def of_size(self, size: int) -> Path:
        file = self.folder / f"pages-{size}.db"
        with contextlib.closing(sqlite3.connect(file)) as tables:
            tables.execute(f"PRAGMA page_size = {size}")
            tables.execute("VACUUM")
        self.gated("init", file)
        return file

    def texts(self, file: Path) -> list[str]:
        """All that the program prints of a file."""
        paths = ("/status", "/orders", "/running", "/changes/101", "/items/1", "/builds/1", "/history/core/1")
        return [self.gated("status", file), self.gated("deliveries", file),
                *(self.gated("history", file, queue) for queue in ("core", "web")),
                *(self.gated("get", file, path) for path in paths)]

    def test_a_file_of_each_size_answers_the_same(self) -> None:
        lines = long_day()
        first: tuple[str, list[str]] | None = None
        for size in SIZES:
            with self.subTest(size):
                file = self.of_size(size)
                # Half of them to a gate that opens the file anew.
                replies = "".join(self.gated("deliver", file, given="".join(part)) for part in (lines[:90], lines[90:]))
                # Each line has one reply, and a second time the same.
                self.assertEqual(len(replies.splitlines()), len(lines))
                self.assertEqual(self.gated("deliver", file, given="".join(lines)), replies)
                seen = (replies, self.texts(file))
                first = first or seen
                self.assertEqual(seen, first)
                self.assertEqual(page_size(file), size)
                with contextlib.closing(sqlite3.connect(file)) as tables:
                    self.assertEqual(tables.execute("PRAGMA integrity_check").fetchall(), [("ok",)])

    def test_a_new_file_has_small_pages(self) -> None:
        self.assertEqual(page_size(self.gate("new.db", [])), 1_024)

    def test_copies_keep_the_pages_and_a_standby_made_anew_has_small_ones(self) -> None:
        lines = long_day()[:60]
        file = self.of_size(4_096)
        self.gated("deliver", file, given="".join(lines))
        copy, made = self.folder / "copy.db", self.folder / "made.db"
        self.assertEqual(self.run_script("backup", file, copy).returncode, 0)
        self.assertEqual(self.run_script("restore", copy, made).returncode, 0)
        self.assertEqual((page_size(copy), page_size(made)), (4_096, 4_096))
        self.assertEqual(self.texts(made), self.texts(file))
        # A follower tells a new file what the first one accepted: the same gate, over small pages.
        standby = self.gate("standby.db", [])
        self.gated("deliver", standby, given=self.gated("deliveries", file))
        self.assertEqual(page_size(standby), 1_024)
        self.assertEqual(self.texts(standby), self.texts(file))
