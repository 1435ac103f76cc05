"""Copies that are found in a small repository, and ceilings for this one: python3 -m unittest bench.test_copies."""
from __future__ import annotations

import contextlib
import io
import tempfile
import unittest
from pathlib import Path

from bench import copies

# So many lines of each part are in identical runs, and in alike ones. Lower them with the counts.
CEILINGS = {
    "src": (1825, 6654),
    "specs": (60, 168),
    "proofs": (1920, 3468),
    "tests": (1912, 3164),
    "companions": (76, 76),
    "companions' tests": (110, 172),
}
RUN = """    let mut front = 0;
    for row in rows {
        front += row.size(most);
    }
    store(front, most)?;
    Ok(front)
"""
RENAMED = """    let mut place = 0;

    // another name
    for item in items {
        place += item.size(limit);
    }
    store(place, limit)?;
  Ok(place)
"""
LIST = "".join(f"    pub {name}: {name.upper()},\n" for name in "abcdef")


class Small(unittest.TestCase):
    def setUp(self) -> None:
        folder = tempfile.TemporaryDirectory()
        self.addCleanup(folder.cleanup)
        self.top = Path(folder.name)

    def found(self, *texts: str) -> tuple[list[str], list[str]]:
        """The copies among texts, the identical ones and the alike ones, as they are listed."""
        files = []
        for at, text in enumerate(texts):
            files.append(self.top / f"{at}.rt")
            files[-1].write_text(text, encoding="utf-8")
        part = copies.Part(self.top, files)
        return ([part.shown(it) for it in part.copies(part.identical())],
                [part.shown(it) for it in part.copies(part.alike())])

    def test_identical_runs(self) -> None:
        said = ["6 lines: 0.rt:2, 1.rt:1"]
        self.assertEqual(self.found(f"fn one() {{\n{RUN}}}\n", RUN), (said, said))

    def test_blank_lines_comments_imports_and_indents_dont_count(self) -> None:
        lines = RUN.split("\n")
        other = "\n".join(["use crate::{\n    Rows,\n};", *lines[:2], "", "// why", "use std::io;", *lines[2:]])
        self.assertEqual(self.found(RUN, other.replace("    ", "  "))[0], ["6 lines: 0.rt:1, 1.rt:4"])

    def test_runs_that_are_too_short(self) -> None:
        self.assertEqual(self.found(RUN.replace("Ok(front)", "Ok(most)"), RUN)[0], [])

    def test_a_longer_copy_is_one(self) -> None:
        longer = RUN + "    let last = rows.len();\n    close(last)\n"
        self.assertEqual(self.found(longer, "fn f() {\n" + longer)[0], ["8 lines: 0.rt:1, 1.rt:2"])

    def test_runs_that_overlap_are_no_copies(self) -> None:
        self.assertEqual(self.found("    step();\n" * 11), ([], []))
        self.assertEqual(self.found("    step();\n" * 12)[0][0].split(", ")[0], "6 lines: 0.rt:1")

    def test_runs_end_with_their_file(self) -> None:
        lines = RUN.split("\n")
        self.assertEqual(self.found("\n".join(lines[:3]), "\n".join(lines[3:]), RUN), ([], []))

    def test_other_names(self) -> None:
        self.assertEqual(self.found(RUN, RENAMED), ([], ["6 lines: 0.rt:1, 1.rt:1"]))

    def test_names_that_appear_in_another_way(self) -> None:
        for old, new in (("store(place, limit)", "store(limit, place)"), ("= 0", "= 1"), ("size", "place"),
                         ("Ok(", "Err("), ("place += ", "place -= ")):
            with self.subTest(new):
                self.assertIn(old, RENAMED)
                self.assertEqual(self.found(RUN, RENAMED.replace(old, new)), ([], []))

    def test_lists_are_alike_only_if_they_are_identical(self) -> None:
        self.assertEqual(self.found(LIST, LIST.replace("a", "g"))[1], [])
        self.assertEqual(self.found(LIST, LIST)[0], ["6 lines: 0.rt:1, 1.rt:1"])

    def test_what_is_printed_of_each_part(self) -> None:
        for place in ("crates/low/src/a.rt", "crates/low/src/tests/a.rt", "crates/some_tests/src/a.rt",
                      "crates/some_tests/src/b.rt", "companions/tests/test_a.py", "companions/a.py", "companions/b.py"):
            (self.top / place).parent.mkdir(parents=True, exist_ok=True)
            (self.top / place).write_text(RUN, encoding="utf-8")
        with contextlib.redirect_stdout(io.StringIO()) as out:
            copies.main(["--list"], self.top)
        self.assertEqual([it for it in out.getvalue().splitlines() if " identical" in it or " lines: " in it], [
            "src: 0 of 6 lines identical, 0.0 %", "specs: 0 of 0 lines identical, 0.0 %",
            "proofs: 0 of 0 lines identical, 0.0 %", "tests: 18 of 18 lines identical, 100.0 %",
            *["    6 lines: " + ", ".join(f"crates/{it}.rt:1" for it in (
                "low/src/tests/a", "some_tests/src/a", "some_tests/src/b"))] * 2,
            "companions: 12 of 12 lines identical, 100.0 %", *["    6 lines: companions/a.py:1, companions/b.py:1"] * 2,
            "companions' tests: 0 of 6 lines identical, 0.0 %"])


class Ceilings(unittest.TestCase):
    def test_no_part_has_more_copies_than_before(self) -> None:
        parts = copies.parts_of(copies.TOP)
        self.assertEqual(parts.keys(), CEILINGS.keys())
        for name, part in parts.items():
            for kind, shared, most in zip(("identical", "alike"), (part.identical(), part.alike()), CEILINGS[name]):
                with self.subTest(name, kind=kind):
                    self.assertGreater(len(part.lines), 5000)
                    self.assertLessEqual(part.count(shared), most,
                                         f'see python3 bench/copies.py --list "{name}", and say it once')


if __name__ == "__main__":
    unittest.main()
