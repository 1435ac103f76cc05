"""The map of docs/ARCHITECTURE.md, and one of a small repository: python3 -m unittest bench.test_mapped, at the top."""
from __future__ import annotations

import contextlib
import io
import unittest
from unittest import mock

from bench import mapped
from bench.written import put, written

MAP = """# Architecture

| a verdict | in another table | `gone.rt` |

## Where to change what

| to change | begin at | then |
|---|---|---|
| a rule | `low/specs/Words.antt` | `records.rt`, and `proofs` |

| to add | what | files |
|---|---|---|
| a verdict | definitions | `low`: `records.rt`, `Words.antt` |
| | code | `high`: `gate.rt` |
| | proofs | `low` (`Cases`), `high` |
| | pages, scripts | docs/FORMATS.md. `companions`: `words.py` |
| a form of forge | code | `companions`: `forms.py` |
"""
FILES = {
    "docs/ARCHITECTURE.md": MAP,
    "docs/FORMATS.md": "landed\n",
    "companions/words.py": "WORDS = ('landed',)\n",
    "companions/forms.py": "FORMS = {'gitea': 1, 'github': 2, \"gitlab\": 3}\n",
    "examples/some.py": "'gitea', 'github'\n",
    "crates/low/src/records.rt": """pub enum Verdict {
    /// In.
    Landed { at: u64 },
    #[spare]
    Failed(u8),
}
""",
    "crates/low/specs/Words.antt": """use Rattle.low.specs.declared.records.Verdict.{Verdict}
use Rattle.low.specs.declared.records.Verdict.TheVariants as verdict

abbrev pub word : Verdict → ℕ
word (verdict.Landed n) = 1
word (verdict.Failed n) = 2
""",
    "crates/low/proofs/Cases.antt": """use Rattle.low.specs.declared.records.Verdict.TheVariants.{Landed, Failed}

pub cases : Verdict → ℕ
cases (Landed n) = 1
cases (Failed n) = 2
""",
    "crates/high/src/gate.rt": "fn is_in(v: Verdict) -> bool {\n    matches!(v, Verdict::Landed { .. })\n}\n",
    "crates/high/proofs/Both.antt": """use Rattle.low.specs.declared.records.Verdict.TheVariants as verdict

pub both : ℕ → ℕ
both n = pair verdict.Landed verdict.Failed
""",
}
TYPES = {"a verdict": ("low.records.Verdict",)}
WORDS = {"a form of forge": "gitea github gitlab"}


class Small(unittest.TestCase):
    def setUp(self) -> None:
        self.top = written(self, FILES)
        self.enterContext(mock.patch.object(mapped, "TYPES", TYPES))
        self.enterContext(mock.patch.object(mapped, "WORDS", WORDS))

    def lists(self, old: str = "", new: str = "") -> dict[str, list[str]]:
        self.assertIn(old, MAP)
        put(self.top / "docs/ARCHITECTURE.md", MAP.replace(old, new) if old else MAP)
        return {kind: rows for kind, rows in mapped.Map(self.top).lists().items() if rows}

    def test_a_map_that_is_right(self) -> None:
        self.assertEqual(self.lists(), {})

    def test_variants_of_an_enum(self) -> None:
        self.assertEqual(mapped.Map(self.top).variants("low.records.Verdict"), ["Landed", "Failed"])
        with self.assertRaises(KeyError):
            mapped.Map(self.top).variants("low.records.Slot")

    def test_names_that_lead_nowhere(self) -> None:
        for old, new, said in (("`Words.antt` |\n| | code", "`Wards.antt` |\n| | code", "Wards.antt"),
                               ("(`Cases`)", "(`Cases`, `Facts`)", "Facts"), ("`words.py`", "`words.js`", "words.js"),
                               ("docs/FORMATS.md", "docs/FORMS.md", "docs/FORMS.md")):
            with self.subTest(said):
                self.assertEqual(self.lists(old, new)["absent"], [f"a verdict: {said}"])
        self.assertEqual(self.lists("`records.rt`, and", "`recoded.rt`, and"), {"absent": ["a rule: recoded.rt"]})

    def test_a_row_that_lacks(self) -> None:
        self.assertEqual(self.lists("| a form of forge | code | `companions`: `forms.py` |\n", "")["absent"],
                         ["a form of forge: no row"])

    def test_places_that_a_row_doesnt_name(self) -> None:
        cases = (("`records.rt`, `Words.antt`", "`records.rt`", "crates/low/specs/Words.antt"),
                 ("(`Cases`), `high`", "(`Cases`)", "crates/high/proofs/Both.antt"),
                 ("`low` (`Cases`), ", "", "crates/low/proofs/Cases.antt"))
        for old, new, said in cases:
            with self.subTest(said):
                self.assertEqual(self.lists(old, new), {"missing": [f"a verdict: {said}: each variant of Verdict"]})
        put(self.top / "crates/high/src/other.rt",
            "let n = match v {\n    Verdict::Landed { at } => at,\n    Verdict::Failed(n) => n,\n};\n")
        self.assertEqual(self.lists(), {"missing": ["a verdict: crates/high/src/other.rt: each variant of Verdict"]})

    def test_places_of_texts(self) -> None:
        put(self.top / "examples/some.py", "'gitea', \\'github\\', 'gitlab'\n")
        self.assertEqual(self.lists(), {"missing": ["a form of forge: examples/some.py: gitea github gitlab"]})

    def test_a_file_that_has_nothing_of_it(self) -> None:
        put(self.top / "crates/high/src/gate.rt", "fn is_in() -> bool {\n    true\n}\n")
        self.assertEqual(self.lists(), {"idle": ["a verdict: crates/high/src/gate.rt"]})

    def test_the_status(self) -> None:
        for text, status in ((MAP, 0), (MAP.replace("`words.py`", "`words.js`"), 1)):
            put(self.top / "docs/ARCHITECTURE.md", text)
            with self.subTest(status), contextlib.redirect_stdout(io.StringIO()) as out:
                self.assertEqual(mapped.main(self.top), status)
                self.assertEqual(out.getvalue().splitlines()[0], f"{status} absent")


class Page(unittest.TestCase):
    def test_the_map_is_that_of_the_code(self) -> None:
        self.maxDiff = 4000
        self.assertEqual(mapped.Map(mapped.TOP).lists(), {"absent": [], "missing": [], "idle": []})


if __name__ == "__main__":
    unittest.main()
