"""Names that are listed over a small repository: python3 -m unittest bench.test_names, at the top."""
from __future__ import annotations

import contextlib
import io
import unittest

from bench import names
from bench.written import written

FILES = {
    "low/specs/Lib.antt": "pub mod Words\n",
    "low/specs/Words.antt": """-- is_spare is only told of here
use Rattle.std.specs.Prelude.{ℕ, Bool, ◌==◌, ◌+◌, List}

abbrev pub is_own : ℕ → ℕ → Bool
is_own a b = a == b

abbrev pub is_spare : ℕ → Bool
is_spare n = is_own n n

abbrev pub most : ℕ
most = 64

pub data Word : Type 0 where
  Tiny Short : Word
  Long : ℕ → Word
""",
    "low/proofs/Lib.antt": "pub mod Facts\n",
    "low/proofs/Facts.antt": """use Rattle.std.proofs.Common.{◌≡◌, ℕ, true, refl}
use Rattle.low.specs.Words.{is_own}

pub is_itself : (n : ℕ) → is_own n n ≡ true
is_itself n = same n

same : (n : ℕ) → is_own n n ≡ true
same n = refl

module _ (m : ℕ) where

  pub round : (n : ℕ) → is_own m n ≡ is_own m n
  round n = around n

  around : (n : ℕ) → is_own n m ≡ is_own n m
  around n = refl

pub by_tactic : (n : ℕ) → is_own (suc n) n ≡ is_own (suc n) n
by_tactic n = refl

pub by_tactic_above : (n : ℕ) → is_own n (suc n) ≡ is_own n (suc n)
by_tactic_above n = refl
""",
    "low/proofs/lib/told/Answers.antt": """use Rattle.low.proofs.Facts.{is_itself}
use Rattle.low.proofs.lib.told.Goals as goal

pub returns : goal.returns
returns c = is_itself c.args.n
""",
    "low/src/lib.rt": """//! Names: unused() is called in a comment alone.
ghost use Rattle.std.specs.Prelude.{◌≡◌, true, length};
ghost use Rattle.low.specs.Words.{is_own, most, Short};

use std::io::{WIDTH, Write};
use std::alloc::Global;
use std::fmt::{
    Debug,
    Display,
};

#[tactic(auto, using(crate::proofs::Facts::by_tactic))]
pub fn told(n: u64) -> bool
    ensures same { result ≡ is_own n n }
    ensures { most ≡ most }
{
    let length = "is_spare(n) and unused() {WIDTH:>3} {{Global}}";
    shown(Short) && told(n)
}

fn shown<T: Display>(value: T) -> bool
    ensures { result ≡ true }
{
    true
}

/// A law.
pub fn is_lawful(n: u64)
    ensures { is_own n n ≡ true }
{
    let _n = n;
}

fn unused() -> bool {
    unused()
}

impl Display for Word {
    fn fmt(&self) -> bool {
        told(1)
    }
}
""",
    "high/specs/Words.antt": """use Rattle.std.specs.Prelude.{ℕ, Bool, ◌==◌}
use Rattle.low.specs.Words as low
use Rattle.low.specs.Words.{Word, Tiny, Short, Long}

abbrev pub is_own : ℕ → ℕ → Bool
is_own a b = a == b

abbrev pub is_other : ℕ → ℕ → Bool
is_other a b = a == b

abbrev pub is_long : Word → Bool
is_long Short = low.is_own 1 2
is_long (Long n) = is_own 2 1

abbrev pub is_wide : Word → Bool
is_wide  Short = is_own 1 2
is_wide (Long n) = low.is_own 2 1

abbrev pub is_deep : Word → Bool
is_deep Tiny = is_own 1 2
is_deep (Long n) = is_own 2 1

abbrev pub is_tall : Word → Bool
is_tall Short = is_other 1 2
is_tall (Long n) = is_other 2 1
""",
    "high/src/main.rt": """ghost use Rattle.high.specs.Words as word;

#[tactic(auto, using(low::proofs::Facts::by_tactic_above))]
fn main()
    ensures { word.is_own 1 1 × word.is_other 1 1 × word.is_long x × word.is_wide x × word.is_deep x
        × word.is_tall x }
{
}
""",
}


class Listed(unittest.TestCase):
    def setUp(self) -> None:
        self.top = written(self, {f"crates/{path}": text for path, text in FILES.items()})
        self.names = names.Names(self.top)

    def put(self, path: str, old: str, new: str) -> None:
        file = self.top / "crates" / path
        text = file.read_text(encoding="utf-8")
        self.assertIn(old, text)
        file.write_text(text.replace(old, new), encoding="utf-8")
        self.names = names.Names(self.top)

    def test_what_no_clause_and_no_answer_leads_to(self) -> None:
        self.assertEqual(self.names.unreferenced(), [
            "crates/low/specs/Words.antt:7 is_spare", "crates/low/proofs/Facts.antt:12 round",
            "crates/low/proofs/Facts.antt:15 around, in round alone"])

    def test_an_import_alone_leads_nowhere(self) -> None:
        self.put("low/src/lib.rt", "{is_own, most", "{is_own, is_spare, most")
        self.assertIn("crates/low/specs/Words.antt:7 is_spare", self.names.unreferenced())

    def test_a_clause_leads_to_what_it_names(self) -> None:
        self.put("low/src/lib.rt", "{is_own, most", "{is_own, is_spare, most")
        self.put("low/src/lib.rt", "{ most ≡ most }", "{ is_spare n ≡ true }")
        self.assertIn("crates/low/specs/Words.antt:10 most", self.names.unreferenced())
        self.assertNotIn("crates/low/specs/Words.antt:7 is_spare", self.names.unreferenced())

    def test_functions_that_nothing_calls(self) -> None:
        self.assertEqual(self.names.uncalled(), ["crates/low/src/lib.rt:34 unused"])

    def test_equal_definitions_and_lemmas(self) -> None:
        self.assertEqual([[str(it) for it in group] for group in self.names.groups()], [
            ["crates/high/specs/Words.antt:5 is_own", "crates/low/specs/Words.antt:4 is_own"],
            ["crates/high/specs/Words.antt:11 is_long", "crates/high/specs/Words.antt:15 is_wide"],
            ["crates/low/proofs/Facts.antt:4 is_itself", "crates/low/proofs/Facts.antt:7 same"]])

    def test_words_with_two_definitions(self) -> None:
        self.assertEqual(self.names.homonyms(), [
            "crates/high/specs/Words.antt:5 is_own\n        crates/low/specs/Words.antt:4 is_own"])
        for own in ("high", "low"):
            self.put(f"{own}/specs/Words.antt", "abbrev pub is_own : ℕ → ℕ → Bool\nis_own a b",
                     "infixl 10 ◌=?=◌\nabbrev pub ◌=?=◌ : ℕ → ℕ → Bool\na =?= b")
        self.assertEqual(self.names.homonyms(), [])

    def test_imports_that_nothing_uses(self) -> None:
        self.assertEqual(self.names.imports(), [
            "crates/low/specs/Words.antt:2 ◌+◌", "crates/low/specs/Words.antt:2 List",
            "crates/low/src/lib.rt:2 length", "crates/low/src/lib.rt:3 Short", "crates/low/src/lib.rt:6 Global",
            "crates/low/src/lib.rt:7 Debug"])

    def test_the_status_says_whether_names_can_go(self) -> None:
        for words, status, said in (
                ([], 1, ["3 unreferenced", "1 uncalled", "3 equal", "1 homonyms", "6 imports"]),
                (["--only", "equal"], 1, ["3 equal"]), (["--only", "homonyms"], 1, ["1 homonyms"]),
                (["--only", "uncalled"], 0, ["1 uncalled"]), (["--only", "imports"], 0, ["6 imports"])):
            with self.subTest(words), contextlib.redirect_stdout(io.StringIO()) as out:
                self.assertEqual(names.main(["--count", *words], self.top), status)
                self.assertEqual(out.getvalue().splitlines(), said)


if __name__ == "__main__":
    unittest.main()


class Repository(unittest.TestCase):
    """The names of this repository, as they are."""

    def test_no_name_can_go_or_be_merged(self) -> None:
        found = names.Names(names.TOP)
        for kind in names.KINDS:
            with self.subTest(kind):
                self.assertEqual(getattr(found, kind)(), [])
