"""What has to be believed: over a small repository, and docs/READING.md: python3 -m unittest bench.test_believe."""
from __future__ import annotations

import contextlib
import io
import re
import unittest
from dataclasses import replace

from bench import believe
from bench.believe import Believed
from bench.promised import EXAMPLES, LANDS, NONE, PINNED, PROMISES, Promise
from bench.written import put, written

FILES = {
    "crates.txt": "# the lowest last\nhigh: low\nlow:\n",
    "crates/low/src/lib.rt": "mod book;\npub mod records;\n\npub use book::Book;\n",
    "crates/low/src/records.rt": """ghost use Rattle.low.specs.Words.{lasts_on};

use std::marker::Model;

/// A number.
pub struct Serial {
    number: u64,
}

impl Model for Serial {
    ghost use Rattle.low.specs.Words.{Number, is_number};

    ghost Value = { Number };

    ghost view = { λ s. s.number };

    ghost invariant = { λ s. is_number s.number ≡ true };
}

/// How a build ended.
pub enum Outcome {
    Success, // it passed
    Failure,
}

pub struct Build {
    pub serial: Serial,

    pub outcome: Outcome,
    ghost lasts: { lasts_on ≡ true },
}

pub struct Spare;
""",
    "crates/low/src/book.rt": """use crate::records::Build;

pub trait Book {
    ghost use Rattle.low.specs.Words.{Content};

    // what it holds
    ghost Holds: { Self → Content → Type 0 };

    ghost Spares: { Self → Type 0 };

    fn build(&mut self) -> Build
        ensures found { Holds self.old };
}
""",
    "crates/low/specs/Lib.antt": "pub mod Words\npub mod After\n",
    "crates/low/specs/Words.antt": """-- Words.
use Rattle.low.specs.declared.records.Build.{Build}
use Rattle.low.specs.declared.records.Outcome.TheVariants as outcome

-- a number
abbrev pub Number : Type 0
Number = ℕ

-- whether it is one
abbrev pub is_number : ℕ → Bool
is_number n = true

abbrev pub lasts_on : Bool
lasts_on = true

-- builds
pub record Content : Type 0 where
  pub builds : List Build

-- none passed
abbrev pub is_red : Content → Bool
is_red x = outcome.Failure == outcome.Failure
""",
    "crates/low/specs/After.antt": """use Rattle.low.specs.Words.{Content, is_red}

abbrev pub StaysRed : Content → Type 0
StaysRed x =
    is_red x ≡ true
""",
    "crates/high/src/gate.rt": """ghost use Rattle.low.specs.After.{StaysRed};
ghost use Rattle.low.specs.Words.{is_number};

use low::Book;

pub struct Gate<B> {
    pub book: B,
}

impl<B: Book> Gate<B> {
    pub fn deliver(&mut self, n: u64) -> bool
        requires { is_number n ≡ true }
        // what it leaves
        ensures red { B.Holds self.new.book x → StaysRed x }
        ensures plain { result ≡ true }
    {
        true
    }
}
""",
    "crates/high/specs/Lib.antt": "",
}
DELIVER = "high.gate.deliver"


class Small(unittest.TestCase):
    def setUp(self) -> None:
        self.top = written(self, FILES)
        self.believed = Believed(self.top)

    def names(self, *addresses: str) -> list[tuple[str, int]]:
        found = self.believed.closure(map(self.believed.pieces.contract, addresses))
        return [(believe.shown(it), it.lines) for it in self.believed.in_order(found)]

    def test_a_clause_leads_to_all_that_it_stands_on_in_reading_order(self) -> None:
        self.assertEqual(self.names(f"{DELIVER} red"), [
            ("Number", 2), ("is_number", 2), ("lasts_on", 2), ("Serial.Value", 1), ("Serial", 1), ("Outcome", 4), ("Build", 5),
            ("Content", 2), ("is_red", 2), ("Book", 1), ("Book.Holds", 1), ("StaysRed", 3), ("deliver", 3)])

    def test_another_clause_leads_elsewhere(self) -> None:
        self.assertEqual(self.names(f"{DELIVER} plain"), [("is_number", 2), ("deliver", 3)])
        self.assertEqual(dict(self.names(DELIVER)), dict(self.names(f"{DELIVER} red")) | {"deliver": 4})

    def test_a_contract_that_is_none(self) -> None:
        for address in (f"{DELIVER} blue", "high.gate.drop"):
            with self.subTest(address), self.assertRaises(KeyError):
                self.believed.pieces.contract(address)

    def test_what_is_printed_of_one(self) -> None:
        with contextlib.redirect_stdout(io.StringIO()) as out:
            self.assertEqual(believe.main([f"{DELIVER} plain"], self.top), 0)
        self.assertEqual(out.getvalue(), "5 lines\n\n| file | lines | definitions, in order |\n|---|---|---|\n"
                         "| low/specs/Words.antt | 2 | `is_number` |\n| high/src/gate.rt | 3 | `deliver` |\n")

    def test_words_of_specs_with_two_meanings(self) -> None:
        plain, red = (Promise(it, it, (f"{DELIVER} {it}",)) for it in ("plain", "red"))
        path = "crates/low/specs/After.antt"
        for name, found in (("deliver", []), ("Build", []), ("is_number", ["crates/low/specs/Words.antt", path])):
            put(self.top / path, FILES[path].replace("    is_red", f"    {name}")
                + f"\nabbrev pub {name} : Content → Bool\n{name} x = is_red x\n")
            believed = Believed(self.top)
            with self.subTest(name):
                self.assertIn(name, [it.name for it in believed.of(red).values() if it.kind == "definition"])
                self.assertEqual([str(it.file) for it in believed.homonyms([plain, red]).get(name, [])], found)
                self.assertEqual(believed.homonyms([plain]), {})

    def test_the_shorter_way_to_say_what_is_left_out(self) -> None:
        whole = self.believed.closure([self.believed.pieces.contract(f"{DELIVER} red")])
        part = {key: it for key, it in whole.items() if it.name != "Serial"}
        few = {key: it for key, it in whole.items() if it.name == "Serial"}
        self.assertEqual(believe.earlier("A", whole, whole), "All of *A*.")
        self.assertEqual(believe.earlier("A", whole, part), "All of *A* but `Serial` of `low/src/records.rt`.")
        self.assertEqual(believe.earlier("A", whole, few), "Of *A* only `Serial` of `low/src/records.rt`.")
        self.assertEqual(believe.earlier("A", whole, {}), "Nothing of *A*.")


class Page(unittest.TestCase):
    """docs/READING.md and docs/PROMISES.md, as they are."""
    page = ""
    promises = ""

    @classmethod
    def setUpClass(cls) -> None:
        cls.page = (believe.TOP / believe.PAGE).read_text(encoding="utf-8")
        cls.promises = (believe.TOP / "docs/PROMISES.md").read_text(encoding="utf-8")

    def test_the_lists_are_those_of_the_code(self) -> None:
        self.maxDiff = 4000
        self.assertEqual(believe.parts_of(self.page)[1].splitlines(), believe.lists(believe.TOP).splitlines(),
                         "put the new lists there: python3 bench/believe.py --write")

    def test_a_law_stands_in_place_of_what_it_pins(self) -> None:
        believed = Believed(believe.TOP)
        found = [believed.of(promise).keys() for promise in PROMISES]
        for pinned, law in PINNED.items():
            with self.subTest(pinned):
                named = [key for key, uses in believed.uses.items() if pinned in uses]
                self.assertTrue(any(key in own and law in own for key in named for own in found))
                self.assertFalse(any(pinned in own for own in found))

    def test_a_token_would_be_read_otherwise(self) -> None:
        believed = Believed(believe.TOP)
        for promise in PROMISES:
            own = believed.of(promise)
            whole = believed.of(replace(promise, tokens=()))
            for token in promise.tokens:
                with self.subTest(promise.title, token=token):
                    self.assertIn(token, whole)
                    self.assertNotIn(token, own)

    def test_each_word_has_one_meaning(self) -> None:
        """Of the definitions that a reader has to believe: he meets all of them."""
        found = Believed(believe.TOP).homonyms(PROMISES)
        self.assertEqual({word: [f"{it.file}:{it.line}" for it in pieces] for word, pieces in found.items()}, {})

    def test_each_quotation_stands_in_its_file(self) -> None:
        front = believe.parts_of(self.page)[0]
        quoted = re.findall(r"^`(crates/[\w/.]+)`:\n\n```\n(.*?)\n```$", front, re.M | re.S)
        self.assertEqual(2 * len(quoted), front.count("```"))
        self.assertGreater(len(quoted), 15)
        for path, text in quoted:
            with self.subTest(path, text=text):
                self.assertIn(f"\n{text}\n", (believe.TOP / path).read_text(encoding="utf-8"))

    def test_each_word_is_shown_by_an_example(self) -> None:
        quoted = "\n".join(re.findall(r"^```\n(.*?)\n```$", self.page, re.M | re.S))
        for word in ("specs.declared", "TheVariants", ".now", ".old", ".new", "OnOk", "IfOk", "MatchResult", "ghost",
                     "≡", "×", "→", "⊎", "λ", "record"):
            with self.subTest(word):
                self.assertIn(word, quoted)

    def sections(self) -> dict[str, str]:
        """The parts of the page of promises by their headings; The program is one of its own."""
        parts = re.split(r"^##(?:#(?= The program))? (.*)\n", self.promises, flags=re.M)
        return dict(zip(parts[1::2], parts[2::2]))

    def test_each_part_of_the_promises_has_a_list_or_a_reason(self) -> None:
        self.assertEqual(set(self.sections()), {it.heading for it in PROMISES} | NONE.keys())
        for heading in NONE:
            self.assertRegex(self.page, rf"(?i)\*(The )?{heading}\*")

    def test_each_contract_of_a_list_stands_under_its_heading(self) -> None:
        for promise in PROMISES:
            for contract in promise.contracts:
                name = contract.split()[0].rpartition(".")[2]
                heading = "What lands" if contract in LANDS else promise.heading
                if name not in ("show_sound", "new"):
                    with self.subTest(promise.title, name=name):
                        self.assertTrue(re.search(rf"\b{name}\b", self.sections()[heading]))

    def test_each_law_under_a_heading_is_in_its_list(self) -> None:
        laws = set[str]()
        for file in believe.TOP.glob("crates/*/src/**/*.rt"):
            if file.name != "examples.rt":
                text = file.read_text(encoding="utf-8")
                laws |= set(re.findall(r"^pub fn (\w+)\(\)\n    ensures [^;]*?\n\{\}", text, re.M))
        self.assertGreater(len(laws), 50)
        self.assertLessEqual(EXAMPLES, laws)
        for heading, text in self.sections().items():
            listed = {it.split()[0].rpartition(".")[2] for promise in PROMISES if promise.heading == heading
                      for it in promise.contracts}
            with self.subTest(heading):
                told = set() if heading in NONE else laws & set(re.findall(r"\w+", text))
                self.assertEqual(told - listed - EXAMPLES, set())


if __name__ == "__main__":
    unittest.main()
