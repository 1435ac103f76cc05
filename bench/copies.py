#!/usr/bin/env python3
"""Finds copies in the code, the definitions, the proofs and the tests: python3 bench/copies.py [PART..], at the top.

A copy is a run of six lines that stands at two places or more of a part, which don't overlap. Lines are compared
without blanks at their ends; blank lines, comments and imports are left out.

    identical  the lines are the same
    alike      they are the same once each name is replaced by the number of its first appearance in the run, as `a` and
               `b` in `f(a, b, a)` by 2 and 3. Numbers, texts, marks and reserved words have to be the same. A run with
               fewer than four different forms of line is a list, as of fields, and no copy

It prints how many lines of each part are in copies, and with --list the copies, the largest first. bench/test_copies.py
compares both counts with ceilings: a change that makes a copy raises a count, and one that removes a copy lowers the
ceiling too.
"""
from __future__ import annotations

import argparse
import re
import sys
from collections import defaultdict
from collections.abc import Iterator
from dataclasses import dataclass
from functools import cache
from pathlib import Path
from typing import NamedTuple

TOP = Path(__file__).resolve().parents[1]
RUN, FORMS = 6, 4
PARTS = {
    "src": r"^crates/(?!\w+_tests/)\w+/src/(?!tests\b).*\.rt$",
    "specs": r"^crates/\w+/specs/.*\.antt$",
    "proofs": r"^crates/\w+/proofs/.*\.antt$",
    "tests": r"^crates/(?:\w+_tests/src|\w+/src/tests)\b.*\.rt$",
    "companions": r"^companions/(?!tests/).*(?:\.(?:py|js|sh)|/service/[^./]+)$",
    "companions' tests": r"^companions/tests/.*\.(?:py|sh)$",
}
COMMENT = {".rt": "//", ".antt": "--", ".js": "//"}
IMPORT = re.compile(r"^[ \t]*(?:(?:unfoldable|pub(?:\([a-z]+\))?|ghost) )*use [^;{\n]*(?:\{[^}]*\})?;?$"
                    r"|^[ \t]*(?:pub(?:\([a-z]+\))? )?mod \w+;?$"
                    r"|^[ \t]*(?:from \S+ )?import (?:\([^)]*\)|.*)$|^import \{[^}]*\} from .*$", re.M)
TOKEN = re.compile(r"""(?P<name>[A-Za-z_][\w']*)|"(?:[^"\\\n]|\\.)*"|\d[\w.]*|\S""")
WORDS = frozenset("""abbrev and as async break class const continue data def del elif elim else ensures enum Err except
    false False fn for from function ghost if impl import in is let loop match module move mut None not Ok or pub raise
    record requires return self Self Some struct super trait true True try type use where while with yield""".split())


class Line(NamedTuple):
    """A line that counts: where it stands, its text, its parts, and its form, which has no names."""
    file: Path
    number: int
    text: str
    tokens: tuple[str, ...]
    form: str


@dataclass(frozen=True)
class Copy:
    """So many lines from each of these places on."""
    places: tuple[int, ...]
    length: int


def lines_alone(match: re.Match[str]) -> str:
    return "\n" * match[0].count("\n")


def lines_of(top: Path, file: Path) -> Iterator[Line]:
    mark, name = COMMENT.get(file.suffix, "#"), file.relative_to(top)
    text = IMPORT.sub(lines_alone, file.read_text(encoding="utf-8"))
    for number, line in enumerate(text.split("\n"), 1):
        line = line.strip()
        if line and not line.startswith(mark):
            yield Line(name, number, line, *read(line))


@cache
def read(line: str) -> tuple[tuple[str, ...], str]:
    """The parts of a line, and its form."""
    tokens = tuple(match[0] for match in TOKEN.finditer(line))
    return tokens, " ".join("n" if is_name(it) else it for it in tokens)


@cache
def is_name(token: str) -> bool:
    return (token[0].isalpha() or token[0] == "_") and token not in WORDS


def numbered(run: list[Line]) -> str:
    """The text of a run with numbers in the place of its names."""
    known: dict[str, str] = {}
    return "\n".join(" ".join(known.setdefault(it, f"n{len(known)}") if is_name(it) else it for it in line.tokens)
                     for line in run)


class Part:
    """The lines of some files, one file after another, and their runs, each of which is known by its first line."""

    def __init__(self, top: Path, files: list[Path]) -> None:
        self.lines = [line for file in files for line in lines_of(top, file)]
        self.starts = [at for at in range(len(self.lines) - RUN + 1)
                       if self.lines[at].file == self.lines[at + RUN - 1].file]

    def shared(self, key_of: dict[int, object]) -> dict[int, tuple[int, ...]]:
        """The places of the runs that have the key of another one, each with all of these places."""
        by = defaultdict[object, list[int]](list)
        for at, key in key_of.items():
            by[key].append(at)
        return {at: tuple(places) for places in by.values() if places[-1] - places[0] >= RUN for at in places}

    def identical(self) -> dict[int, tuple[int, ...]]:
        texts = [it.text for it in self.lines]
        return self.shared({at: tuple(texts[at:at + RUN]) for at in self.starts})

    def alike(self) -> dict[int, tuple[int, ...]]:
        """Runs of the same forms first, since few are; of these the ones in which names appear in the same way."""
        forms = [it.form for it in self.lines]
        same = self.shared({at: key for at in self.starts if len(set(key := tuple(forms[at:at + RUN]))) >= FORMS})
        return self.shared({at: numbered(self.lines[at:at + RUN]) for at in sorted(same)})

    def count(self, shared: dict[int, tuple[int, ...]]) -> int:
        return len({at + more for at in shared for more in range(RUN)})

    def copies(self, shared: dict[int, tuple[int, ...]]) -> list[Copy]:
        """Runs that follow one another at the same places are one copy."""
        found: list[Copy] = []
        for at in sorted(shared):
            places = shared[at]
            if places[0] != at or shared.get(at - 1) == tuple(it - 1 for it in places):
                continue
            length = RUN
            while shared.get(at + length - RUN + 1) == tuple(it + length - RUN + 1 for it in places):
                length += 1
            found.append(Copy(places, length))
        return sorted(found, key=lambda it: (-it.length * len(it.places), it.places))

    def shown(self, copy: Copy) -> str:
        places = ", ".join(f"{self.lines[at].file}:{self.lines[at].number}" for at in copy.places)
        return f"{copy.length} lines: {places}"


def parts_of(top: Path) -> dict[str, Part]:
    folders = [*sorted(top.glob("crates/*/src")), *sorted(top.glob("crates/*/specs")),
               *sorted(top.glob("crates/*/proofs")), top / "companions"]
    names = {it: str(it.relative_to(top)) for folder in folders for it in sorted(folder.rglob("*")) if it.is_file()}
    return {part: Part(top, [it for it, name in names.items() if re.search(pattern, name)])
            for part, pattern in PARTS.items()}


def main(arguments: list[str], top: Path = TOP) -> int:
    words = argparse.ArgumentParser(description=(__doc__ or "").partition("\n")[0])
    words.add_argument("parts", nargs="*", metavar="PART", help=f"of {', '.join(PARTS)}")
    words.add_argument("--list", action="store_true", help="list the copies too")
    asked = words.parse_args(arguments)
    for name, part in parts_of(top).items():
        if asked.parts and name not in asked.parts:
            continue
        for kind, shared in (("identical", part.identical()), ("alike", part.alike())):
            count, whole = part.count(shared), max(1, len(part.lines))
            print(f"{name}: {count} of {len(part.lines)} lines {kind}, {100 * count / whole:.1f} %")
            for copy in part.copies(shared) if asked.list else ():
                print(f"    {part.shown(copy)}")
    return 0


if __name__ == "__main__":
    sys.exit(main(sys.argv[1:]))
