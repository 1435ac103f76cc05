#!/usr/bin/env python3
"""Lists what has to be believed for a promise: python3 bench/believe.py [CONTRACT..], at the top of the repository.

Without a contract it prints the lists of docs/READING.md, and --write puts them there. A CONTRACT is as in
bench/promised.py: the path of its file, its function and clauses, as "gate_core.gate.deliver lands".

A contract stands on the definitions that its clauses name, on those that these name, and so on: definitions of specs,
types of the code with what a clause sees of them, and ghost members of traits. What the kit defines (the standard
library, `sqlite` and the other ported crates) isn't listed. Each list is in reading order: a definition after those
that it uses. A variable that has the name of a definition in its file counts as that: a list may be longer than it has
to be, and no shorter.
"""
from __future__ import annotations

import re
import sys
from collections import defaultdict
from collections.abc import Iterable, Iterator
from itertools import groupby
from pathlib import Path

sys.path.insert(0, str(Path(__file__).resolve().parents[1]))
from bench.pieces import Piece, Pieces  # noqa: E402
from bench.promised import PINNED, PROMISES, Promise  # noqa: E402

TOP = Path(__file__).resolve().parents[1]
PAGE = "docs/READING.md"
BEGIN, END = "<!-- bench/believe.py: begin -->", "<!-- bench/believe.py: end -->"
WIDTH = 118


class Believed:
    """What each promise stands on, over the pieces of a repository."""

    def __init__(self, top: Path) -> None:
        self.top, self.pieces = top, Pieces(top)
        self.crates = [line.partition(":")[0].split()[0] for line in (top / "crates.txt").read_text().splitlines()
                       if line.strip() and not line.startswith("#")]
        self.uses: dict[str, set[str]] = {}
        self.libs: dict[Path, list[str]] = {}

    def closure(self, roots: Iterable[Piece], tokens: Iterable[str] = ()) -> dict[str, Piece]:
        """The roots with all that they stand on, by key; in place of a definition that a law pins, that law. Tokens
        are left out, with what only they stand on."""
        unread = {*tokens}
        todo, seen = list(roots), dict[str, Piece]()
        while todo:
            piece = self.read_for(todo.pop())
            if piece.key not in seen:
                seen[piece.key] = piece
                if piece.key not in self.uses:
                    self.uses[piece.key] = self.pieces.uses(piece)
                todo += [self.pieces.pieces[key] for key in self.uses[piece.key] - unread]
        return seen

    def read_for(self, piece: Piece) -> Piece:
        """What is read for a piece: itself, or the law that pins it."""
        law = PINNED.get(piece.key)
        return self.pieces.contract(law) if law else piece

    def of(self, promise: Promise) -> dict[str, Piece]:
        return self.closure([*map(self.pieces.contract, promise.contracts),
                             *(self.pieces.pieces[key] for key in promise.members)], promise.tokens)

    def homonyms(self, promises: Iterable[Promise]) -> dict[str, list[Piece]]:
        """Words that stand for more than one definition of specs in the lists of these promises together."""
        found = dict[str, Piece]()
        for promise in promises:
            found |= self.of(promise)
        by_word = defaultdict[str, list[Piece]](list)
        for it in found.values():
            if it.kind == "definition":
                by_word[it.name].append(it)
        return {word: sorted(pieces, key=self.place) for word, pieces in sorted(by_word.items()) if len(pieces) > 1}

    def place(self, piece: Piece) -> tuple[bool, int, int, str, int]:
        """Where a piece stands if nothing forbids it: by crate, its code, then its specs as their `Lib` lists them."""
        crate = piece.file.parts[1]
        at = self.crates.index(crate), self.listed(piece.file), str(piece.file), piece.line
        return piece.kind == "contract", *at

    def listed(self, file: Path) -> int:
        """The place of a file of specs in its `Lib`, and 0 for code."""
        if file.suffix != ".antt":
            return 0
        if file.parent not in self.libs:
            lib = (self.top / file.parent / "Lib.antt").read_text(encoding="utf-8")
            self.libs[file.parent] = re.findall(r"mod (\w+)", lib)
        return self.libs[file.parent].index(file.stem) + 1

    def run_of(self, file: Path, left: list[Piece], chosen: dict[str, Piece], placed: set[str]) -> list[Piece]:
        """What can be read of a file in one go, after what was placed."""
        run, done = list[Piece](), set(placed)
        todo = [it for it in left if it.file == file]
        while ready := [it for it in todo if not (self.uses[it.key] & chosen.keys()) - done - {it.key}]:
            run.append(ready[0])
            done.add(ready[0].key)
            todo.remove(ready[0])
        return run

    def in_order(self, chosen: dict[str, Piece]) -> list[Piece]:
        """A piece after those that it uses, and as few parts of a file as can be: whole files first."""
        left = sorted(chosen.values(), key=self.place)
        placed, order = set[str](), list[Piece]()
        while left:
            files = list(dict.fromkeys(it.file for it in left if it.kind != "contract" or left[0].kind == "contract"))
            runs = [run for file in files if (run := self.run_of(file, left, chosen, placed))]
            whole = [run for run in runs if len(run) == sum(it.file == run[0].file for it in left)]
            run = (whole or sorted(runs, key=len, reverse=True) or [left[:1]])[0]
            order += run
            placed |= {it.key for it in run}
            left = [it for it in left if it.key not in placed]
        return order


def lines_of(pieces: Iterable[Piece]) -> int:
    return sum(it.lines for it in pieces)


def shown(piece: Piece) -> str:
    """The name of a piece: a type's model by what a clause sees of it."""
    return piece.name.replace(".Model.", ".")


def rows(order: list[Piece]) -> Iterator[str]:
    """A row for each run of definitions of one file."""
    yield "| file | lines | definitions, in order |"
    yield "|---|---|---|"
    for file, run in groupby(order, key=lambda it: it.file):
        found = list(run)
        names = " ".join(dict.fromkeys(map(shown, found)))
        yield f"| {file.relative_to('crates')} | {lines_of(found)} | `{names}` |"


def named(pieces: Iterable[Piece]) -> str:
    """Definitions by file: those of a long list would say nothing else."""
    by_file = groupby(sorted(pieces, key=lambda it: (str(it.file), it.line)), key=lambda it: it.file)
    return "; ".join(f"`{' '.join(dict.fromkeys(map(shown, run)))}` of `{file.relative_to('crates')}`"
                     for file, run in by_file)


def wrapped(text: str) -> Iterator[str]:
    line = ""
    for word in text.split(" "):
        if line and len(line) + 1 + len(word) > WIDTH:
            yield line
            line = ""
        line = f"{line} {word}" if line else word
    yield line


def earlier(title: str, of: dict[str, Piece], own: dict[str, Piece]) -> str:
    """Which definitions of an earlier list a promise stands on, said the shorter way."""
    missing = [it for it in of.values() if it.key not in own and it.kind != "contract"]
    needed = [it for it in of.values() if it.key in own and it.kind != "contract"]
    if not missing:
        return f"All of *{title}*."
    if not needed:
        return f"Nothing of *{title}*."
    if len(missing) <= len(needed):
        return f"All of *{title}* but {named(missing)}."
    return f"Of *{title}* only {named(needed)}."


def section(believed: Believed, promise: Promise, before: dict[str, dict[str, Piece]]) -> Iterator[str]:
    """The list of a promise: of the earlier lists what it stands on, then what it adds."""
    own = believed.of(promise)
    known = {key for pieces in before.values() for key in pieces}
    added = {key: it for key, it in own.items() if key not in known}
    yield f"### {promise.title}: {lines_of(own.values()):,} lines"
    yield ""
    for title, pieces in before.items():
        yield from wrapped(earlier(title, pieces, own))
        yield ""
    if before:
        yield f"It adds {lines_of(added.values()):,} lines:"
        yield ""
    yield from rows(believed.in_order(added))
    yield ""
    before[promise.title] = added


def sums(believed: Believed) -> Iterator[str]:
    together = dict[str, Piece]()
    yield "| promise | lines | definitions |"
    yield "|---|---|---|"
    for promise in PROMISES:
        own = believed.of(promise)
        together |= own
        count = sum(it.kind != "contract" for it in own.values())
        yield f"| {promise.title} | {lines_of(own.values()):,} | {count} |"
    count = sum(it.kind != "contract" for it in together.values())
    yield f"| all together | {lines_of(together.values()):,} | {count} |"


def lists(top: Path) -> str:
    """What the page has between its two marks."""
    believed, before = Believed(top), dict[str, dict[str, Piece]]()
    text = [*sums(believed), ""]
    for promise in PROMISES:
        text += section(believed, promise, before)
    return "\n".join(text).strip("\n")


def parts_of(page: str) -> tuple[str, str, str]:
    """A page up to its lists, its lists, and what comes after them."""
    front, _, rest = page.partition(f"{BEGIN}\n\n")
    inner, _, after = rest.partition(f"\n\n{END}")
    return front, inner, after


def main(arguments: list[str], top: Path = TOP) -> int:
    if arguments == ["--write"]:
        page = top / PAGE
        front, _, after = parts_of(page.read_text(encoding="utf-8"))
        page.write_text(f"{front}{BEGIN}\n\n{lists(top)}\n\n{END}{after}", encoding="utf-8")
        return 0
    if not arguments:
        print(lists(top))
        return 0
    believed = Believed(top)
    found = believed.closure(map(believed.pieces.contract, arguments))
    print(f"{lines_of(found.values()):,} lines\n")
    print("\n".join(rows(believed.in_order(found))))
    return 0


if __name__ == "__main__":
    sys.exit(main(sys.argv[1:]))
