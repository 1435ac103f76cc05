#!/usr/bin/env python3
"""Compares the map of docs/ARCHITECTURE.md ("Where to change what") with the code: python3 bench/mapped.py, at the top.

    absent     a file, a folder or a proof that a row names, and that isn't there
    missing    a place that has each variant of what a row adds, and that the row doesn't name
    idle       a row that adds a variant, and a file that it names without any word of it

A place has each variant if it names all of them: a match over the variants without a rest, a text that lists them, a
proof by cases. A row names a file in code marks, after the crate that it is in; a crate of proofs without names in
parentheses stands for all of its proofs. The status is 1 where anything is listed.
"""
from __future__ import annotations

import re
import sys
from collections.abc import Iterator
from dataclasses import dataclass, field
from pathlib import Path

sys.path.insert(0, str(Path(__file__).resolve().parents[1]))
from bench.names import CODE_ASIDE, Names, Source, block_at, words  # noqa: E402

TOP = Path(__file__).resolve().parents[1]
PAGE = "docs/ARCHITECTURE.md"
HEADING = "## Where to change what"
# By the first cell of a row: the enums whose variants it adds.
TYPES = {
    "a word of a record": ("gate_types.records.Outcome", "gate_types.records.Slot", "gate_types.records.Stage",
                           "gate_types.deliveries.Ending"),
    "a verdict": ("gate_types.records.Verdict",),
    "a kind of delivery": ("gate_types.deliveries.Delivery", "gate_wire.door.Kind"),
    "a window rule (a pace)": ("gate_types.config.Pace",),
    "an edit": ("gate_types.edits.Edit",),
    "a refusal": ("gate_types.deliveries.Refusal",),
    "a reply": ("gate_types.deliveries.Reply",),
    "a route": ("gate_http.routes.Route",),
    "a command": ("gated_command.words.Cmd",),
}
# By the first cell of a row: texts that stand together in a place that has each variant.
WORDS = {"a form of forge": "gitea github gitlab", "a member of an answer, here of `/changes/N`": "approval full"}
SPOKEN = ("crates/*/src", "crates/*/specs", "crates/*/proofs", "companions", "docs", "examples")
FOLDERS = ("src", "specs", "proofs", "must-fail")
ENDS = (".rt", ".antt", ".py", ".sh", ".js", ".md", ".txt", ".edit", ".toml", ".conf", ".c")


WHAT = ("definitions", "code", "proofs", "tests", "pages, scripts", "what gives it", "its edit", "what it can't do",
        "what is believed of old rows", "the next migration")
MARK = re.compile(r"`(?P<mark>[^`]+)`|(?P<bracket>[()])|(?P<page>\b(?:docs|bench|examples)/[\w/.-]*\w\.\w+|"
                  r"\b(?:README|CHANGES)\.md)")


def table_rows(page: str) -> Iterator[tuple[str, list[str]]]:
    """The first cell of each row and its other cells. A row with an empty first cell goes on with the one above."""
    title = ""
    for line in page[page.index(HEADING):].split("\n"):
        cells = [it.strip() for it in line.strip().strip("|").split(" | ")] if line.startswith("| ") else []
        if cells and cells[0] not in ("to change", "to add"):
            title = cells[0] or title
            yield title, cells[1:]


def below(place: Path) -> set[Path]:
    """A file, or the files of a folder but for what is made there."""
    return {it for it in place.rglob("*") if it.is_file() and "out" not in it.parts} if place.is_dir() else {place}


@dataclass
class Row:
    """A row of the map: the files that it names, and what of these isn't there."""
    title: str
    files: set[Path] = field(default_factory=set)
    # Those that it names by their folder alone.
    whole: set[Path] = field(default_factory=set)
    absent: list[str] = field(default_factory=list)

    def take(self, place: Path) -> None:
        self.files |= below(place)
        self.whole |= below(place) if place.is_dir() else set()


class Map:
    """The rows of a repository's map by their first cells, and where each variant of an enum stands."""

    def __init__(self, top: Path) -> None:
        self.top, self.names = top, Names(top)
        self.crates = {it.name for it in (top / "crates").iterdir()}
        self.rows: dict[str, Row] = {}
        for title, cells in table_rows((top / PAGE).read_text(encoding="utf-8")):
            row = self.rows.setdefault(title, Row(title))
            homes = [it for cell in cells for it in re.findall(r"`(\w+)", cell) if self.is_home(it)]
            for cell in cells[1:] if cells[0] in WHAT else cells:
                self.read(row, cell, cells[0] == "proofs", homes)
        self.named = {self.top / it.file: self.variants_in(it) for it in self.names.proofs + self.names.code}

    def variants_in(self, source: Source) -> set[str]:
        """The variants that a file of definitions, proofs or clauses names, each by its path."""
        if not any(".TheVariants" in it.full for it in source.imports):
            return set()
        fulls = {self.names.stands_for(source.file, word)[0] for word, is_path in words(source.text) if is_path}
        return {it for it in fulls if ".TheVariants." in it}

    def read(self, row: Row, cell: str, is_of_proofs: bool, homes: list[str]) -> None:
        """Adds what a cell names. A file is of the crate before it, or else of another one that the row names."""
        marks, home, depth = list(MARK.finditer(cell)), "", 0
        for at, match in enumerate(marks):
            name = match["mark"] or match["page"] or ""
            depth += {"(": 1, ")": -1}.get(match[0], 0)
            if self.is_home(name):
                home = name
                if is_of_proofs and (at + 1 == len(marks) or marks[at + 1][0] != "("):
                    row.take(self.top / "crates" / home / "proofs")
            elif is_of_proofs and depth and re.fullmatch(r"[\w/]+", name):
                self.add(row, [self.top / "crates" / home / "proofs"], name)
            elif name.endswith(ENDS) or match["page"] or "/" in name and " " not in name:
                home = name.split("/")[0] if self.is_home(name.split("/")[0]) else home
                self.add(row, [self.base(it) for it in (home, *homes) if it], name)

    def is_home(self, name: str) -> bool:
        return name in self.crates or name in ("companions", "bench")

    def base(self, home: str) -> Path:
        return self.top / home if home in ("companions", "bench") else self.top / "crates" / home

    def add(self, row: Row, bases: list[Path], name: str) -> None:
        """Adds what a name leads to: a path from the top, from the crates, or from one of these folders."""
        near = [self.top, self.top / "crates", self.top / "companions", *bases]
        near += [base / it for base in bases for it in FOLDERS]
        for place in [folder / f"{name}{end}" for folder in near for end in ("", ".antt")]:
            if place.exists():
                row.take(place)
                return
        for base in bases:
            found = [it for end in ("", ".antt") for it in base.rglob(f"{name}{end}") if "out" not in it.parts]
            if found:
                for place in found:
                    row.take(place)
                return
        row.absent.append(name)

    def variants(self, path: str) -> list[str]:
        """The variants of an enum, as its file has them."""
        crate, module, name = path.split(".")
        code = CODE_ASIDE.sub("", (self.top / "crates" / crate / "src" / f"{module}.rt").read_text(encoding="utf-8"))
        match = re.search(rf"enum {name}\b[^{{]*\{{", code)
        if match is None:
            raise KeyError(path)
        inner = re.sub(r"#\[[^\]]*\]", "", block_at(code, match.end() - 1))
        while (flat := re.sub(r"\{[^{}]*\}|\([^()]*\)", "", inner)) != inner:
            inner = flat
        return re.findall(r"\w+", inner)

    def places(self, path: str) -> dict[Path, set[str]]:
        """The files that name variants of an enum, each with those that it names."""
        crate, module, name = path.split(".")
        known, found = set(self.variants(path)), dict[Path, set[str]]()
        front = f"Rattle.{crate}.specs.declared.{module}.{name}.TheVariants."
        for file, fulls in self.named.items():
            found[file] = {it.removeprefix(front) for it in fulls if it.startswith(front)} & known
        for source in self.names.code:
            found[self.top / source.file] |= set(re.findall(rf"\b{name}(?:::|\.)(\w+)", source.text)) & known
        return found

    def missing(self, title: str) -> list[str]:
        """Places with each variant that the row doesn't name."""
        files, lacking = self.rows[title].files, list[str]()
        for path in TYPES.get(title, ()):
            whole = set(self.variants(path))
            lacking += [f"{it.relative_to(self.top)}: each variant of {path.rpartition('.')[2]}"
                        for it, named in self.places(path).items() if named == whole and it not in files]
        if title in WORDS:
            lacking += [f"{it.relative_to(self.top)}: {WORDS[title]}" for it in self.spoken(WORDS[title].split())
                        if it not in files]
        return lacking

    def idle(self, title: str) -> list[str]:
        """Files that the row names one by one, and that have no word of what it adds."""
        told = [it for path in TYPES.get(title, ()) for it in (path.rpartition(".")[2], *self.variants(path))]
        told += WORDS.get(title, "").split() + ["FORMS"] * (title == "a form of forge")
        if not told:
            return []
        part = re.compile("|".join(told), re.I)
        return [str(it.relative_to(self.top)) for it in sorted(self.rows[title].files - self.rows[title].whole)
                if it.suffix in ENDS and not part.search(it.read_text(encoding="utf-8"))]

    def spoken(self, texts: list[str]) -> list[Path]:
        """The files in which all of these stand in quotes, of the parts of a repository that people write."""
        parts = [re.compile(rf"""["']{it}\\?["']""") for it in texts]
        files = sorted(it for folder in SPOKEN for place in self.top.glob(folder) for it in below(place))
        return [it for it in files if it.suffix in ENDS and (text := it.read_text(encoding="utf-8"))
                and all(part.search(text) for part in parts)]

    def lists(self) -> dict[str, list[str]]:
        """What the script lists, by the kind of fault."""
        titles = [*TYPES, *WORDS]
        return {
            "absent": [f"{row.title}: {it}" for row in self.rows.values() for it in row.absent]
            + [f"{it}: no row" for it in titles if it not in self.rows],
            "missing": [f"{title}: {it}" for title in titles if title in self.rows for it in self.missing(title)],
            "idle": [f"{title}: {it}" for title in titles if title in self.rows for it in self.idle(title)],
        }


def main(top: Path = TOP) -> int:
    found = Map(top).lists()
    for kind, rows in found.items():
        print("\n".join([f"{len(rows)} {kind}", *(f"    {row}" for row in rows)]))
    return int(any(found.values()))


if __name__ == "__main__":
    sys.exit(main())
