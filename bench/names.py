#!/usr/bin/env python3
"""Lists names that can go or be merged, over the whole repository: python3 bench/names.py, at its top.

    unreferenced   names of specs and proofs that no clause and no answer leads to
    uncalled       functions that nothing calls, but for those that only prove a law
    equal          definitions with the same text but for their names, and lemmas with the same statement
    homonyms       words that two files of specs define, but for operators
    imports        names that a file imports and doesn't use

Each stands with its file and line. --only KIND lists one kind, and --count says how many there are of each. The status
is 1 where a name is unreferenced, two are equal or a word has two definitions, and 0 otherwise.

A clause of a .rt file, a `#[tactic(.. using(..))]` and an answer to a goal lead to the names in them, and a definition
to those in its text; an import alone leads nowhere. Names are compared as the definitions that they are imported from,
so two texts that name equal definitions are equal too. A definition in one line is equal only to one of the same name,
since a second name can be a second meaning, and a name for a number or a text is equal to none. A variable is not told
from a definition of its name in the same file: what only seems to be used is not listed.
"""
from __future__ import annotations

import argparse
import re
import sys
from collections import Counter, defaultdict
from collections.abc import Iterable, Iterator
from dataclasses import dataclass, field
from pathlib import Path
from zlib import crc32

TOP = Path(__file__).resolve().parents[1]
KINDS = ("unreferenced", "uncalled", "equal", "homonyms", "imports")
# A name is a run of these characters, and names joined by dots are one path.
NAME = r"[^\s(){}.;,@\"«»]+"
WORD = re.compile(rf"(?P<field>[)}}»]\.{NAME})|(?P<path>{NAME}(?:\.{NAME})*)|(?P<mark>\S)")
MARKS = r"(?P<marks>(?:(?:pattern|unfoldable|abbrev|axiom|pub) )*)"
SIGNATURE = re.compile(rf"{MARKS}(?P<name>{NAME})(?: \{{[^:}}]*\}})? :(?= |\n|$)")
TYPE = re.compile(rf"{MARKS}(?P<kind>data|record|ruleset) (?P<name>{NAME})")
ANTT_ASIDE = re.compile(r'\{-.*?-\}|(?:(?<=\s)|^)--[^\n]*|"(?:[^"\\\n]|\\.)*"', re.S | re.M)
CODE_ASIDE = re.compile(r"""//[^\n]*|/\*.*?\*/|\bb?r(?P<hashes>\#*)".*?"(?P=hashes)|b?"(?:[^"\\]|\\.)*"
    |(?<![\w'])b?'(?:[^'\\\n]|\\(?:x..|u\{\w+\}|.))'""", re.S | re.X)
IMPORT = re.compile(r"^[ \t]*(?P<marks>(?:(?:unfoldable|pub(?:\([a-z]+\))?|ghost) )*)use (?P<path>[^;{\n]*)"
                    r"(?:\{(?P<group>[^}]*)\})?;?|^(?:pub )?mod \w+$", re.M)
CLAUSE = re.compile(r"\b(?:(?:requires|ensures|opens)(?: \w+)?|ghost \w+\s*[:=]|by)\s*\{")
FUNCTION = re.compile(r"(?P<attributes>(?:#\[[^\n]*\]\s*)*)(?:pub(?:\([a-z]+\))? )?(?:const )?"
                      r"fn (?P<name>\w+)(?P<head>[^{;]*)[{;]")
# What stands in a text and is no name.
SIGNS = {":", "=", "→", "×", "↦", "|", "λ", "∀", "[", "]", "_", "let", "in", "where", "elim", "record", "data", "as",
         "unfolding", "unfold", "ruleset", "module", "mutual", "Type"}
PLAIN = {"ℕ", "List", "Bool", "[]", "∷"}
# Traits of libraries, which are imported for their methods.
TRAITS = {"BufRead", "Read", "Write", "Seek", "FromStr", "Iterator", "Hash", "Hasher", "ToSql", "Disk", "Crash",
          "OpenListener", "OpenStream", "BuildHasher"}


@dataclass(frozen=True)
class Import:
    """A name that a file has from a module; with no name it is the module itself."""
    line: int
    local: str
    module: str
    name: str = ""
    is_passed_on: bool = False
    is_ghost: bool = False

    @property
    def full(self) -> str:
        return f"{self.module}.{self.name}" if self.name else self.module


@dataclass
class Definition:
    """A definition or a lemma, with the heads of the blocks that it stands in, its statement and its whole text."""
    file: Path
    module: str
    line: int
    name: str
    kind: str
    within: str
    statement: str
    text: str
    is_answer: bool = False
    uses: set[str] = field(default_factory=set)

    @property
    def full(self) -> str:
        return f"{self.module}.{self.name}"

    @property
    def is_short(self) -> bool:
        return len([line for line in self.text.splitlines() if line.strip()]) <= 2

    @property
    def is_lemma(self) -> bool:
        """Whether it says what holds, so that any proof will do: a relation, or a predicate at something."""
        result = self.statement.rpartition("→")[2]
        says = r"[≡≢≤<]|⊥|(?:^|[\s(.])(?:Is|Are|All|If|On|Of|Has|Holds|Stands|Agrees)"
        return not self.kind and bool(re.search(says, result))

    def __str__(self) -> str:
        return f"{self.file}:{self.line} {self.name}"


@dataclass
class Source:
    """A file without its comments and imports, and what it imports and defines. Constructors lead to their types."""
    file: Path
    module: str
    text: str
    imports: list[Import]
    definitions: list[Definition] = field(default_factory=list)
    types: dict[str, str] = field(default_factory=dict)


def lines_alone(match: re.Match[str]) -> str:
    """What stands for a comment or a text: its lines, so that those after it stay, and a number of the text's own with
    the names that a format takes."""
    is_text = '"' in match[0]
    number = f'"{crc32(match[0].encode())}"' if is_text else ""
    names = re.findall(r"(?<!\{)\{([A-Za-z_]\w*)(?=[}:])", match[0]) if is_text else []
    return " ".join([number, *names]) + "\n" * match[0].count("\n")


def line_of(text: str, at: int) -> int:
    return text.count("\n", 0, at) + 1


def imports_of(text: str) -> Iterator[Import]:
    for match in IMPORT.finditer(text):
        if match["path"] is None:
            continue
        path, _, other = match["path"].replace("::", ".").partition(" as ")
        path, line = path.strip().rstrip("."), line_of(text, match.start())
        passed_on, ghost = "pub" in match["marks"], "ghost" in match["marks"]
        if match["group"] is None:
            yield Import(line, other.strip() or path.rpartition(".")[2], path, "", passed_on, ghost)
        for leaf in (match["group"] or "").split(","):
            name, _, other = leaf.strip().partition(" as ")
            if name:
                yield Import(line, other.strip() or name, path, name, passed_on, ghost)


def words(text: str) -> Iterator[tuple[str, bool]]:
    """The words of a text, each with whether it is a path of names. The field of `(f x).a` is none."""
    for match in WORD.finditer(text):
        yield match[0], match["path"] is not None and match[0] not in SIGNS


def parts_of(name: str) -> set[str]:
    """A name, and an operator's parts, by which it is used: `≡` of `◌≡◌`."""
    return {name, *(it for it in name.split("◌") if it)}


def define(source: Source, text: str, line: int = 1, within: str = "") -> None:
    """Adds the definitions of a text. A line that begins with a blank goes on, and clauses follow their signature."""
    lines, current = text.split("\n"), None
    starts = [at for at, it in enumerate(lines) if it and not it[0].isspace() and it[0] not in "])"]
    for at, end in zip(starts, [*starts[1:], len(lines)]):
        item, signed = "\n".join(lines[at:end]), SIGNATURE.match(lines[at])
        if block := re.match(r"module _.*?\bwhere *\n|(?:unfoldable |abbrev )?mutual *\n", item, re.S):
            inner = re.sub(r"^  ", "", item[block.end():], flags=re.M)
            define(source, inner, line + at + block[0].count("\n"), f"{within} {block[0]}")
        elif typed := TYPE.match(lines[at]):
            kind = typed["kind"]
            current = Definition(source.file, source.module, line + at, typed["name"], kind, within, item, item)
            source.definitions.append(current)
            if kind == "data":
                for made in re.findall(r"^ +((?:[^\s:]+ )+):", item, re.M):
                    source.types |= {it: current.full for it in made.split()}
        elif signed:
            kind, statement = "abbrev" if "abbrev" in signed["marks"] else "", item[signed.end():]
            current = Definition(source.file, source.module, line + at, signed["name"], kind, within, statement, item)
            source.definitions.append(current)
        elif current is not None and not lines[at].startswith("infix"):
            current.text += "\n" + item


def read(top: Path, file: Path) -> Source:
    text = (CODE_ASIDE if file.suffix == ".rt" else ANTT_ASIDE).sub(lines_alone, file.read_text(encoding="utf-8"))
    inner = file.relative_to(top / "crates").with_suffix("").parts
    module = ".".join(("Rattle", *(inner[:-1] if inner[-1] == "Lib" else inner)))
    source = Source(file.relative_to(top), module, IMPORT.sub(lines_alone, text), list(imports_of(text)))
    if file.suffix == ".antt":
        define(source, source.text)
        goals = {it.local for it in source.imports if it.module.endswith((".Goals", ".Given"))}
        for it in source.definitions:
            it.is_answer = it.statement.strip().partition(".")[0] in goals
    return source


class Names:
    """What is defined in a repository, in these folders and the code, and where each name of a file leads."""

    def __init__(self, top: Path, folders: tuple[str, ...] = ("specs", "proofs")) -> None:
        self.proofs = [read(top, it) for folder in folders
                       for it in sorted(top.glob(f"crates/*/{folder}/**/*.antt"))]
        self.code = [read(top, it) for it in sorted(top.glob("crates/*/src/**/*.rt"))]
        self.modules = {it.module: it for it in self.proofs}
        self.defined = {it.full: it for source in self.proofs for it in source.definitions}
        self.passed = {f"{source.module}.{it.local}": it for source in self.proofs for it in source.imports
                       if it.is_passed_on}
        self.taken: set[str] = set()
        self.scopes = {source.file: self.scope_of(source) for source in self.proofs + self.code}
        for it in self.defined.values():
            it.uses = self.led_to(it.file, f"{it.within} {it.text}") - {it.full}

    def scope_of(self, source: Source) -> dict[str, str]:
        """What each name of a file stands for, the parts of its operators too."""
        scope = {part: self.found(it) for it in source.imports for part in parts_of(it.local)}
        scope |= {part: it.full for it in source.definitions for part in parts_of(it.name)}
        return scope | source.types

    def found(self, it: Import) -> str:
        """What an import brings, through the files that pass it on. A name of std's is the same from wherever it is."""
        while it.full in self.passed and it.full not in self.defined:
            self.taken.add(it.full)
            it = self.passed[it.full]
        if it.name and it.full not in self.defined and it.module in self.modules:
            return self.modules[it.module].types.get(it.name, it.full)
        return it.name if it.name and it.module.startswith(("Rattle.std.", "Prim")) else it.full

    def stands_for(self, file: Path, path: str) -> tuple[str, str]:
        """The definition that a path leads to and the fields behind it. Without a definition, what the path says."""
        first, *rest = path.split(".")
        full = self.scopes[file].get(first) or self.scopes[file].get(first.strip("◌")) or first
        while rest and full not in self.defined and (full == "Rattle" or full.startswith("Rattle.")):
            name = rest.pop(0)
            full = self.found(Import(0, name, full, name)) if full in self.modules else f"{full}.{name}"
        return full, ".".join(rest)

    def led_to(self, file: Path, text: str) -> set[str]:
        paths = {word for word, is_path in words(text) if is_path}
        return {full for path in paths for full, _ in [self.stands_for(file, path)] if full in self.defined}

    def reached(self) -> set[str]:
        """What the clauses of the code and the answers lead to."""
        todo = [it.full for it in self.defined.values() if it.is_answer]
        for source in self.code:
            todo += self.led_to(source.file, source.text)
            for tactic in re.findall(r"#!?\[tactic\((.*?)\)\]", source.text, re.S):
                todo += [f"Rattle.{source.file.parts[1] if crate == 'crate' else crate}{path.replace('::', '.')}"
                         for crate, path in re.findall(r"\b(\w+)((?:::\w+)+)", tactic)]
        seen: set[str] = set()
        while todo:
            if (full := todo.pop()) in self.defined and full not in seen:
                seen.add(full)
                todo += self.defined[full].uses
        return seen

    def unreferenced(self) -> list[str]:
        reached, users = self.reached(), defaultdict[str, list[str]](list)
        lonely = [it for it in self.defined.values() if it.full not in reached]
        for it in lonely:
            for full in it.uses:
                users[full].append(it.name)
        return [f"{it}" + (f", in {', '.join(users[it.full])} alone" if users[it.full] else "") for it in lonely]

    def groups(self) -> list[list[Definition]]:
        """Those of one text. Once some are equal, those are too that differ only in which of these they name."""
        texts = [(it, text) for it in self.defined.values() if not it.is_answer and (text := self.text_of(it))]
        same: dict[str, str] = {}
        groups: list[list[Definition]] = []
        while True:
            by = defaultdict[tuple[str, ...], list[Definition]](list)
            for it, text in texts:
                by[tuple(same.get(word, word) for word in text)].append(it)
            before, groups = len(groups), [group for group in by.values() if len(group) > 1]
            if len(groups) == before:
                return groups
            same = {it.full: group[0].full for group in groups for it in group}

    def text_of(self, it: Definition) -> list[str]:
        """Words by which a definition is compared, none of them its name. None if it names a mere text or number."""
        text, names = ["lemma" if it.is_lemma else it.name if it.is_short else "definition"], set[str]()
        for word, is_path in words(f"{it.within} {it.statement if it.is_lemma else it.text}"):
            full, fields = self.stands_for(it.file, word) if is_path else (word, "")
            if full in self.defined and self.defined[full].kind == "data":
                fields = word.rpartition(".")[2]
            if is_path and not full[0].isdigit():
                names.add(full)
            if word not in ("pub", "abbrev", "unfoldable"):
                text += ["@" if full == it.full else full, fields]
        return text if names - PLAIN - {it.full} and it.kind != "ruleset" else []

    def equal(self) -> list[str]:
        return ["\n        ".join(map(str, group)) for group in self.groups()]

    def homonyms(self) -> list[str]:
        by = defaultdict[str, list[Definition]](list)
        for it in self.defined.values():
            if ".specs." in it.module and "◌" not in it.name:
                by[it.name].append(it)
        return ["\n        ".join(map(str, words)) for words in by.values() if len(words) > 1]

    def imports(self) -> list[str]:
        traits = TRAITS.union(*(re.findall(r"\btrait (\w+)", source.text) for source in self.code))
        found: list[str] = []
        for source in self.proofs + self.code:
            is_code = source.file.suffix == ".rt"
            clauses = "\n".join(inner for _, inner in clauses_of(source.text)) if is_code else source.text
            used = {part for word, is_path in words(clauses) if is_path for first in [word.partition(".")[0]]
                    for part in (first, first.strip("◌"))}
            plain = traits.union(re.findall(r"\w+", source.text)) if is_code else set[str]()
            for it in source.imports:
                is_used = it.local in plain if is_code and not it.is_ghost else bool(parts_of(it.local) & used)
                is_given = it.is_passed_on and (is_code or f"{source.module}.{it.local}" in self.taken)
                if not is_used and not is_given and it.local not in ("*", "_", "self"):
                    found.append(f"{source.file}:{it.line} {it.local}")
        return found

    def uncalled(self) -> list[str]:
        """Functions whose name stands nowhere in the code but where they are defined, and in their own body."""
        plain: dict[Path, str] = {}
        called: Counter[str] = Counter()
        for source in self.code:
            text = source.text
            for at, inner in sorted(clauses_of(text), reverse=True):
                text = text[:at] + "\n" * inner.count("\n") + text[at + len(inner):]
            plain[source.file] = text
            called.update(re.findall(r"(?<!\bfn )\b\w+\b", text))
        return [f"{file}:{line_of(text, at)} {name}" for file, text in plain.items()
                for at, name, body in functions_of(text)
                if called[name] <= len(re.findall(rf"(?<!\bfn )\b{name}\b", body))]


def block_at(text: str, at: int) -> str:
    """What stands between the brace at a place and the one that shuts it."""
    depth = 0
    for match in re.compile(r"[{}]").finditer(text, at):
        depth += 1 if match[0] == "{" else -1
        if depth == 0:
            return text[at + 1:match.start()]
    return text[at + 1:]


def clauses_of(code: str) -> Iterator[tuple[int, str]]:
    """The clauses and the ghost members of code, each with where it begins."""
    for match in CLAUSE.finditer(code):
        at, inner = match.end(), block_at(code, match.end() - 1)
        yield at, inner
        if default := re.compile(r"\}\s*=\s*\{").match(code, at + len(inner)):
            yield default.end(), block_at(code, default.end() - 1)


def functions_of(code: str) -> Iterable[tuple[int, str, str]]:
    """The functions that are to be called by name: the place, the name and the body of each. No test, no `main`, no
    method that a trait asks for, and no law, which gives and changes nothing and only proves its clauses."""
    impls = [(it.end(), it.end() + len(block_at(code, it.end() - 1)))
             for it in re.finditer(r"^impl\b[^{;]* for [^{;]*\{", code, re.M)]
    for match in FUNCTION.finditer(code):
        at, head = match.start("name"), match["head"]
        is_law = "->" not in head and "&mut" not in head and "Abort" not in head
        is_test = "#[test" in match["attributes"] or match["name"] == "main"
        if not (is_law or is_test or any(start <= at < end for start, end in impls)):
            yield at, match["name"], block_at(code, match.end() - 1) if match[0].endswith("{") else ""


def main(arguments: list[str], top: Path = TOP) -> int:
    parser = argparse.ArgumentParser(description=(__doc__ or "").partition("\n")[0])
    parser.add_argument("--only", choices=KINDS, help="list this kind alone")
    parser.add_argument("--count", action="store_true", help="say how many there are of each kind, and list none")
    asked = parser.parse_args(arguments)
    names = Names(top)
    found: dict[str, list[str]] = {kind: getattr(names, kind)() for kind in KINDS if asked.only in (None, kind)}
    for kind, rows in found.items():
        print(f"{len(rows)} {kind}")
        for row in () if asked.count else rows:
            print(f"    {row}")
    return int(any(found.get(kind) for kind in ("unreferenced", "equal", "homonyms")))


if __name__ == "__main__":
    sys.exit(main(sys.argv[1:]))
