"""The pieces that a contract stands on: definitions of specs, types of the code, ghost members and clauses."""
from __future__ import annotations

import re
from collections import defaultdict
from collections.abc import Iterable, Iterator
from dataclasses import dataclass
from pathlib import Path

from bench.names import Names, Source, block_at, line_of, words

DECLARED = re.compile(r"^Rattle\.(?P<crate>\w+)\.specs\.declared\.(?P<path>.+)$")
TYPE = re.compile(r"^(?:pub(?:\([a-z]+\))? )?(?P<kind>struct|enum|trait|type|const) (?P<name>\w+)"
                  r"(?P<head>[^{;=]*)[{;=]", re.M)
IMPL = re.compile(r"^impl\b(?P<bounds>[^{;]*?)(?P<trait>\w+)(?:<[^{;]*>)? for (?P<name>\w+)[^{;]*\{", re.M)
GHOST = re.compile(r"^ +(?:pub )?ghost (?P<name>\w+)\s*[:=]\s*\{", re.M)
FUNCTION = re.compile(r"\bfn (?P<name>\w+)")
CLAUSE = re.compile(r"\s*(?P<kind>requires|ensures|ghost)\*?(?: (?P<name>\w+):?)?\s*\{")
BOUND = re.compile(r"\b(?P<parameter>[A-Z]): (?P<traits>[A-Z][\w+ ]*)")


@dataclass(frozen=True)
class Piece:
    """What is read at one place, without its comments; `kind` says which sort of place it is."""
    key: str
    kind: str
    file: Path
    line: int
    name: str
    text: str

    @property
    def lines(self) -> int:
        """Its lines. Blank ones and comments don't count."""
        return sum(bool(line.strip()) for line in self.text.splitlines())


def home(source: Source) -> str:
    """The path of a file of code: `gate_types.records`, and the crate alone for its root."""
    return re.sub(r"\.(?:lib|main)$", "", source.module.removeprefix("Rattle.").replace(".src.", "."))


def signature_end(text: str, at: int) -> int:
    """Where the first clause of a function begins, or else its body."""
    found = re.compile(r"\b(?:requires|ensures)\b|\bghost \w+:|[{;]").search(text, at)
    return found.start() if found else len(text)


class Pieces:
    """All pieces of a repository by their keys, and what each of them names."""

    def __init__(self, top: Path) -> None:
        self.names = Names(top, ("specs",))
        self.sources = {home(it): it for it in self.names.code}
        self.homes = {it.file: path for path, it in self.sources.items()}
        self.pieces = {it.full: Piece(it.full, "definition", it.file, it.line, it.name, f"{it.within}\n{it.text}")
                       for it in self.names.defined.values()}
        self.bounds: dict[Path, dict[str, list[str]]] = {}
        self.parents: dict[str, list[str]] = {}
        for source in self.names.code:
            self.bounds[source.file] = self.bounds_of(source.text)
            self.add_types(source)
        for source in self.names.code:
            self.add_ghosts(source)

    @staticmethod
    def bounds_of(text: str) -> dict[str, list[str]]:
        found = defaultdict[str, list[str]](list)
        for match in BOUND.finditer(text):
            found[match["parameter"]] += re.findall(r"\w+", match["traits"])
        return found

    def add_types(self, source: Source) -> None:
        """The types of a file. Of a trait and of a type with a model it is the first line: their ghost members are
        pieces too, and no clause sees the fields behind a model."""
        models = {it["name"] for it in IMPL.finditer(source.text) if it["trait"] == "Model"}
        for match in TYPE.finditer(source.text):
            end = match.end() - 1
            if match["kind"] == "trait" or match["name"] in models:
                text = source.text[match.start():end]
                self.parents[f"{home(source)}.{match['name']}"] = re.findall(r"\w+", match["head"])
            elif source.text[end] == "{":
                text = source.text[match.start():end + len(block_at(source.text, end)) + 2]
            else:
                text = source.text[match.start():source.text.find(";", match.start()) + 1]
            self.add(source, f"{home(source)}.{match['name']}", match["kind"], match.start(), match["name"], text)

    def add_ghosts(self, source: Source) -> None:
        """Ghost members of traits, and those of impls; `Value` of a `Model` is what a clause sees of a value."""
        blocks = [(it["name"], it.end() - 1) for it in TYPE.finditer(source.text) if it["kind"] == "trait"]
        blocks += [(f"{it['name']}.{it['trait']}", it.end() - 1) for it in IMPL.finditer(source.text)]
        for name, at in blocks:
            inner = block_at(source.text, at)
            for match in GHOST.finditer(inner):
                text = match[0] + block_at(inner, match.end() - 1) + "}"
                key = f"{home(source)}.{name}.{match['name']}"
                self.add(source, key, "ghost", at + 1 + match.start("name"), key.removeprefix(f"{home(source)}."), text)

    def add(self, source: Source, key: str, kind: str, at: int, name: str, text: str) -> None:
        self.pieces[key] = Piece(key, kind, source.file, line_of(source.text, at), name, text)

    def contract(self, address: str) -> Piece:
        """A function's clauses by `path.function clause ..`: what it requires, and these of what it ensures, or all."""
        path, *wanted = address.split()
        module, _, name = path.rpartition(".")
        source = self.sources[module]
        for match in FUNCTION.finditer(source.text):
            at = signature_end(source.text, match.end())
            clauses = list(self.clauses_at(source.text, at))
            named = {it for kind, it, _ in clauses if kind == "ensures"}
            if match["name"] == name and clauses and named.issuperset(wanted):
                texts = [text for kind, it, text in clauses if kind != "ensures" or not wanted or it in wanted]
                head = source.text[match.start():at].rstrip()
                return Piece(address, "contract", source.file, line_of(source.text, match.start()), name,
                             "\n".join([head, *texts]))
        raise KeyError(address)

    @staticmethod
    def clauses_at(text: str, at: int) -> Iterator[tuple[str, str, str]]:
        while match := CLAUSE.match(text, at):
            at = match.end() + len(block_at(text, match.end() - 1)) + 1
            yield match["kind"], match["name"] or "", text[match.start():at]

    def uses(self, piece: Piece) -> set[str]:
        """The keys of what a piece names."""
        if piece.kind == "definition":
            paths = {word for word, is_path in words(piece.text) if is_path}
            return self.known(self.names.stands_for(piece.file, path)[0] for path in paths) - {piece.key}
        found = {key for word in re.findall(r"\w+", piece.text) if (key := self.rust(piece.file, word))}
        ghostly = piece.text if piece.kind in ("contract", "ghost") else "\n".join(
            block_at(piece.text, it.end() - 1) for it in GHOST.finditer(piece.text))
        found |= self.ghost_uses(piece, ghostly)
        owner = re.sub(r"\.\w+\.\w+$", "", piece.key) if piece.kind == "ghost" else piece.key
        models = {f"{key}.Model.Value" for key in found | {owner}}
        return (found | models & self.pieces.keys()) - {piece.key}

    def ghost_uses(self, piece: Piece, text: str) -> set[str]:
        """What a clause names: what `ghost use` brings, and the ghost members of what bounds a parameter."""
        ghosts = {it.local: it for it in self.source(piece.file).imports if it.is_ghost}
        own = piece.key.rpartition(".")[0]
        found = set[str]()
        for word in (word for word, is_path in words(text) if is_path):
            first, *rest = word.split(".")
            if first in ghosts or f"◌{first}◌" in ghosts:
                found |= self.known([self.names.stands_for(piece.file, word)[0]])
            traits = self.bounds[piece.file].get(first, [])
            for trait in (key for it in traits if (key := self.rust(piece.file, it))):
                found |= self.members(trait, rest[:1])
            found |= self.members(own, [first]) if piece.kind == "ghost" else set[str]()
        return found

    def members(self, trait: str, names: Iterable[str]) -> set[str]:
        """The ghost members of these names that a trait has, itself or from those that it extends."""
        found = {f"{trait}.{it}" for it in names} & self.pieces.keys()
        for parent in self.parents.get(trait, []):
            key = self.rust(self.pieces[trait].file, parent)
            found |= self.members(key, names) if key and key != trait else set[str]()
        return found | ({trait} & self.pieces.keys() if found else set[str]())

    def known(self, paths: Iterable[str]) -> set[str]:
        return {key for path in paths if (key := self.declared(path)) in self.pieces}

    def declared(self, path: str) -> str:
        """The type of the code that a name from `specs.declared` leads to; any other path as it is."""
        if not (match := DECLARED.match(path)):
            return path
        parts = [match["crate"], *match["path"].split(".")]
        keys = (".".join(parts[:end]) for end in range(len(parts), 1, -1))
        return next((key for key in keys if key in self.pieces), path)

    def source(self, file: Path) -> Source:
        return self.sources[self.homes[file]]

    def rust(self, file: Path, name: str, depth: int = 8) -> str:
        """The type that a name stands for in a file of code, itself or by `use`; empty if it is of no crate here."""
        path = self.homes[file]
        if f"{path}.{name}" in self.pieces:
            return f"{path}.{name}"
        for it in self.source(file).imports if depth else ():
            if it.is_ghost or it.local != name:
                continue
            full = re.sub(r"^crate\b", path.partition(".")[0], it.full)
            for full in (full, f"{path}.{full}"):
                module, _, last = full.rpartition(".")
                if full in self.pieces:
                    return full
                if module in self.sources:
                    return self.rust(self.sources[module].file, last, depth - 1)
        return ""
