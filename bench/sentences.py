#!/usr/bin/env python3
"""Lists long sentences of the pages: python3 bench/sentences.py [--over N] [PAGE..], at the top; N is 30 by default.

A paragraph, an item of a list, a heading and a cell of a table are read alone, and end a sentence. Within them a full
stop, a question mark or an exclamation mark ends one, if a blank and a capital letter, a code mark or the like follow.
A cell is a list: a semicolon ends a sentence there too. A text in code marks is a word, and so is a list of these with
commas between. Code blocks don't count.
"""
from __future__ import annotations

import argparse
import re
import sys
from collections.abc import Iterator
from pathlib import Path
from typing import NamedTuple

TOP = Path(__file__).resolve().parents[1]
PAGES = ("README.md", "CHANGES.md", "bench/README.md", "examples/README.md", "docs/*.md")
CODES = re.compile(r"`[^`]+`(?:(?:,|;| and| or| of|, and|, or)? `[^`]+`)*")
END = re.compile(r"(?<=[.?!])[)*\"]*\s+(?=[A-Z0-9`\"(*\[_<]|(?:git|nginx|curl)\b)")
ITEM = re.compile(r" *(?:[-*]|\d+\.) ")
# Lines that are read alone: headings, comments, pictures.
ALONE = re.compile(r"#|<!--|!\[")
LINK = re.compile(r"\]\([^)]*\)")


class Sentence(NamedTuple):
    line: int
    words: int
    text: str


def blocks(page: str) -> Iterator[tuple[int, str]]:
    """What is read alone, each with its first line: paragraphs, items of lists, headings, and parts of cells."""
    block, begin, is_code, is_list = list[str](), 0, False, False
    for number, line in enumerate([*page.split("\n"), ""], 1):
        bare, is_item = line.strip(), ITEM.match(line) is not None
        is_mark, is_cell = bare.startswith("```"), bare.startswith("|")
        # A text that is indented behind an empty line is code, if it isn't deep in a list.
        is_text = not (line.startswith("    ") and not block and (not is_list or line.startswith("        ")))
        goes_on = bool(bare) and is_text and not (is_code or is_mark or is_cell or is_item or ALONE.match(line))
        if block and not goes_on:
            yield begin, " ".join(block)
            block = []
        if (is_cell or ALONE.match(line)) and not is_code:
            yield from ((number, part.strip()) for part in re.split(r"(?<!\\)\||; ", bare))
        elif goes_on or is_item and not is_code:
            begin = begin if block else number
            block.append(ITEM.sub("", line, count=1).strip() if is_item else bare)
        is_list = is_item or is_list and (not bare or line.startswith(" "))
        is_code ^= is_mark


def sentences(page: str) -> Iterator[Sentence]:
    for line, block in blocks(page):
        for part in END.split(LINK.sub("]", block)):
            count = sum(any(it.isalnum() for it in word) for word in CODES.sub("code", part).split())
            yield Sentence(line, count, part)


def long_ones(top: Path, pages: list[str], over: int) -> Iterator[tuple[Path, Sentence]]:
    for file in sorted(it for page in pages for it in top.glob(page)):
        for sentence in sentences(file.read_text(encoding="utf-8")):
            if sentence.words > over:
                yield file.relative_to(top), sentence


def main(arguments: list[str], top: Path = TOP) -> int:
    words = argparse.ArgumentParser(description=(__doc__ or "").partition("\n")[0])
    words.add_argument("--over", type=int, default=30, metavar="N", help="list those of more words than this")
    words.add_argument("pages", nargs="*", metavar="PAGE", help="a page, or some by a pattern")
    asked = words.parse_args(arguments)
    found = list(long_ones(top, asked.pages or list(PAGES), asked.over))
    for file, it in found:
        print(f"{file}:{it.line}: {it.words} words: {it.text}")
    print(f"{len(found)} sentences over {asked.over} words")
    return int(bool(found))


if __name__ == "__main__":
    sys.exit(main(sys.argv[1:]))
