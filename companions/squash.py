"""A revision that lands as one commit: an annotated tag at its commit has the message and the author of the landing.

Both are fixed with the revision, since a worker knows no request, and a title may be edited after the test. So the tag
stands in `refs/changes/CHANGE/REVISION` in the commit's place, and its hash in the revision's id. Whether a revision is
squashed is said by what stands there, and by no setting: lander and workers can't differ in it.
"""
from __future__ import annotations

import hashlib
import re
from dataclasses import dataclass

# NAME <ADDRESS>, as git writes it.
AUTHOR = r"[^<>\x00-\x20\x7f](?:[^<>\x00-\x1f\x7f]*[^<>\x00-\x20\x7f])? <[^<>\x00-\x20\x7f]+>"
FORM = re.compile(r"object (?P<commit>[0-9a-f]{40}|[0-9a-f]{64})\ntype commit\ntag [^\n]*\ntagger [^\n]*\n\n"
                  rf"Gate-Author: (?P<author>{AUTHOR})\n\n"
                  r"(?P<message>[^\x00-\x20\x7f](?:[^\x00-\x08\x0b-\x1f\x7f]*[^\x00-\x20\x7f])?)\n")
# The most bytes of such a tag.
LARGEST = 100_000

# What no message gets: controls but tabs and line feeds, what turns the direction of writing, halves of characters.
HIDDEN = re.compile("[\x00-\x08\x0b-\x1f\x7f-\x9f\u2028-\u202e\u2066-\u2069\ud800-\udfff]")
# What begins a line as one of a landing's own, which people or programs may look for.
OWN = re.compile(r"^(?=[ \t]*gate-[a-z]+[ \t]*:)", re.IGNORECASE | re.MULTILINE)
# What forges put before the title of a draft: once it lands it is none.
DRAFT = re.compile(r"\A(?:(?:draft:|\[draft\]|\(draft\)|wip:|\[wip\])\s*)+", re.IGNORECASE)
# So many characters has a message, and an author, at most.
LONGEST, LONGEST_AUTHOR = 20_000, 300
COMMITTED_BY = re.compile(rb"^author ([^\n]*) [0-9]+ [+-][0-9]{4}$", re.MULTILINE)


@dataclass(frozen=True)
class Squash:
    """What a landing says in the place of its change's own commits: its author and its message."""
    author: str
    message: str


def message_of(title: str, text: str) -> str:
    """The message of a request's title and text: the adapter alone makes it, and others take it as it stands."""
    first = DRAFT.sub("", " ".join(plain(title).split())) or "Land a change"
    return OWN.sub("> ", f"{first}\n\n{plain(text)}".rstrip())[:LONGEST].rstrip()


def plain(text: str) -> str:
    """A person's text without what nobody sees, and without blanks at its end and at those of lines. What is longer
    than any message isn't read."""
    lines = text[:2 * LONGEST].replace("\r\n", "\n").split("\n")
    return "\n".join(HIDDEN.sub(" ", it).rstrip() for it in lines).strip("\n")


def author_of(content: bytes, other: str) -> str:
    """The author of a commit, as a landing may name him, or else another one."""
    found = COMMITTED_BY.search(content.partition(b"\n\n")[0])
    author = found[1].decode("utf-8", "replace").strip() if found else ""
    is_one = re.fullmatch(AUTHOR, author) and not HIDDEN.search(author) and len(author) <= LONGEST_AUTHOR
    return author if is_one else other


def tag_of(commit: str, change: int, revision: int, seconds: int, tagger: str, squash: Squash) -> bytes:
    """The content of the tag: a function of what is given, and of no clock."""
    return (f"object {commit}\ntype commit\ntag changes/{change}/{revision}\ntagger {tagger} {seconds} +0000\n\n"
            f"Gate-Author: {squash.author}\n\n{squash.message}\n").encode()


def named_as(commit: str, tag: str | None) -> str:
    """The hash of what stands at a revision's name: its commit, or the tag with this content."""
    if tag is None:
        return commit
    content = tag.encode()
    return (hashlib.sha1 if len(commit) == 40 else hashlib.sha256)(b"tag %d\0" % len(content) + content).hexdigest()


def squashed(content: bytes) -> tuple[str, Squash] | None:
    """The commit of a tag, and what its landing says; none where the tag has another form."""
    try:
        found = FORM.fullmatch(content.decode()) if len(content) <= LARGEST else None
    except UnicodeDecodeError:
        return None
    return (found["commit"], Squash(found["author"], found["message"])) if found is not None else None
