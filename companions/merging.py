"""The landing commit: a function of what is merged, and of nothing else.

Whoever merges the same, on whatever machine and whenever, makes the same commit. So a worker's commit for a build has
the hash of the lander's for its landing, and a success of one is a success of the other. docs/CONNECTING.md ("The
landing commit") has the function for those who write a part of their own.
"""
from __future__ import annotations

import re
from collections.abc import Mapping
from dataclasses import dataclass

from companions.squash import Squash

# A date beyond 2100 counts as none: all later landings would have it.
LATEST = 4_102_444_800
# So much of a message and of its first line is read.
READ, SUBJECT = 4096, 200

COMMITTER = re.compile(rb"^committer [^\n]*> ([0-9]{1,10}) [+-][0-9]{4}$", re.MULTILINE)
CONTROL = re.compile("[\x00-\x1f\x7f]")


@dataclass(frozen=True)
class Parent:
    """A commit that is merged: its hash, and what is read of it.

    `seconds` is its committer date, or none where there is none that can be read, or one beyond 2100. `squash` is what
    its landing says where it lands as one commit.
    """
    hash: str
    seconds: int | None
    subject: str
    squash: Squash | None = None


def parent_of(commit: str, content: bytes) -> Parent:
    """What is read of a commit, given the content of its object."""
    head, _, message = content.partition(b"\n\n")
    dates = COMMITTER.findall(head)
    seconds = int(dates[0]) if len(dates) == 1 else LATEST + 1
    return Parent(commit, seconds if seconds <= LATEST else None, subject_of(message[:READ]))


def subject_of(message: bytes) -> str:
    """The first line of a message that isn't blank. A byte that is no UTF-8 is read as U+FFFD, a control character as a
    space."""
    lines = (CONTROL.sub(" ", it).strip(" ") for it in message.decode("utf-8", "replace").split("\n"))
    return next((it for it in lines if it), "")[:SUBJECT].rstrip(" ")


@dataclass(frozen=True)
class Merge:
    """What is merged: a change at a revision, onto a branch, to be a queue's landing at a place.

    `others` are the commits of the queue's other projects, of those that have a landing or a change ahead. `author` is
    `NAME <ADDRESS>`, for both author and committer.
    """
    queue: str
    place: int
    change: int
    revision: int
    onto: Parent
    commit: Parent
    others: Mapping[str, str]
    author: str

    @property
    def seconds(self) -> int:
        """The later one of the parents' dates. A date that is none counts as the first parent's, or else as 0."""
        onto = self.onto.seconds
        return max(onto or 0, self.commit.seconds if self.commit.seconds is not None else onto or 0)

    @property
    def message(self) -> str:
        subject = f": {self.commit.subject}" if self.commit.subject else ""
        others = "".join(f"Gate-With: {name} {self.others[name]}\n" for name in sorted(self.others))
        squash = self.commit.squash
        says = f"Land change {self.change}{subject}" if squash is None else squash.message
        commit = "" if squash is None else f"Gate-Commit: {self.commit.hash}\n"
        return (f"{says}\n\nGate-Queue: {self.queue}\nGate-Place: {self.place}\nGate-Change: {self.change}\n"
                f"Gate-Revision: {self.revision}\n{commit}{others}")

    def content(self, tree: str) -> bytes:
        """The content of the commit's object, given the hash of the merged tree. One that is squashed has no second
        parent, and the author that its tag names."""
        squash, when = self.commit.squash, f"{self.seconds} +0000"
        parents = f"parent {self.onto.hash}\n" + ("" if squash else f"parent {self.commit.hash}\n")
        author = self.author if squash is None else squash.author
        return (f"tree {tree}\n{parents}author {author} {when}\ncommitter {self.author} {when}\n\n"
                f"{self.message}").encode()
