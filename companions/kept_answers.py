"""Answers of a forge that are kept, to be asked for again only where they have changed."""
from __future__ import annotations

from dataclasses import dataclass

# The most bytes of them.
MOST_KEPT = 64 * 1024 * 1024


@dataclass(frozen=True)
class Content:
    """What an answer brought: its content, the header `Link`, and a tag by which to ask whether it has changed."""
    content: bytes
    link: str
    tag: str


class KeptAnswers:
    """The last answers that had a tag, by path. A forge sends nothing again that hasn't changed, and GitHub doesn't
    count the question: so all open requests may be looked at every few minutes."""

    def __init__(self, most: int = MOST_KEPT) -> None:
        self.most, self.size = most, 0
        self.of_path: dict[str, Content] = {}

    def keep(self, path: str, answer: Content) -> None:
        """Keeps an answer behind all others, and drops the oldest where they are too much."""
        self.drop(path)
        if answer.tag:
            self.of_path[path] = answer
            self.size += len(answer.content)
        while self.size > self.most:
            self.drop(next(iter(self.of_path)))

    def drop(self, path: str) -> None:
        old = self.of_path.pop(path, None)
        self.size -= len(old.content) if old else 0
