"""What the forms of a stand-in forge have alike: who asks, which repository is meant, pages, and who answers."""
from __future__ import annotations

import copy
import json
import re
import urllib.parse
from collections.abc import Callable
from dataclasses import dataclass, field
from typing import Any, Self

from companions.tests.forges.hooks import Hook
from companions.tests.forges.model import GATE, Entry, Model, Pull, Webhook


@dataclass
class Reply:
    """An answer. Without content (`said` is none) it has no `Content-Type`."""
    status: int
    said: Any
    headers: dict[str, str] = field(default_factory=dict)


@dataclass(frozen=True)
class Question:
    """What came: the body's JSON, the query, the parts of the path that its pattern names, the path, and who asks."""
    said: dict[str, Any]
    query: dict[str, str]
    parts: tuple[str, ...]
    path: str
    who: str


# A method, a pattern of the path, and who answers.
Route = tuple[str, str, Callable[[Question], Reply]]


class Form:
    """A forge's API and its hooks, over a model. Each kind of forge is a subclass. `tokens` says whose each token is,
    `api` is the address of the API, and `when_hooked` is told of each webhook that somebody sets up."""

    prefix, page_name, default_page, largest_page = "", "per_page", 30, 100
    # Whether it says by a tag that an answer has changed.
    has_tags = False
    content_type = "application/json"
    # The most characters of a comment.
    comment_limit = 65536
    # The calls an hour that its headers speak of, and these headers' beginning; without a beginning there are none.
    hourly, limits_name = 5000, ""

    def __init__(self, model: Model, token: str, secret: str) -> None:
        self.model, self.token, self.secret = model, token, secret
        self.tokens = {token: GATE}
        self.web, self.api = "https://forge.example", "https://api.forge.example"
        self.when_hooked: Callable[[Webhook], None] = lambda _: None
        # No page has more elements, whatever is asked for.
        self.cap = self.largest_page

    def who(self, headers: dict[str, str]) -> str | None:
        """Whose token came, if one came."""
        raise NotImplementedError

    def unknown(self) -> Reply:
        """What somebody hears whose token isn't known."""
        raise NotImplementedError

    def routes(self) -> list[Route]:
        raise NotImplementedError

    def place_of(self, path: str) -> tuple[str, str, str] | None:
        """A path of a repository, in which it may have its number: what stands before its name, the name, and what
        stands behind."""
        raise NotImplementedError

    def path_of(self, repository: str, rest: str) -> str:
        """The path of a repository by its name, and what stands behind."""
        raise NotImplementedError

    def moved(self, method: str, repository: str, rest: str) -> Reply:
        """What somebody hears who asks for a repository by the name that it had."""
        raise NotImplementedError

    def hook(self, what: str, pull: Pull, entry: Entry | None) -> Hook | None:
        """What is sent of something that happened, if anything is."""
        raise NotImplementedError

    def missing(self) -> Reply:
        return Reply(404, {"message": "Not Found"})

    def copy(self) -> Self:
        """The same form over a copy of the model, which stays as it is."""
        it = copy.copy(self)
        it.model = self.model.copy()
        return it

    def page(self, rows: list[Any], question: Question) -> tuple[list[Any], str]:
        """The page of a list that was asked for, and the header that links to the next one."""
        page, size = self.page_of(question)
        last = max(1, -(-len(rows) // size))
        links = {"prev": page - 1, "next": page + 1, "last": last} if page < last else {"prev": page - 1, "first": 1}
        query = {name: value for name, value in question.query.items() if name != "page"}
        where = self.api + self.linked(question.path)
        parts = [f'<{where}?{urllib.parse.urlencode({**query, "page": it})}>; rel="{name}"'
                 for name, it in links.items() if it > 0 and last > 1]
        return rows[(page - 1) * size:page * size], ", ".join(parts)

    def page_of(self, question: Question) -> tuple[int, int]:
        """Which page was asked for, and how many elements it has."""
        size = int(question.query.get(self.page_name, self.default_page))
        return int(question.query.get("page", "1")), min(size, self.cap)

    def linked(self, path: str) -> str:
        """The path by which links name what was asked for."""
        return path

    def listed(self, rows: list[Any], question: Question) -> Reply:
        page, link = self.page(rows, question)
        return Reply(200, page, {"Link": link} if link else {})

    def answer(self, method: str, target: str, body: bytes, headers: dict[str, str]) -> Reply:
        who = self.who(headers)
        if who is None:
            return self.unknown()
        url = urllib.parse.urlsplit(target)
        path, query = url.path.removeprefix(self.prefix), dict(urllib.parse.parse_qsl(url.query))
        with self.model.lock:
            named = self.place_of(path)
            if named is not None:
                repository, rest = self.model.name_of(named[1]), named[2]
                if named[1] in self.model.former:
                    return self.moved(method, repository, rest + (f"?{url.query}" if url.query else ""))
                path = self.path_of(repository, rest)
            for wanted, pattern, answers in self.routes():
                found = re.fullmatch(pattern, path)
                if found and method == wanted and url.path.startswith(self.prefix):
                    parts = tuple(urllib.parse.unquote(it) for it in found.groups())
                    said = content_of(body, headers.get("Content-Type", ""))
                    return answers(Question(said, query, parts, path, who))
        return self.missing()


def content_of(body: bytes, kind: str) -> dict[str, Any]:
    """What was sent: JSON, or the fields of a form."""
    if kind.startswith("application/x-www-form-urlencoded"):
        return dict(urllib.parse.parse_qsl(body.decode()))
    said = json.loads(body) if body else {}
    return said if isinstance(said, dict) else {}
