"""A forge's API: JSON over HTTP, by pages, with bounds for what comes and for how often a forge is asked."""
from __future__ import annotations

import contextlib
import email.utils
import http.client
import json
import re
import time
import urllib.parse
from collections.abc import Iterator, Mapping
from datetime import datetime
from typing import Any

from companions.connections import within
from companions.gate import say
from companions.kept_answers import Content, KeptAnswers
from companions.rests import Hourly, Rests
from companions.tokens import HEADER, Ending

# The most bytes that an answer of a forge's API, or a hook, may have.
LARGEST = 8 * 1024 * 1024

# How many elements of a list are asked for at a time; and where a page is too large, those of a smaller one.
PAGE = 50
SMALLER = {PAGE: 10, 10: 1}

# The most calls of smaller pages that one look takes, or one reading of another list; and the most pages of a list of
# comments.
MOST_CALLS = 100

# The longest pause that a forge is believed to ask for, in seconds, and how long it isn't asked at first if it refuses
# without naming one.
LONGEST_PAUSE, REFUSED_PAUSE = 3600.0, 60.0

# From so many places to the next one is gone where a forge refers there.
MOST_MOVES = 4

# The kinds of calls, and by which words forges refuse for a limit where they don't name it by a header.
KINDS = ("reading", "writing")
LIMITS = re.compile("rate limit|abuse|too many requests|login attempts? exceeded", re.IGNORECASE)


class ForgeFault(Exception):
    """The forge didn't answer, or not with what its documentation says: nothing is known.

    `status` is that of HTTP, if an answer came, and `said` the beginning of its text.
    """

    def __init__(self, what: str, status: int | None = None, said: str = "") -> None:
        super().__init__(what)
        self.status, self.said = status, said


class TooLarge(ForgeFault):
    """An answer is larger than any that is read. Anybody who may write a long text can bring that about."""


class Full(ForgeFault):
    """A commit takes no more statuses."""


class Unread:
    """A reading of a list in which anybody may write: what can't be read of it is left out, and that is noted here.
    `is_whole`: it comes whole, whichever page is asked for. `kind`: smaller pages of all lists of such a kind are
    bounded by the hour. `calls` are those of smaller pages, and `before` those of the lists that the same look has read
    before. `is_capped`: the forge's pages have fewer elements than are asked for, so smaller ones aren't where they are
    looked for."""

    def __init__(self, is_whole: bool = False, kind: str = "", before: int = 0) -> None:
        self.is_whole, self.kind, self.is_any, self.calls = is_whole, kind, False, 0
        self.before = before
        # The first page of each size that isn't full.
        self.is_capped, self.short = False, dict[int, int]()

    @property
    def is_spent(self) -> bool:
        """Whether no smaller page is asked for any more."""
        return self.before + self.calls > MOST_CALLS

    def see(self, size: int, page: int, many: int) -> None:
        """A page of a size has so many elements. Only the last one that has some isn't full."""
        self.is_capped |= many > 0 and page > self.short.get(size, page)
        if many < size:
            self.short.setdefault(size, page)

    def begin_again(self) -> None:
        """The list is read from its first page on, by pages of another size."""
        self.is_capped, self.short = False, {}


class Api:
    """A forge's API: JSON over HTTP, a request a connection. A forge that asks for a pause, or refuses, isn't called
    for a while, by a clock that nobody sets; nor is a path that the account may not use. Of some lists so many smaller
    pages are asked for in an hour, if that is bounded: the forge answers so many calls to all."""

    def __init__(self, url: str, headers: Mapping[str, str], timeout: float = 30.0, smaller: int | None = None
                 ) -> None:
        self.url, self.timeout, self.resting = urllib.parse.urlsplit(url.rstrip("/")), timeout, 0.0
        self.headers = {"Accept": "application/json", "User-Agent": "gated-adapter", **headers}
        self.kept = KeptAnswers()
        self.own: int | None = None
        # The forge's own time of its last answer.
        self.time: datetime | None = None
        self.told, self.unlisted = set[str](), set[str]()
        # Where each repository is by now, by the beginnings of paths: it may have another name.
        self.names: dict[str, str] = {}
        self.refusals = Rests(REFUSED_PAUSE, LONGEST_PAUSE)
        self.most_smaller, self.smaller = smaller, dict[str, Hourly]()
        self.ending = Ending()

    def call(self, method: str, path: str, said: Any = None) -> Any:
        """What the API answers; `ForgeFault` for all statuses but 2xx."""
        return self.answer(method, path, said)[0]

    def find(self, method: str, path: str, said: Any = None, none: tuple[int, ...] = (404,)) -> Any:
        """What the API answers, or none where its status says that there is none."""
        try:
            return self.call(method, path, said)
        except ForgeFault as fault:
            if fault.status not in none:
                raise
            return None

    def account(self) -> int:
        """The number of the token's account, which stays the same."""
        if self.own is None:
            with expected("/user"):
                self.own = int(self.call("GET", "/user")["id"])
        return self.own

    def answer(self, method: str, path: str, said: Any) -> tuple[Any, str]:
        """What the API answers, and what its header `Link` has."""
        self.check(method, path)
        kept = self.kept.of_path.get(path) if method == "GET" else None
        try:
            response, content = self.followed(method, path, said, kept)
            self.ending.see(response.getheader(HEADER, ""))
            if response.status == 304 and kept is not None:
                return json.loads(kept.content), kept.link
            if response.status // 100 != 2:
                text = content[:200].decode("utf-8", "replace")
                self.refused(method, path, response, text)
                raise ForgeFault(f"{method} {path}: status {response.status}, {text!r}", response.status, text)
            self.refusals.over(kind_of(method))
            self.refusals.over(f"{method} {path}")
            answer = Content(content, response.getheader("Link", ""), response.getheader("ETag", ""))
            if method == "GET":
                self.kept.keep(path, answer)
            return None if response.status == 204 and method != "GET" else json.loads(content), answer.link
        except TooLong as fault:
            raise TooLarge(f"{method} {path}: {fault}") from fault
        except (OSError, http.client.HTTPException, ValueError, RecursionError) as fault:
            raise ForgeFault(f"{method} {path}: {fault or type(fault).__name__}") from fault

    def check(self, method: str, path: str) -> None:
        """`ForgeFault` where the forge isn't to be asked by now."""
        now = time.monotonic()
        if now < self.resting or any(self.refusals.is_resting(it, now) for it in KINDS):
            raise ForgeFault(f"{method} {path}: not asked, since the forge wants a pause")
        if self.refusals.is_resting(f"{method} {path}", now):
            raise ForgeFault(f"{method} {path}: not asked, since the forge has refused it", 403)

    def refused(self, method: str, path: str, response: http.client.HTTPResponse, text: str) -> None:
        """Notes for how long the forge isn't asked that gave this answer. One that names no time and refuses for a
        limit, or doesn't know the token, refuses all; a right that is missing is one of this path."""
        now, pause = time.monotonic(), pause_of(response)
        if pause:
            self.resting = max(self.resting, now + pause)
        elif response.status in (401, 429) or response.status == 403 and LIMITS.search(text):
            self.refusals.failed(kind_of(method), now)
        elif response.status == 403:
            self.refusals.failed(f"{method} {path}", now)

    def followed(self, method: str, path: str, said: Any, kept: Content | None
                 ) -> tuple[http.client.HTTPResponse, bytes]:
        """The answer, or the one at the place to which the forge refers, as where a repository has another name now:
        git goes there too. Nothing is sent to another server."""
        name, where = name_in(path), path
        if method != "GET":
            # GitLab refers questions alone.
            where = self.names.get(name, name) + path[len(name):]
        for _ in range(MOST_MOVES):
            response, content = self.exchange(method, where, said, kept)
            there = self.moved(response, where)
            if there is None:
                if method == "GET" and where.endswith(path[len(name):]):
                    self.names[name] = where[:len(where) - len(path[len(name):])]
                return response, content
            where = there
        raise ValueError(f"refers from place to place, last to {where}")

    def moved(self, response: http.client.HTTPResponse, path: str) -> str | None:
        """The path to which an answer refers, if that is of this API."""
        if response.status not in (301, 302, 307, 308):
            return None
        there = urllib.parse.urlsplit(urllib.parse.urljoin(self.url.geturl(), response.getheader("Location", "")))
        if server_of(there) != server_of(self.url) or not there.path.startswith(self.url.path + "/"):
            return None
        place, _, query = path.partition("?")
        if name_in(path) not in self.told:
            self.told.add(name_in(path))
            say("adapter", f"{place} is at {there.path} now: if its repository has another name, give that to"
                           " project.forge")
        return there.path[len(self.url.path):] + (f"?{there.query or query}" if there.query or query else "")

    def exchange(self, method: str, path: str, said: Any, kept: Content | None
                 ) -> tuple[http.client.HTTPResponse, bytes]:
        """One request, and the whole content of its answer."""
        body = None if said is None else json.dumps(said).encode()
        headers = {**self.headers, **({"Content-Type": "application/json"} if body is not None else {}),
                   **({"If-None-Match": kept.tag} if kept else {})}
        with within(self.url, self.timeout) as connection:
            connection.request(method, self.url.path + path, body, headers)
            with contextlib.closing(connection.getresponse()) as response:
                self.time = date_of(response)
                return response, content_of(response)

    def pages(self, path: str, size: str, has_links: bool, unread: Unread | None = None) -> Iterator[Any]:
        """All elements of a list that comes by pages; `size` is how the API calls the number of elements on a page.

        The page may be smaller than asked for. The last one has no link to a next one; of a forge that doesn't link all
        its lists, it is the one that brings nothing new, as some lists come whole whichever page is asked for. A page
        that is too large is asked for by smaller ones. What can't be read so is a fault, or left out if it may be.
        """
        page, of, seen, calls = 1, PAGE, set[int](), unread or Unread()
        where = f"{path}{'&' if '?' in path else '?'}{size}="
        while True:
            if unread and page > MOST_CALLS:
                unread.is_any = True
                return
            found, is_last = self.part(where, of, page, has_links, calls, unread is None)
            with expected(where):
                new = [it for it in found if it["id"] not in seen]
                seen.update(it["id"] for it in new)
            yield from new
            if calls.calls and (calls.is_capped or found and not new and of == PAGE):
                if of == PAGE:
                    # Of pages that are no larger than the forge's own, smaller ones are where they are looked for.
                    page, of = 1, SMALLER[PAGE]
                    calls.begin_again()
                    continue
                if unread is None:
                    raise TooLarge(f"GET {where}: some pages are too large, and smaller ones can't be told from others")
                unread.is_any = True
                return
            if is_last or not new and not calls.is_any and of == PAGE:
                return
            page += 1

    def tell_unlisted(self, repository: str, unread: Unread) -> None:
        """Says, once until that ends, that not all open requests of a repository can be listed."""
        if not unread.is_any:
            self.unlisted.discard(repository)
        elif repository not in self.unlisted:
            self.unlisted.add(repository)
            say("adapter", f"{repository}: its open requests are too many, or their texts too long, to be listed: one"
                           " that isn't listed, and that the gate wasn't told of, is looked at when a hook names it")

    def part(self, where: str, size: int, page: int, has_links: bool, unread: Unread,
             is_strict: bool) -> tuple[list[Any], bool]:
        """A page, and whether it is the last one. `is_strict`: nothing may be left out."""
        path = f"{where}{size}&page={page}"
        if size < PAGE:
            self.count_smaller(unread)
        try:
            if unread.is_spent and unread.calls:
                raise TooLarge(f"GET {path}: not asked, since {MOST_CALLS} smaller pages were asked for by then")
            found, link = self.answer("GET", path, None)
        except TooLarge:
            unread.see(size, page, size)
            if not unread.is_spent and size in SMALLER and not unread.is_whole:
                return self.parts(where, size, page, has_links, unread, is_strict)
            if is_strict:
                raise
            unread.is_any = True
            return [], unread.is_spent or unread.is_whole
        with expected(path):
            if not isinstance(found, list):
                raise TypeError("no list")
        unread.see(size, page, len(found))
        is_last = not found or has_links and 'rel="next"' not in link
        if is_last and len(found) >= size:
            # A full page stays the same when the next one comes to be.
            self.kept.drop(path)
        return found, is_last

    def count_smaller(self, unread: Unread) -> None:
        """Counts a call of a smaller page. Where the hour's are used up, so are those of this reading."""
        unread.calls += 1
        if unread.kind and self.most_smaller is not None:
            now, smaller = time.monotonic(), self.smaller.setdefault(unread.kind, Hourly())
            if smaller.is_below(self.most_smaller, now):
                smaller.count(now)
            else:
                unread.calls = MOST_CALLS + 1

    def parts(self, where: str, size: int, page: int, has_links: bool, unread: Unread,
              is_strict: bool) -> tuple[list[Any], bool]:
        """What is on a page, by the smaller ones in its place."""
        smaller, found, is_last = SMALLER[size], list[Any](), False
        first = (page - 1) * (size // smaller) + 1
        for at in range(first, first + size // smaller):
            more, is_last = self.part(where, smaller, at, has_links, unread, is_strict)
            found += more
            if is_last:
                break
        return found, is_last


def server_of(url: urllib.parse.SplitResult) -> tuple[str, str, str | None, int | None]:
    """What two addresses of one server have in common: they may name the port that each has by itself, or not."""
    user, _, _ = url.netloc.rpartition("@")
    port = {"http": 80, "https": 443}.get(url.scheme) if url.port is None else url.port
    return url.scheme, user, url.hostname, port


def name_in(path: str) -> str:
    """The beginning of a path that names a repository, as `/repos/OWNER/NAME` or `/projects/ID`."""
    parts = path.partition("?")[0].split("/")
    return "/".join(parts[:3] if parts[1] == "projects" else parts[:4])


def kind_of(method: str) -> str:
    """What a call is, one of `KINDS`: forges limit each by itself."""
    return KINDS[method != "GET"]


def pause_of(response: http.client.HTTPResponse) -> float:
    """The seconds that a forge that refuses wants to be left alone: by HTTP, in seconds or as a date, or as GitHub and
    GitLab say that what may be asked in an hour is used up. A time is compared with the forge's own one."""
    said, waits, now = response.getheader("Retry-After", ""), list[float](), time.time()
    with contextlib.suppress(ValueError):
        now = email.utils.parsedate_to_datetime(response.getheader("Date", "")).timestamp()
    if said.isascii() and said.isdigit():
        waits.append(float(said[:9]))
    elif said:
        with contextlib.suppress(ValueError):
            waits.append(email.utils.parsedate_to_datetime(said).timestamp() - now)
    for name in ("X-RateLimit", "RateLimit"):
        until = response.getheader(f"{name}-Reset", "")
        if not waits and response.getheader(f"{name}-Remaining", "0") == "0" and until.isascii() and until.isdigit():
            waits.append(float(until[:15]) - now)
    return max(0.0, min(LONGEST_PAUSE, *waits)) if waits else 0.0


def date_of(response: http.client.HTTPResponse) -> datetime | None:
    """When an answer was given, by the clock of who gave it; none where that isn't said."""
    with contextlib.suppress(ValueError):
        at = email.utils.parsedate_to_datetime(response.getheader("Date", ""))
        return at if at.tzinfo else None
    return None


class TooLong(Exception):
    """A content is longer than any that is read."""


def content_of(response: http.client.HTTPResponse) -> bytes:
    """The whole content. A cut one could be taken for an empty list."""
    content = response.read(LARGEST + 1)
    if len(content) > LARGEST:
        raise TooLong(f"more than {LARGEST} bytes")
    if response.length:
        raise http.client.IncompleteRead(content, response.length)
    return content


@contextlib.contextmanager
def expected(path: str) -> Iterator[None]:
    """An answer that doesn't have the form that is documented is none."""
    try:
        yield
    except (KeyError, TypeError, ValueError, AttributeError) as fault:
        raise ForgeFault(f"{path}: not what the forge's documentation says: {fault!r}") from fault
