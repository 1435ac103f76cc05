"""What an adapter asks and tells a forge: one small interface, with a form of it for each kind of forge."""
from __future__ import annotations

import hashlib
import hmac
import json
import re
import urllib.parse
from collections.abc import Iterable, Iterator, Mapping
from dataclasses import dataclass, replace
from datetime import datetime, timedelta, timezone
from typing import Any, Protocol

from companions.requests import Request, Vote

# What a commit status says: the check isn't decided, has passed, or hasn't.
PENDING, SUCCESS, FAILURE = "pending", "success", "failure"

# A comment that is this is a person's approval, alone or with the whole hash of the commit behind it. Whatever else
# stands behind it, it is meant as one, and its person hears why it is none.
APPROVES = "/gate approve"
MEANT = re.compile(rf"{APPROVES}(?:\W.*)?")
APPROVAL = re.compile(rf"{APPROVES}(?:[ \t]+([0-9a-fA-F]+))?")

# So long nobody relies on what a list shows of a request that was updated.
FRESH = timedelta(seconds=60)

# Why an approval is none where the request had another target branch.
ELSEWHERE = "approved before its target branch was changed"
# And where it is a comment, and the request had another head.
PUSHED = "approved by a comment before the last push"


class Headers(Protocol):
    """The headers of a hook, found by names in small letters or large ones."""

    def get(self, name: str, /) -> str | None:
        """The value of a header, or none."""


@dataclass(frozen=True)
class Place:
    """A request's place: its repository, as `owner/name`, and its number there."""
    repository: str
    number: int


@dataclass(frozen=True)
class Listed:
    """What a list of requests shows of one: its target branch, and a text that is the same while it hasn't changed, or
    none where it has changed so lately that it may do so again unseen."""
    target: str
    shown: str | None


@dataclass(frozen=True)
class Limits:
    """How many texts a form of a forge takes a minute, and an hour if it bounds that, and how many statuses of one
    commit if it bounds them."""
    minute: int = 60
    hour: int | None = None
    statuses: int | None = None


class Seal(Protocol):
    """What says whether a hook is signed by the secret, while its body comes."""

    def add(self, part: bytes) -> None:
        """The next bytes of the body."""

    def check(self) -> None:
        """`PermissionError` unless what has come is signed."""


class Forge(Protocol):
    """A forge. Each call may raise `ForgeFault`. `mark` is what stands before a request's number, and `requests_at`
    what stands before it in the address of the request's page, behind that of its repository."""
    mark: str
    requests_at: str
    limits: Limits
    # Whether it may show a request as open though its branch has all of it.
    leaves_open: bool

    def seal_of(self, headers: Headers) -> Seal:
        """The seal of a hook with these headers. `PermissionError` if they alone say that it isn't signed."""

    def place_of(self, headers: Headers, body: bytes) -> Place | None:
        """The request that a hook is about, if it is about one, and not about what the gate wrote on it.
        `PermissionError` if it isn't signed by the secret.

        The headers have to be found whether they are written large or small, as `http.server` gives them.
        """

    def request(self, place: Place) -> Request | None:
        """A request as it is now; none where there is none."""

    def outline(self, place: Place) -> Request | None:
        """A request as it is now, but without its votes: by one call."""

    def open_requests(self, repository: str) -> dict[int, Listed]:
        """A repository's open requests by their numbers, as far as they can be listed: anybody may open some."""

    def may_write(self, repository: str, person: str) -> bool:
        """Whether a person may write to the repository. Anybody who sees a request may vote on it."""

    def account_of(self, login: str) -> int | None:
        """The number of the account that has a login now; none where no account has it."""

    def set_status(self, repository: str, commit: str, state: str, text: str) -> bool:
        """Sets the commit's status of the gate: one of the three states, and a short text. Whether it has one now.
        `Full` where it takes no more of them."""

    def comment(self, place: Place, comment: int | None, text: str) -> int:
        """Writes a comment, in the place of an earlier one if there is one, and gives its number.

        Whoever doesn't know the number, as after a crash or a lost answer, has the same comment nevertheless. One that
        somebody else has written is never taken for it.
        """

    def close(self, place: Place, head: str) -> bool:
        """Closes a request that is open with this head, and says whether it was."""

    def time(self) -> datetime | None:
        """The forge's own time of its last answer, in whole seconds; none where it didn't say."""

    def head_ref(self, number: int) -> str:
        """The name by which the repository has a request's head."""


@dataclass(frozen=True)
class Opinion:
    """What a person said, and when."""
    at: datetime
    vote: Vote


def votes_of(opinions: Iterable[Opinion]) -> tuple[Vote, ...]:
    """The votes, the oldest first; those of one time in the order in which they are given."""
    return tuple(it.vote for it in sorted(opinions, key=lambda it: it.at))


def flawed(opinion: Opinion, flaw: str) -> Opinion:
    """The opinion, which is no approval for a flaw, unless it has another one."""
    it = opinion.vote
    return replace(opinion, vote=replace(it, flaw=it.flaw or flaw)) if it.approves else opinion


def at_target(opinions: Iterable[Opinion], changed: Iterable[datetime]) -> list[Opinion]:
    """The opinions, of which those aren't approvals that were given by the time at which the target branch was changed
    last: nobody knows that they are for the branch of now."""
    last = max(changed, default=None)
    return [flawed(it, ELSEWHERE) if last is not None and it.at <= last else it for it in opinions]


def at_head(opinions: Iterable[Opinion], pushed: Iterable[datetime]) -> list[Opinion]:
    """The opinions, of which those aren't approvals that name no commit and were given by the last push: whoever wrote
    them hadn't seen what was pushed."""
    last = max(pushed, default=None)
    return [flawed(it, PUSHED) if last is not None and it.vote.commit is None and it.at <= last else it
            for it in opinions]


def time_of(text: str) -> datetime:
    """A time as APIs write it. One that doesn't name its zone is of Greenwich."""
    at = datetime.fromisoformat(text)
    return at if at.tzinfo else at.replace(tzinfo=timezone.utc)


def shown_in_list(updated: str | None, head: str | None, now: datetime | None) -> str | None:
    """What the list shows of a request, given when it was updated, and the time of the answer: a list may come from a
    copy that lags, and tells times in whole seconds."""
    is_fresh = not updated or now is None or now - time_of(updated) < FRESH
    return None if is_fresh else f"{updated} {head}"


def hash_of(text: str) -> str:
    """A commit's hash, which a new request may lack for a while."""
    if len(text) not in (40, 64) or set(text) - set("0123456789abcdef"):
        raise ValueError(f"{text!r} is no commit's hash")
    return text


def approves(text: str | None, mark: str) -> bool:
    """Whether a comment is meant as an approval: one of its lines is it. The gate's, which has its mark, isn't."""
    lines = [line.strip() for line in (text or "").splitlines()]
    return any(map(MEANT.fullmatch, lines)) and lines[-1] != mark


def vote_of(comment: Mapping[str, Any], name: str, person: str, account: int, commit: str | None = None) -> Vote:
    """The vote of a comment that is meant as an approval, by its name. `commit` is what the request had for its head
    when it was written, where the forge says so; it may name another one."""
    found = APPROVAL.fullmatch(comment["body"].strip())
    named = found[1] and found[1].lower() if found else None
    said = None if named else time_of(comment["created_at"])
    return Vote(name, person, True, named or commit, flaw_of(comment, named if found else ""), said, account)


def flaw_of(comment: Mapping[str, Any], named: str | None) -> str | None:
    """Why a comment that is meant as an approval is none, given the commit that it names; that is empty where it isn't
    the line alone. Within other text the line may be part of an example or of a quotation, or nobody sees it. A part of
    a hash may be that of another commit too, which somebody has made so. Who may write to the repository may edit what
    another person wrote."""
    if named == "":
        return f"wrote more than the line {APPROVES}"
    if named is not None and len(named) not in (40, 64):
        return f"named a commit by {len(named)} digits, and a whole hash has 40 or 64"
    if time_of(comment["updated_at"]) > time_of(comment["created_at"]):
        return "approved by a comment that somebody has edited"
    return None


def secret_of(secret: str) -> str:
    """The secret of hooks. An empty one would let everybody's in."""
    if not secret:
        raise ValueError("the secret of the hooks is empty")
    return secret


def mark_of(secret: str, place: Place) -> str:
    """A line that nobody sees, by which a comment of the gate is known from others."""
    digits = hmac.new(secret.encode(), f"{place.repository} {place.number}".encode(), hashlib.sha256).hexdigest()
    return f"<!-- gate {digits[:32]} -->"


def marked(rows: Iterable[Any], mark: str, writer: str, account: int | None) -> Iterator[int]:
    """The numbers of the comments that end with the mark and are of an account. Others see the mark and may copy it.
    `writer` is how the API calls who wrote a comment."""
    for it in rows if account is not None else ():
        if is_by(it, writer, account) and (it.get("body") or "").rstrip().endswith(f"\n{mark}"):
            yield int(it["id"])


def is_by(comment: Any, writer: str, account: int | None) -> bool:
    """Whether a comment is of an account. `writer` is how the API calls who wrote it."""
    return (comment.get(writer) or {}).get("id") == account


class Owned:
    """The numbers of comments of which it was seen that they are this account's own, as many as the last `most`: the
    forge is asked again whose another one is."""

    def __init__(self, most: int = 10_000) -> None:
        self.most, self.numbers = most, dict[int, None]()

    def __contains__(self, number: int) -> bool:
        return number in self.numbers

    def add(self, number: int) -> None:
        self.numbers.pop(number, None)
        self.numbers[number] = None
        if len(self.numbers) > self.most:
            del self.numbers[next(iter(self.numbers))]


def login_of(account: Any, member: str) -> str:
    """The login of an account, or nothing where it was deleted. `member` is how the API calls it."""
    return str((account or {}).get(member) or "")


def check_same(wanted: str, given: str | None) -> None:
    """`PermissionError` unless what was given is what is wanted, without telling by the time how much of it is."""
    if given is None or not hmac.compare_digest(wanted.encode(), given.encode("utf-8", "replace")):
        raise PermissionError("the hook isn't signed by the secret")


class Signature:
    """A seal by the secret's HMAC over the body, with SHA-256, in hexadecimal digits."""

    def __init__(self, secret: str, given: str | None) -> None:
        self.given, self.made = given, hmac.new(secret.encode(), b"", hashlib.sha256)

    def add(self, part: bytes) -> None:
        self.made.update(part)

    def check(self) -> None:
        check_same(self.made.hexdigest(), self.given)


class Word:
    """A seal that is the secret itself, whatever the body is."""

    def __init__(self, secret: str, given: str | None) -> None:
        check_same(secret, given)

    def add(self, part: bytes) -> None:
        """The body doesn't matter."""

    def check(self) -> None:
        """It was checked at once."""


def check_seal(seal: Seal, body: bytes) -> None:
    """`PermissionError` unless a whole body is signed."""
    seal.add(body)
    seal.check()


def as_hook(body: bytes) -> dict[str, Any]:
    """A hook's content, or an empty one in the place of what is no JSON object.

    Some forges send it as a field `payload` of a form, if their settings say so.
    """
    try:
        if body.startswith(b"payload="):
            body = urllib.parse.parse_qs(body.decode())["payload"][0].encode()
        said = json.loads(body)
    except (KeyError, ValueError, RecursionError):
        return {}
    return said if isinstance(said, dict) else {}


def place_at(repository: Any, number: Any) -> Place | None:
    """The place that a hook names, if what it names can be one."""
    is_place = isinstance(repository, str) and "/" in repository and type(number) is int and number > 0
    return Place(repository, number) if is_place else None
