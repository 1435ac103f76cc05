"""What is so in a stand-in forge: repositories, requests, what people and the gate said of them, and statuses."""
from __future__ import annotations

import copy
import itertools
import threading
from collections import defaultdict
from collections.abc import Callable
from dataclasses import dataclass, field, replace
from datetime import datetime, timedelta, timezone
from typing import Any

from companions.forges import Place
from companions.tests.forges.ran import CheckRun, CiRun

BEGIN = datetime(2024, 5, 1, 10, 0, 0, 250000, tzinfo=timezone.utc)
# Whose token the adapter has. It may write to each repository.
GATE = "gate-bot"
# The most statuses that a commit may have.
MOST_STATUSES = 1000


@dataclass
class Entry:
    """Something said of a request, or done to it: approved, rejected, dismissed, commented or pushed, a review that
    only its person sees yet (`begun`), or one that somebody is asked for (`asked`).

    Reviews and comments are numbered each by itself, as Gitea does, so that they have numbers in common; `note` numbers
    all of them, as GitLab does. `at` is when a review was given, and `begun` when its person began to write it.
    """
    kind: str
    id: int
    note: int
    person: str
    text: str
    commit: str
    at: datetime
    is_dismissed: bool = False
    edited: datetime | None = None
    begun: datetime | None = None


@dataclass
class Pull:
    """A request. `id` is its number in the whole forge. All its heads are entries of the kind `pushed`. `changed` is
    when something happened to it last. `is_prepared`: the forge has looked at its head, and tells it."""
    place: Place
    id: int
    author: str
    head: str
    target: str
    title: str
    text: str
    is_fork: bool
    at: datetime
    state: str = "open"
    is_draft: bool = False
    merged_by: str | None = None
    entries: list[Entry] = field(default_factory=list)
    changed: datetime = BEGIN
    is_prepared: bool = True

    def of(self, *kinds: str) -> list[Entry]:
        return [it for it in self.entries if it.kind in kinds]

    def approving(self) -> list[str]:
        """Who approves it and hasn't taken that back."""
        last = {it.person: it for it in self.of("approved")}
        return sorted(person for person, it in last.items() if not it.is_dismissed)


@dataclass(frozen=True)
class Status:
    """A status that a commit was given."""
    repository: str
    commit: str
    state: str
    text: str
    by: str = field(default=GATE, compare=False)
    at: datetime = field(default=BEGIN, compare=False)
    context: str = "gate"
    link: str | None = field(default=None, compare=False)
    number: int = field(default=0, compare=False)


@dataclass(frozen=True)
class Webhook:
    """Where the hooks of a repository are to be sent, and the secret by which they are signed."""
    id: int
    repository: str
    url: str
    secret: str


# What happened, to which request, and the entry that says it, if there is one.
Listener = Callable[[str, Pull, Entry | None], None]


class Model:
    """A forge's state. Whoever does something tells the listeners; each thing happens `pace` after the one before."""

    def __init__(self) -> None:
        self.lock = threading.RLock()
        self.pulls: dict[Place, Pull] = {}
        self.writers: dict[str, set[str]] = {}
        self.statuses: list[Status] = []
        # What a CI has run, by itself or as an App, and the commits that were pushed as branches, each with its
        # repository.
        self.ran: list[CiRun] = []
        self.checks: list[CheckRun] = []
        self.pushed: set[tuple[str, str]] = set()
        # Deletes a branch of a repository, and says whether it was there.
        self.when_deleted: Callable[[str, str], bool] = lambda repository, branch: False
        self.listeners: list[Listener] = []
        self.now, self.pace = BEGIN, timedelta(seconds=1)
        # Whether approvals stay at a new head, as a forge's settings may say.
        self.keeps_approvals = True
        self.accounts: dict[str, int] = {}
        self.counts: dict[str, itertools.count[int]] = defaultdict(lambda: itertools.count(1))
        # The numbers of repositories, the names that some had, with those that they have, and where hooks are sent.
        self.repositories: dict[str, int] = {}
        self.former: dict[str, str] = {}
        self.webhooks: list[Webhook] = []

    def copy(self) -> Model:
        """What is so now, for whoever looks at it later. Nothing can be done to it."""
        it = copy.copy(self)
        with self.lock:
            for name in ("pulls", "writers", "statuses", "ran", "checks", "pushed", "accounts", "repositories",
                         "former", "webhooks"):
                setattr(it, name, copy.deepcopy(getattr(self, name)))
        return it

    def account(self, person: str) -> int:
        """The number of a person's account."""
        with self.lock:
            return self.accounts.setdefault(person, 100 + len(self.accounts))

    def give_up(self, person: str) -> None:
        """A person's account is deleted or has another name now, and a new one has taken the name."""
        with self.lock:
            self.accounts[person] = 1000 + len(self.accounts)

    def delete_account(self, person: str) -> None:
        """A person is gone, and the forge names nobody any more where the person wrote something."""
        with self.lock:
            for it in (entry for pull in self.pulls.values() for entry in pull.entries if entry.person == person):
                it.person = ""

    def add(self, repository: str, *writers: str) -> None:
        """A repository, and who may write to it."""
        self.writers[repository] = set(writers)
        self.repositories.setdefault(repository, 3000 + len(self.repositories))

    def rename(self, repository: str, name: str) -> None:
        """A repository gets another name, and keeps its number."""
        with self.lock:
            tables: list[dict[str, Any]] = [self.writers, self.repositories, self.counts]
            for held in tables:
                if repository in held:
                    held[name] = held.pop(repository)
            self.former[repository] = name
            for place in [it for it in self.pulls if it.repository == repository]:
                pull = self.pulls.pop(place)
                pull.place = Place(name, place.number)
                self.pulls[pull.place] = pull
            self.statuses = [replace(it, repository=name) if it.repository == repository else it
                             for it in self.statuses]

    def name_of(self, repository: str) -> str:
        """The name that a repository has now, by one that it had, or by its number."""
        named = [name for name, number in self.repositories.items() if str(number) == repository]
        return self.former.get(repository, named[0] if named else repository)

    def may_write(self, repository: str, person: str) -> bool:
        return person == GATE or person in self.writers.get(repository, ())

    def open(self, repository: str, head: str, target: str, title: str, text: str = "", author: str = "ann",
             is_fork: bool = False) -> Place:
        with self.lock:
            place = Place(repository, next(self.counts[repository]))
            number = 1000 + next(self.counts["pull"])
            at = self.tick()
            pull = Pull(place, number, author, head, target, title, text, is_fork, at, changed=at)
            self.pulls[place] = pull
            self.enter("pushed", place, author)
            self.tell("opened", place)
            return place

    def push(self, place: Place, head: str) -> None:
        with self.lock:
            pull = self.pulls[place]
            pull.head = head
            for it in pull.of("approved"):
                it.is_dismissed = it.is_dismissed or not self.keeps_approvals
            self.tell("pushed", place, self.enter("pushed", place, pull.author))

    def edit(self, place: Place, title: str | None = None, text: str | None = None) -> None:
        with self.lock:
            pull = self.pulls[place]
            pull.title = pull.title if title is None else title
            pull.text = pull.text if text is None else text
            self.tell("edited", place)

    def draft(self, place: Place, is_draft: bool) -> None:
        """It becomes a draft, or is one no more."""
        with self.lock:
            self.pulls[place].is_draft = is_draft
            self.tell("drafted" if is_draft else "readied", place)

    def retarget(self, place: Place, branch: str) -> None:
        with self.lock:
            pull = self.pulls[place]
            self.enter("retargeted", place, pull.author, f"changed target branch from `{pull.target}` to `{branch}`")
            pull.target = branch
            self.tell("edited", place)

    def approve(self, place: Place, person: str) -> Entry:
        return self.say("approved", place, person)

    def reject(self, place: Place, person: str) -> Entry:
        """Requests changes. GitLab's form shows nothing of it."""
        return self.say("rejected", place, person)

    def review(self, place: Place, person: str, text: str) -> Entry:
        """Says something by a review that neither approves nor requests changes."""
        return self.say("reviewed", place, person, text)

    def begin_review(self, place: Place, person: str) -> Entry:
        """Somebody writes a review, which only he sees so far."""
        with self.lock:
            return self.enter("begun", place, person)

    def ask_review(self, place: Place, person: str) -> Entry:
        """Somebody is asked for a review."""
        with self.lock:
            return self.enter("asked", place, person)

    def prepare(self, place: Place, is_prepared: bool = True) -> None:
        """The forge has looked at a request's head, or hasn't yet."""
        with self.lock:
            self.pulls[place].is_prepared = is_prepared

    def dismiss(self, place: Place, person: str) -> None:
        """What a person said last by a review doesn't hold any more; at GitLab the person takes the approval back."""
        with self.lock:
            said = [it for it in self.pulls[place].of("approved", "rejected") if it.person == person][-1]
            said.is_dismissed = True
            if said.kind == "approved":
                self.enter("dismissed", place, person)
            self.tell("dismissed", place, said)

    def comment(self, place: Place, person: str, text: str) -> Entry:
        return self.say("commented", place, person, text)

    def lose(self, place: Place, commit: str) -> None:
        """A commit is gone from the forge, as some time after it was pushed over: what was said of it names none."""
        with self.lock:
            for it in self.pulls[place].of("approved", "rejected"):
                it.commit = "" if it.commit == commit else it.commit

    def edit_comment(self, place: Place, comment: Entry, text: str) -> None:
        """Its writer edits a comment, or somebody else who may write to the repository, and nobody sees who it was."""
        with self.lock:
            comment.text, comment.edited = text, self.tick()
            self.tell("comment edited", place, comment)

    def delete_comment(self, place: Place, comment: Entry) -> None:
        with self.lock:
            self.pulls[place].entries.remove(comment)
            self.tell("comment deleted", place, comment)

    def close(self, place: Place) -> None:
        self.turn(place, "closed")

    def reopen(self, place: Place) -> None:
        self.turn(place, "open", "reopened")

    def merge(self, place: Place, by: str) -> None:
        """Somebody has merged it, as the lander or a person past the gate, and nothing can happen to it any more."""
        with self.lock:
            self.pulls[place].merged_by = by
            self.turn(place, "merged")

    def see_branch(self, repository: str, branch: str, contains: Callable[[str], bool], by: str) -> list[Place]:
        """A branch was pushed to: open requests to it are shown as merged if it contains their heads by now."""
        found = [it.place for it in self.of(repository)
                 if it.state == "open" and it.target == branch and contains(it.head)]
        for place in found:
            self.merge(place, by)
        return found

    def set_status(self, status: Status) -> None:
        with self.lock:
            self.statuses.append(replace(status, at=self.tick(), number=next(self.counts["status"])))

    def check(self, repository: str, commit: str, app: int, name: str, word: str, link: str | None = None,
              slug: str = "some-ci", text: str = "") -> CheckRun:
        """An App makes a check run."""
        with self.lock:
            number = next(self.counts["check"])
            self.checks.append(CheckRun(number, repository, commit, app, name, word, link, slug, text))
            return self.checks[-1]

    def statuses_of(self, repository: str, commit: str) -> list[Status]:
        """The statuses of a commit, the last one first."""
        return [it for it in reversed(self.statuses) if (it.repository, it.commit) == (repository, commit)]

    def is_full(self, repository: str, commit: str) -> bool:
        """Whether a commit has so many statuses of the gate that it gets no more of them."""
        return sum(it.context == "gate" for it in self.statuses_of(repository, commit)) >= MOST_STATUSES

    def hook(self, repository: str, url: str, secret: str) -> Webhook:
        """Hooks of a repository are to be sent to an address."""
        with self.lock:
            self.webhooks.append(Webhook(next(self.counts["webhook"]), repository, url, secret))
            return self.webhooks[-1]

    def unhook(self, repository: str, number: int) -> bool:
        """None are sent there any more. Whether there was such a webhook."""
        with self.lock:
            kept = [it for it in self.webhooks if (it.repository, it.id) != (repository, number)]
            is_there, self.webhooks = len(kept) < len(self.webhooks), kept
            return is_there

    def status(self, repository: str, commit: str) -> Status | None:
        """The last status of a commit."""
        with self.lock:
            found = [it for it in self.statuses
                     if (it.repository, it.commit, it.context) == (repository, commit, "gate")]
            return found[-1] if found else None

    def has(self, repository: str, commit: str) -> bool:
        """Whether a commit is or was the head of one of the repository's requests, or of a branch."""
        return (repository, commit) in self.pushed or any(
            it.commit == commit for pull in self.of(repository) for it in pull.of("pushed"))

    def of(self, repository: str) -> list[Pull]:
        with self.lock:
            return [it for place, it in self.pulls.items() if place.repository == repository]

    def find_comment(self, repository: str, number: int, by_note: bool = False) -> tuple[Place, Entry] | None:
        """A comment of a repository, by its number or by that of its note."""
        found = [(pull.place, it) for pull in self.of(repository) for it in pull.of("commented")
                 if (it.note if by_note else it.id) == number]
        return found[0] if found else None

    def comments(self, place: Place, person: str) -> list[Entry]:
        return [it for it in self.pulls[place].of("commented") if it.person == person]

    def say(self, kind: str, place: Place, person: str, text: str = "") -> Entry:
        with self.lock:
            entry = self.enter(kind, place, person, text)
            self.tell(kind, place, entry)
            return entry

    def turn(self, place: Place, state: str, what: str | None = None) -> None:
        with self.lock:
            self.pulls[place].state = state
            self.tell(what or state, place)

    def enter(self, kind: str, place: Place, person: str, text: str = "") -> Entry:
        pull = self.pulls[place]
        sort = "review" if kind in ("approved", "rejected", "reviewed", "begun", "asked") else kind
        entry = Entry(kind, next(self.counts[sort]), next(self.counts["note"]), person, text, pull.head, self.tick())
        pull.entries.append(entry)
        pull.changed = entry.at
        return entry

    def tick(self) -> datetime:
        self.now += self.pace
        return self.now

    def wait(self, seconds: float) -> None:
        """So much time goes by at the forge."""
        with self.lock:
            self.now += timedelta(seconds=seconds)

    def tell(self, what: str, place: Place, entry: Entry | None = None) -> None:
        self.pulls[place].changed = self.now
        for listener in self.listeners:
            listener(what, self.pulls[place], entry)
