"""Who may approve a request: the accounts that the settings name, or whoever may write to its repository."""
from __future__ import annotations

import time
from dataclasses import dataclass

from companions.api import ForgeFault
from companions.forges import Forge
from companions.gate import say
from companions.outbox import Notes
from companions.requests import Request
from companions.settings import Adapter

# Behind so many answers, those that hold no more are forgotten: anybody may vote.
MANY = 1000
# The note that has the numbers of the approvers' accounts, by their logins in small letters.
ACCOUNTS = "accounts"


@dataclass(frozen=True)
class Rights:
    """Who may approve a request, and of whom the forge didn't tell, with its fault."""
    may: frozenset[str]
    unknown: frozenset[str] = frozenset()
    fault: ForgeFault | None = None


class Approvers:
    """Knows who may approve.

    A login can be given up, and then somebody else may take it. So the number of the account that has it is asked for
    once, when the settings name it first, and is kept: no other account has its right. Letters' case doesn't matter.
    """

    def __init__(self, adapter: Adapter, forge: Forge, notes: Notes) -> None:
        self.adapter, self.forge, self.notes = adapter, forge, notes
        named, kept = adapter.approvers or (), notes.get(ACCOUNTS) or {}
        self.names = {it.casefold(): it for it in named}
        self.accounts: dict[str, int] = {name: kept[name] for name in self.names if name in kept}
        if self.accounts != kept:
            notes.put(ACCOUNTS, self.accounts)
        self.without = set[str]()
        self.others: dict[str, int] = {}
        # Which account may write to which repository by its login, and until when that holds.
        self.writers: dict[tuple[str, str, int | None], tuple[bool, float]] = {}

    @property
    def is_known(self) -> bool:
        """Whether the forge has told of each login."""
        return all(it in self.accounts or it in self.without for it in self.names)

    def look_up(self) -> None:
        """Asks for the accounts of logins that aren't known yet, and keeps their numbers."""
        for name, login in self.names.items():
            if name in self.accounts or name in self.without:
                continue
            account = self.forge.account_of(login)
            if account is None:
                self.without.add(name)
                say("adapter", f"approvers: the forge has no account {login}: nobody approves by this name")
                continue
            self.accounts[name] = account
            self.notes.put(ACCOUNTS, self.accounts)

    def of(self, so: Request) -> Rights:
        """The persons whose votes on a request count."""
        return self.named(so) if self.adapter.approvers is not None else self.writing(so)

    def named(self, so: Request) -> Rights:
        """Those whom the settings name, by their accounts."""
        may, unknown, fault = set[str](), set[str](), None
        if any(it.person.casefold() in self.names for it in so.votes):
            try:
                self.look_up()
            except ForgeFault as said:
                fault = said
        for it in so.votes:
            name = it.person.casefold()
            account = self.accounts.get(name)
            if account is None:
                unknown |= {it.person} if fault is not None and name in self.names else set()
            elif account == it.account:
                may.add(it.person)
            elif self.others.get(name) != it.account:
                self.others[name] = it.account or 0
                say("adapter", f"approvers: {it.person} is account {it.account} now, and {account} before: its votes"
                               " don't count. If it is the same person, take the name out of approvers, restart, and"
                               " name it again")
        return Rights(frozenset(may), frozenset(unknown), fault if unknown else None)

    def writing(self, so: Request) -> Rights:
        """Those who may write to the repository. The forge is asked about a person as often as all requests are
        compared. What it doesn't answer holds up no more than the approvals that wait for it."""
        now, may, unknown, fault = time.monotonic(), set[str](), set[str](), None
        if len(self.writers) > MANY:
            self.writers = {it: known for it, known in self.writers.items() if known[1] > now}
        voting = {it.person: it.account for it in so.votes if it.approves is not None and it.flaw is None}
        for person, account in sorted(voting.items()):
            known = self.writers.get((so.repository, person, account))
            if known is None or known[1] <= now:
                try:
                    known = self.forge.may_write(so.repository, person), now + self.adapter.compare
                except ForgeFault as said:
                    unknown.add(person)
                    fault = said
                    continue
                self.writers[so.repository, person, account] = known
            if known[0]:
                may.add(person)
        return Rights(frozenset(may), frozenset(unknown), fault)
