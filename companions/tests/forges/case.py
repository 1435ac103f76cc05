"""A test before a stand-in forge."""
from __future__ import annotations

import unittest
from collections.abc import Callable

from companions.api import ForgeFault
from companions.requests import Request
from companions.tests.forges import StandInForge

ONE, TWO, THREE = ("1" * 40, "2" * 40, "3" * 40)
LIB = "acme/lib"


class Case(unittest.TestCase):
    """A forge with one repository and one request."""
    kind = "github"

    def setUp(self) -> None:
        self.forge = self.enterContext(StandInForge(self.kind))
        self.model, self.client = self.forge.model, self.forge.client()
        self.model.add(LIB, "ann", "ben")
        self.place = self.model.open(LIB, ONE, "main", "Add one")

    def votes(self) -> list[tuple[str, bool, str | None]]:
        """The votes that say something still: what dismisses one takes its person's earlier ones away."""
        held: list[tuple[str, bool, str | None]] = []
        for it in self.asked().votes:
            if it.flaw is not None:
                continue
            if it.approves is None:
                held = [vote for vote in held if vote[0] != it.person]
            else:
                held.append((it.person, it.approves, it.commit))
        return held

    def flaws(self) -> list[tuple[str, str]]:
        """Who wrote what is meant as a vote and is none, and why it is none."""
        return [(it.person, it.flaw) for it in self.asked().votes if it.flaw is not None]

    def of_comment(self, head: str) -> str | None:
        """The commit that a comment at a head is of, where the form says it."""
        return head if self.kind == "gitlab" else None

    def asked(self) -> Request:
        request = self.client.request(self.place)
        assert request is not None
        return request

    def fails(self, status: int | None, call: Callable[..., object], *words: object) -> ForgeFault:
        with self.assertRaises(ForgeFault) as raised:
            call(*words)
        self.assertEqual(raised.exception.status, status, raised.exception)
        return raised.exception
