"""A test over recorded answers."""
from __future__ import annotations

import contextlib
import io
import sys
import unittest
from collections.abc import Callable

from companions.api import ForgeFault
from companions.forges import Place
from companions.github import GitHub
from companions.gitlab import GitLab
from companions.tests.recorded.replay import Answer, Replay
from companions.tests.recorded.sources import Unavailable, source

ORIGIN = "https://api.github.com"
# A request's lists, which are empty where they aren't recorded.
LISTS = ("/reviews", "/comments", "/events", "/notes", "/versions")


class RecordedCase(unittest.TestCase):
    """A test over some packages. Where one can't be had, its tests are skipped, and a line says so."""
    packages: tuple[str, ...] = ()

    @classmethod
    def setUpClass(cls) -> None:
        try:
            for it in cls.packages:
                source(it)
        except Unavailable as fault:
            # Behind the dots that unittest prints.
            print(f"\nskipped: {fault}"[:200], file=sys.stderr)
            raise unittest.SkipTest(str(fault)) from fault

    def replay(self, *answers: Answer) -> Replay:
        return self.enterContext(Replay(list(answers), ORIGIN, LISTS))

    def github(self, *answers: Answer) -> GitHub:
        """The adapter's client before these answers."""
        return GitHub(self.replay(*answers).url, "token", "secret")

    def gitlab(self, *answers: Answer) -> GitLab:
        return GitLab(f"{self.replay(*answers).url}/api/v4", "token", "secret")

    def fails(self, status: int | None, call: Callable[..., object], *words: object) -> ForgeFault:
        """Calls what has to fail by a status; what the adapter prints meanwhile isn't shown."""
        with self.assertRaises(ForgeFault) as raised, contextlib.redirect_stderr(io.StringIO()):
            call(*words)
        self.assertEqual(raised.exception.status, status, raised.exception)
        return raised.exception


def place_in(path: str) -> Place:
    """The place of a request that a path of GitHub's API names."""
    parts = path.partition("?")[0].split("/repos/")[1].split("/")
    return Place("/".join(parts[:2]), int(parts[3]))
