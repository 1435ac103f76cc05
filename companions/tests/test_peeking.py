"""What an adapter fetches of a request before somebody approves it who may: nothing but its commit."""
from __future__ import annotations

import os
import socket
import time
import tracemalloc
import unittest
from pathlib import Path
from unittest import mock

from companions.forges import Place
from companions.repository import Repository
from companions.requests import Vote
from companions.tests.adapter_case import Case as AdapterCase

LARGE = 8 << 20


class Peeking(AdapterCase):
    def setUp(self) -> None:
        super().setUp()
        # As forges' servers do.
        self.origin.git("config", "uploadpack.allowFilter", "true")

    def large(self, message: str = "Add it") -> str:
        """A commit with a file of many bytes that can't be made less, on top of another such one."""
        head = self.base
        for number in range(2):
            (self.folder / "file").write_bytes(os.urandom(LARGE))
            blob = self.origin.git("hash-object", "-w", str(self.folder / "file"))
            tree = self.origin.git("mktree", given=f"100644 blob {blob}\tfile\n")
            head = self.origin.git("commit-tree", tree, "-p", head, "-F", "-", given=message)
        return head

    def size(self) -> int:
        """The bytes of all that the adapter has of repositories."""
        folder = self.settings.folder / "adapter"
        return sum(it.stat().st_size for it in folder.rglob("*")
                   if it.is_file() and not it.name.startswith("adapter.db"))

    def traced(self, head: str) -> tuple[int, int]:
        """The most bytes that git had there at a time, and then those that are left."""
        most = [0]
        content = self.adapter.looks.repositories["lib"].__class__.content

        def measured(repository: Repository, it: str, kind: str = "commit") -> bytes:
            most[0] = max(most[0], sum(one.stat().st_size for one in repository.mirror.rglob("*") if one.is_file()))
            return content(repository, it, kind)

        with mock.patch("companions.repository.Repository.content", measured):
            self.be(12, head)
            self.look()
        return most[0], self.size()

    def test_files_are_fetched_once_it_is_approved(self) -> None:
        head = self.large()
        before = self.size()
        most, left = self.traced(head)
        self.assertEqual([it["kind"] for it in self.standin.deliveries()], ["revision"])
        self.assertLess(most, LARGE // 8)
        self.assertLess(left - before, LARGE // 8)
        self.be(12, head, Vote("review 1", "ada", True, head))
        self.assertEqual(self.look(Place("acme/lib", 12)), ["approved 1 1"])
        self.assertGreater(self.size(), 2 * LARGE)

    def test_of_a_server_that_sends_no_commit_alone_nothing_stays(self) -> None:
        self.origin.git("config", "uploadpack.allowFilter", "false")
        head = self.large()
        most, left = self.traced(head)
        # Its files are fetched, and not those of the commits before it.
        self.assertTrue(LARGE < most < 2 * LARGE, most)
        self.assertLess(left, LARGE // 8)

    def test_what_one_that_was_killed_has_left_is_removed(self) -> None:
        left = self.settings.folder / "adapter" / "peek-x" / "mirror"
        left.mkdir(parents=True)
        self.start()
        self.assertFalse(left.parent.exists())

    def test_a_long_message_is_not_read_to_its_end(self) -> None:
        self.look(self.be(13, 0))
        head = self.origin.git("commit-tree", f"{self.base}^{{tree}}", "-p", self.base, "-F", "-",
                               given="x" * (64 << 20))
        self.be(12, head)
        self.adapter.file.ask()
        tracemalloc.start()
        self.addCleanup(tracemalloc.stop)
        self.adapter.looks.look(Place("acme/lib", 12))
        self.assertLess(tracemalloc.get_traced_memory()[1], 16 << 20)
        self.assertEqual(self.look(), ["revision 2 1"])

    def test_a_server_that_never_ends_is_left_soon(self) -> None:
        """It is that request's trouble alone."""
        self.look(self.be(13, 0))
        self.look()
        place = self.be(12, 1)
        server = self.enterContext(socket.create_server(("127.0.0.1", 0)))
        repository = self.adapter.looks.repositories["lib"]
        address, repository.address = repository.address, f"git://127.0.0.1:{server.getsockname()[1]}/lib.git"
        self.enterContext(mock.patch("companions.peeking.Peek.patience", 0.5))
        began = time.monotonic()
        self.assertEqual(self.look(place), [])
        self.assertLess(time.monotonic() - began, 60)
        self.assertRegex(self.lines()[-1],
                         "^adapter: acme/lib 12: GitFault: git .* fetch .*: no end within 0.5 seconds$")
        self.assertEqual([it for it in Path(repository.mirror.parent).iterdir() if it.name.startswith("peek-")], [])
        repository.address = address
        self.assertEqual(self.look(place), ["revision 2 1"])


del AdapterCase

if __name__ == "__main__":
    unittest.main()
