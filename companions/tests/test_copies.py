"""Copies of the adapter's tables, what a standby fetches of them, and what is asked before a gate starts."""
from __future__ import annotations

import contextlib
import hashlib
import io
import json
import subprocess
import tarfile
import tempfile
import threading
import time
import unittest
from http.server import BaseHTTPRequestHandler, ThreadingHTTPServer
from pathlib import Path
from typing import Any

from companions import fence
from companions.copies import Copies
from companions.outbox import Notes
from companions.tests.service import LINES, SERVICE, SETTINGS, ServiceTest, ids_of, wait_for


def written(tar: Path) -> dict[str, Any]:
    """The notes in a copy of people.db."""
    with tempfile.TemporaryDirectory() as folder, tarfile.open(tar) as it:
        # This mypy doesn't know the word yet.
        it.extractall(folder, filter="data")  # type: ignore[call-arg]
        notes = Notes(Path(folder) / "people.db")
        try:
            return notes.all("")
        finally:
            notes.tables.close()


class CopiesTest(unittest.TestCase):
    def setUp(self) -> None:
        room = tempfile.TemporaryDirectory()
        self.addCleanup(room.cleanup)
        self.source, self.target = Path(room.name) / "adapter", Path(room.name) / "copies"
        self.target.mkdir()
        self.copies = Copies(self.source, self.target)
        self.addCleanup(self.copies.close)
        self.tar, self.stamp = self.target / "adapter.tar", self.target / "adapter.stamp"

    def begin(self) -> Notes:
        notes = Notes(self.source / "people.db")
        self.addCleanup(notes.tables.close)
        return notes

    def test_a_copy_has_what_the_log_alone_has(self) -> None:
        notes = self.begin()
        notes.put("one", 1)
        self.copies.look(1000.0)
        self.assertEqual(written(self.tar), {"one": 1})
        notes.put("two", 2)
        self.copies.look(1001.0)
        self.assertEqual(written(self.tar), {"one": 1, "two": 2})

    def test_the_stamp_says_up_to_when(self) -> None:
        notes = self.begin()
        for now, told in ((1000.0, "one"), (1001.0, None), (1002.0, "two")):
            if told is not None:
                notes.put(told, 1)
            self.copies.look(now)
            self.assertEqual(self.stamp.stat().st_mtime, now)
            self.assertEqual(self.stamp.read_text(), f"{hashlib.sha256(self.tar.read_bytes()).hexdigest()}\n")

    def test_what_stays_is_copied_once(self) -> None:
        self.begin().put("one", 1)
        self.copies.look(1000.0)
        inode = self.tar.stat().st_ino
        self.copies.look(1001.0)
        self.assertEqual(self.tar.stat().st_ino, inode)

    def test_tables_that_come_later(self) -> None:
        self.copies.look(1000.0)
        with tarfile.open(self.tar) as tar:
            self.assertEqual(tar.getnames(), [])
        self.begin().put("one", 1)
        self.copies.look(1001.0)
        self.assertEqual(written(self.tar), {"one": 1})

    def test_no_copy_where_there_is_no_folder(self) -> None:
        self.begin().put("one", 1)
        self.target.rmdir()
        with self.assertRaises(OSError):
            self.copies.look(1000.0)


class Proxy(BaseHTTPRequestHandler):
    """A proxy with a gate that has LINES, and with copies."""
    server: ProxyServer

    def do_GET(self) -> None:
        name, later = self.path.strip("/").partition("/")[::2]
        content, modified = b"", 0.0
        if name == "deliveries":
            lines = LINES[ids_of(LINES).index(later) + 1:] if later else LINES
            content = "".join([*lines, f"end {len(lines)}\n"]).encode()
            self.server.asked_at = self.server.asked_at or time.time()
        elif name in self.server.files:
            content, modified = self.server.files[name]
        self.send_response(200 if content else 404)
        if modified:
            self.send_header("Last-Modified", self.date_time_string(int(modified)))
        self.end_headers()
        self.wfile.write(content or json.dumps({"error": "nothing"}).encode())

    def log_message(self, *_: Any) -> None:
        pass


class ProxyServer(ThreadingHTTPServer):
    files: dict[str, tuple[bytes, float]] = {}
    asked_at = 0.0

    def give(self, tar: bytes, at: float, stamp: bytes | None = None) -> None:
        digest = hashlib.sha256(tar).hexdigest().encode()
        self.files = {"adapter.tar": (tar, at), "adapter.stamp": (stamp or digest + b"\n", at)}


class FollowTest(ServiceTest):
    """The standby is told of deliveries once the tables are there that have them."""

    def setUp(self) -> None:
        super().setUp()
        self.environment["PAUSE"] = "0.2"
        self.standby, self.log, self.tables = self.gate("standby.db", []), self.folder / "log", self.folder / "tables"
        self.server = ProxyServer(("127.0.0.1", 0), Proxy)
        threading.Thread(target=self.server.serve_forever, daemon=True).start()
        self.addCleanup(self.server.server_close)
        self.addCleanup(self.server.shutdown)

    def follow(self) -> subprocess.Popen[str]:
        return self.start(SERVICE / "follow", f"http://127.0.0.1:{self.server.server_port}", SETTINGS, self.standby,
                          self.log, self.tables)

    def told(self) -> int:
        return len(self.log.read_text().splitlines()) if self.log.exists() else 0

    def test_nothing_is_told_before_the_tables_are_there(self) -> None:
        self.server.give(b"old", time.time() - 60)
        self.follow()
        self.assertTrue(wait_for(lambda: self.server.asked_at > 0, 30))
        time.sleep(2)
        self.assertEqual(self.told(), 0)
        # A stamp of which there is no copy yet doesn't count.
        self.server.give(b"half", time.time() + 60, b"0" * 64 + b"\n")
        time.sleep(2)
        self.assertEqual((self.told(), self.tables.exists()), (0, False))
        self.server.give(b"new", time.time() + 60)
        self.assertTrue(wait_for(lambda: self.told() == len(LINES), 60))
        self.assertEqual(self.tables.read_bytes(), b"new")

    def test_a_machine_without_copies_is_followed(self) -> None:
        process = self.follow()
        self.assertTrue(wait_for(lambda: self.told() == len(LINES), 60))
        self.assertIsNone(process.poll())
        self.assertFalse(self.tables.exists())


class FenceTest(ServiceTest):
    """Who asks before a gate starts, and what follows."""

    def setUp(self) -> None:
        super().setUp()
        self.mark = self.folder / "companions" / "replaced"
        self.mark.parent.mkdir()

    def settings(self, address: str) -> Path:
        file = self.folder / "companions.toml"
        file.write_text(f'folder = "{self.mark.parent}"\n[gate]\nurl = "{address}"\n[[project]]\nname = "lib"\n'
                        'queue = "core"\nrepository = "/nowhere"\n')
        return file

    def ask(self, *words: str | Path) -> tuple[int, str]:
        with contextlib.redirect_stderr(io.StringIO()) as said:
            return fence.main([str(it) for it in words]), said.getvalue()

    def test_a_gate_elsewhere_keeps_this_one_from_starting(self) -> None:
        process, address = self.serve(self.gate("gate.db", LINES[:2]))
        settings = self.settings(address)
        self.assertEqual((self.ask(settings, "ask")[0], self.mark.exists()), (1, False))
        status, said = self.ask(settings)
        self.assertEqual((status, self.mark.exists()), (1, True))
        self.assertIn(f"another machine's gate answers at {address}", said)
        process.kill()
        process.wait()
        # It was replaced: silence doesn't make it the gate again.
        self.assertEqual(self.ask(settings)[0], 1)
        self.mark.unlink()
        self.assertEqual(self.ask(settings), (0, ""))

    def test_nobody_who_answers(self) -> None:
        self.assertEqual(self.ask(self.settings("http://127.0.0.1:1")), (0, ""))

    def test_settings_that_cannot_be_read_are_no_cause(self) -> None:
        self.assertEqual(self.ask(self.folder / "nothing")[0], 0)
        (self.folder / "wrong").write_text("wrong")
        self.assertEqual(self.ask(self.folder / "wrong")[0], 0)
        self.assertEqual(self.ask()[0], 2)


if __name__ == "__main__":
    unittest.main()
