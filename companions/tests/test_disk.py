"""What a gate answers over a disk that is full, or that fails: over a small file system of its own, and with a library
that makes its calls fail."""
from __future__ import annotations

import json
import os
import shutil
import signal
import subprocess
import sys
import unittest
import uuid
from pathlib import Path
from typing import Any

from companions.accepting import Accepting
from companions.gate import Gate, NoAnswer, Status
from companions.tests.service import ServiceTest, tell

FAILS = Path(__file__).resolve().parent / "disks" / "fails.c"
# Mounts a small file system over a folder where nobody else sees it, and leaves room there when it is told so.
SMALL = """
mount -t tmpfs -o size=1m none "$1" && shift && exec "$@"
"""
QUEUE = Status([], [])


def delivery(change: int) -> dict[str, Any]:
    return {"id": str(uuid.uuid4()), "kind": "revision", "change": change, "project": "lib", "revision": 1,
            "message": ""}


class DiskTest(ServiceTest):
    def setUp(self) -> None:
        super().setUp()
        self.disk = self.folder / "disk"
        self.disk.mkdir()
        self.file = self.disk / "gate.db"

    def begin(self) -> None:
        """A gate that has accepted the end of a build, and what asks it whether it accepts."""
        self.process, self.address = self.serve(self.file)
        self.client = Gate(self.address, None)
        if self.client.first() is None:
            for line in ('"kind":"revision","change":1,"project":"app","revision":1,"message":""',
                         '"kind":"approved","change":1,"revision":1', '"kind":"take","worker":"w1"',
                         '"kind":"result","build":1,"outcome":"success"'):
                tell(self.address, f'{{"id":"{uuid.uuid4()}",{line}}}')
        self.accepting = Accepting(self.client, self.client)

    def answers(self, said: dict[str, Any]) -> tuple[int | None, int | None]:
        """The statuses of a delivery and of a question behind it."""
        statuses: list[int | None] = []
        for ask in (lambda: self.client.post("forge", said), self.client.status):
            try:
                ask()
            except NoAnswer as fault:
                statuses.append(fault.status)
            else:
                statuses.append(200)
        return statuses[0], statuses[1]

    def accepts(self) -> bool | None:
        self.accepting.known_at = None
        return self.accepting.look(QUEUE, 0.0)


class FailingTest(DiskTest):
    """A disk that returns EIO."""

    def setUp(self) -> None:
        super().setUp()
        compiler = shutil.which("cc")
        if compiler is None:
            print("no C compiler is there: a disk that fails isn't tried", flush=True)
            self.skipTest("no C compiler")
        library = self.folder / "fails.so"
        subprocess.run([compiler, "-shared", "-fPIC", "-o", library, FAILS], check=True)
        self.environment |= {"LD_PRELOAD": str(library), "FAILS": str(self.file)}
        self.gated("init", self.file)
        self.begin()

    def test_writes_that_fail(self) -> None:
        """Deliveries are refused, questions are answered, and the gate goes on by itself."""
        self.assertTrue(self.accepts())
        fails = self.file.with_name("gate.db.write")
        fails.touch()
        kept = delivery(101)
        self.assertEqual([self.answers(it) for it in (kept, delivery(102))], [(503, 200), (503, 200)])
        self.assertFalse(self.accepts())
        fails.unlink()
        self.assertEqual([self.answers(it) for it in (kept, delivery(103))], [(200, 200), (200, 200)])
        self.assertTrue(self.accepts())

    def test_a_sync_that_fails(self) -> None:
        """From then on nothing is answered, until the gate is started again."""
        fails = self.file.with_name("gate.db.sync")
        fails.touch()
        kept = delivery(101)
        self.assertEqual(self.answers(kept), (503, 503))
        fails.unlink()
        self.assertEqual([self.answers(it) for it in (kept, delivery(102))], [(503, 503), (503, 503)])
        self.process.send_signal(signal.SIGTERM)
        self.process.wait()
        self.begin()
        self.assertEqual([self.answers(it) for it in (kept, delivery(102))], [(200, 200), (200, 200)])


@unittest.skipUnless(os.geteuid() == 0, "needs root, for a file system of its own")
class FullTest(DiskTest):
    """The whole test runs in a namespace of mounts, where the disk is a small one."""

    def test_a_full_disk(self) -> None:
        ran = subprocess.run(["unshare", "--mount", "sh", "-ec", SMALL, "sh", self.disk, sys.executable, "-m",
                              "companions.tests.test_disk", "full", self.disk], cwd=Path(__file__).resolve().parents[2],
                             capture_output=True, text=True, timeout=240, check=False)
        self.assertEqual(ran.returncode, 0, ran.stderr)
        self.assertEqual(json.loads(ran.stdout.splitlines()[-1]),
                         {"full": [503, 200], "accepts": False, "again": [200, 200], "accepts again": True})


class Inside(DiskTest):
    """What runs in the namespace."""

    def runTest(self) -> None:
        self.file = Path(sys.argv[2]) / "gate.db"
        self.gated("init", self.file)
        self.begin()
        filler, number = self.file.with_name("filler"), 100
        with open(filler, "wb", buffering=0) as file:
            try:
                while True:
                    file.write(bytes(4096))
            except OSError:
                pass
        # What is asked to find out whether the gate accepts takes less room than these, and may still be accepted.
        while self.answers(kept := delivery(number))[0] == 200 or self.accepts():
            number += 1
        said: dict[str, object] = {"full": self.answers(kept), "accepts": self.accepts()}
        filler.unlink()
        said |= {"again": self.answers(kept), "accepts again": self.accepts()}
        print(json.dumps(said), flush=True)


def load_tests(loader: unittest.TestLoader, _tests: unittest.TestSuite, _pattern: str | None) -> unittest.TestSuite:
    """All but what runs inside alone."""
    return unittest.TestSuite(loader.loadTestsFromTestCase(it) for it in (FailingTest, FullTest))


if __name__ == "__main__":
    if sys.argv[1:2] == ["full"]:
        result = unittest.TextTestRunner().run(Inside())
        sys.exit(not result.wasSuccessful())
    unittest.main()
