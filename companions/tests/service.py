"""What the tests of companions/service share: gates over files in a folder, and the scripts that run beside them."""
from __future__ import annotations

import contextlib
import os
import signal
import subprocess
import tempfile
import time
import unittest
import urllib.request
from collections.abc import Callable
from pathlib import Path

from companions.tests.day.parts import is_alive

TOP = Path(__file__).resolve().parents[2]
SERVICE = TOP / "companions" / "service"
PROGRAM = Path(os.environ.get("GATED", TOP / "crates" / "gated" / "out" / "gated")).resolve()
SETTINGS = TOP / "examples" / "settings.toml"
# Deliveries that a gate of these settings accepts, in this order: two changes, approved, and one of them landed.
LINES = [f'{{"id":"0c0000000000400080000000000000{at:02d}",{said}}}\n' for at, said in enumerate((
    '"kind":"revision","change":101,"project":"app","revision":1,"message":""',
    '"kind":"approved","change":101,"revision":1',
    '"kind":"take","worker":"w1"',
    '"kind":"result","build":1,"outcome":"success"',
    '"kind":"landed","order":1',
    '"kind":"revision","change":102,"project":"app","revision":1,"message":""',
    '"kind":"approved","change":102,"revision":1',
))]
# The files of gates that accepted some lines, by these.
MADE: dict[str, bytes] = {}


class ServiceTest(unittest.TestCase):
    """A folder of its own for each test, and an end for each process that it starts."""

    def setUp(self) -> None:
        self.assertTrue(PROGRAM.exists(), f"{PROGRAM} isn't built")
        folder = tempfile.TemporaryDirectory()
        self.addCleanup(folder.cleanup)
        self.folder = Path(folder.name)
        (self.folder / "bin").mkdir()
        self.environment = {**os.environ, "GATED": str(PROGRAM), "GATED_SETTINGS": str(SETTINGS), "HOME": folder.name,
                            "PATH": f"{self.folder / 'bin'}:{os.environ['PATH']}"}

    def gated(self, *words: str | Path, given: str = "") -> str:
        ran = subprocess.run([PROGRAM, words[0], SETTINGS, *words[1:]], input=given, capture_output=True, text=True,
                             check=False)
        self.assertEqual(ran.returncode, 0, f"{words}: {ran.stderr}")
        return ran.stdout

    def gate(self, name: str, lines: list[str]) -> Path:
        """A gate's file that has accepted these lines. A closed file may be copied, so each is made once."""
        file = self.folder / name
        if "".join(lines) not in MADE:
            self.gated("init", file)
            replies = self.gated("deliver", file, given="".join(lines)) if lines else ""
            self.assertNotIn('"error"', replies)
            MADE["".join(lines)] = file.read_bytes()
        file.write_bytes(MADE["".join(lines)])
        file.with_name(f"{name}-wal").unlink(missing_ok=True)
        return file

    def deliveries(self, file: Path) -> list[str]:
        """The ids that a file's gate has accepted."""
        return [line.split('"id":"')[1][:32] for line in self.gated("deliveries", file).splitlines()]

    def start(self, *words: str | Path) -> subprocess.Popen[str]:
        process = subprocess.Popen(words, stdin=subprocess.DEVNULL, stdout=subprocess.PIPE, stderr=subprocess.STDOUT,
                                   text=True, env=self.environment, start_new_session=True)
        self.addCleanup(end, process)
        return process

    def serve(self, file: Path) -> tuple[subprocess.Popen[str], str]:
        """A gate that runs over a file, and its address."""
        process = self.start(PROGRAM, "serve", SETTINGS, file, "--port", "0", "--count", "1000000")
        assert process.stdout is not None
        line = process.stdout.readline()
        self.assertTrue(line.startswith("listening "), line)
        return process, f"http://{line.split()[1]}"

    def run_script(self, name: str, *words: str | Path) -> subprocess.CompletedProcess[str]:
        return subprocess.run([SERVICE / name, *words], capture_output=True, text=True, env=self.environment,
                              check=False, timeout=120)

    def stand_in(self, name: str, script: str) -> None:
        """A program that the scripts find before the real one."""
        file = self.folder / "bin" / name
        file.write_text(f"#!/bin/bash\n{script}\n")
        file.chmod(0o755)


def tell(address: str, line: str) -> str:
    door = "worker" if '"take"' in line or '"result"' in line else "forge"
    with urllib.request.urlopen(f"{address}/{door}", line.strip().encode(), timeout=60) as answer:
        return str(answer.read().decode())


def ids_of(lines: list[str]) -> list[str]:
    return [line.split('"id":"')[1][:32] for line in lines]


def state_of(process: subprocess.Popen[str]) -> str:
    """The state of a process as the kernel has it: T where it is held up."""
    return Path(f"/proc/{process.pid}/stat").read_text().rpartition(")")[2].split()[0]


def wait_for(what: Callable[[], bool], seconds: float = 240.0) -> bool:
    """Whether this comes true within a time."""
    until = time.monotonic() + seconds
    while time.monotonic() < until:
        if what():
            return True
        time.sleep(0.05)
    return False


def end(process: subprocess.Popen[str]) -> None:
    """Ends a process by SIGKILL, and all that it started, as systemd does."""
    with contextlib.suppress(ProcessLookupError):
        os.killpg(process.pid, signal.SIGKILL)
    process.wait()
    # Its last program may still have a gate's file.
    wait_for(lambda: not is_alive(process.pid), 5.0)
    if process.stdout is not None:
        process.stdout.close()
