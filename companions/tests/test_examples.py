"""The stage of the examples: what a program writes there is read whole by another one, and no job outlives it."""
from __future__ import annotations

import json
import os
import subprocess
import tempfile
import threading
import unittest
import urllib.request
from pathlib import Path

from companions.reader import SettingsFault
from companions.settings import read

TOP = Path(__file__).resolve().parents[2]
STAGE = TOP / "examples" / "forge" / "stage.sh"
SETTINGS = TOP / "examples" / "forge" / "settings.toml"
# A program in the place of the gate, which says where it listens.
GATE = "#!/bin/sh\necho 'listening 127.0.0.1:8080'\nexec sleep 60\n"


class StageTest(unittest.TestCase):
    def setUp(self) -> None:
        temporary = tempfile.TemporaryDirectory()
        self.addCleanup(temporary.cleanup)
        self.folder = Path(temporary.name)
        self.gate = self.folder / "gated"
        self.gate.write_text(GATE, encoding="utf-8")
        self.gate.chmod(0o755)

    def start(self, script: str) -> subprocess.Popen[str]:
        """A script on the stage, whose folder it prints first."""
        around = {**os.environ, "GATED": str(self.gate), "FORGE_SETTINGS": str(SETTINGS), "TMPDIR": str(self.folder)}
        return subprocess.Popen(["bash", "-euc", f'. "{STAGE}"\necho "$FORGE"\n{script}'], env=around, text=True,
                                stdout=subprocess.PIPE, stderr=subprocess.STDOUT)

    def test_settings_that_are_read_while_they_are_written_are_whole(self) -> None:
        found: list[str] = []
        with self.start("for round in 1 2 3 4 5 6 7 8; do start_gate; stop gate; done") as stage:
            assert stage.stdout is not None
            file = Path(stage.stdout.readline().strip()) / "companions.toml"

            def look() -> None:
                while stage.poll() is None:
                    if file.exists():
                        try:
                            read(file)
                        except SettingsFault as fault:
                            found.append(str(fault))

            reader = threading.Thread(target=look)
            reader.start()
            said = stage.stdout.read()
            reader.join()
        # The folder goes at the end.
        self.assertEqual((stage.returncode, said, [it for it in found if "No such file" not in it]), (0, "", []))

    def test_no_job_goes_on_after_its_end(self) -> None:
        job = 'setsid env GATED_WORKER="$FORGE/companions/worker/w1" sleep 300 >/dev/null 2>&1 &\necho $!\n'
        with self.start(f'mkdir -p "$FORGE/companions/worker/w1"\n{job}sleep 0.5') as stage:
            assert stage.stdout is not None
            folder, process, *_ = stage.stdout.read().split()
        self.assertEqual((stage.returncode, Path(folder).exists()), (0, False))
        self.assertFalse(Path(f"/proc/{process}/environ").exists() and
                         b"GATED_WORKER" in Path(f"/proc/{process}/environ").read_bytes())


class PageTest(unittest.TestCase):
    def test_a_day_to_look_at(self) -> None:
        """The page of a day is there while it is played, and until somebody ends it."""
        program = os.environ.get("GATED", TOP / "crates" / "gated" / "out" / "gated")
        around = {**os.environ, "GATED": str(program), "SLOW": "0", "PATIENCE": "1000"}
        day = subprocess.Popen(["bash", TOP / "examples" / "gitea" / "run.sh", "--page"], env=around, text=True,
                               stdin=subprocess.PIPE, stdout=subprocess.PIPE, stderr=subprocess.STDOUT)
        # What it has started ends with it.
        self.addCleanup(day.wait)
        self.addCleanup(day.terminate)
        assert day.stdin is not None and day.stdout is not None
        self.addCleanup(day.stdout.close)
        said = [day.stdout.readline()]
        while said[-1] and not said[-1].startswith("look at "):
            said.append(day.stdout.readline())
        self.assertTrue(said[-1], said)
        address = said[-1].removeprefix("look at ").strip()
        with urllib.request.urlopen(address, timeout=60) as answer:
            self.assertIn('<script type="module" src="page.js">', answer.read().decode())
        said += [*iter(day.stdout.readline, "the day is over, and the page stays: press Return to end it\n")]
        self.assertEqual(said[-1], "ok\n", "".join(said))
        with urllib.request.urlopen(f"{address}requests.json", timeout=60) as answer:
            shown = {it["name"]: (it["title"], it["says"]) for it in json.load(answer)["requests"]}
        self.assertEqual(shown["acme/lib#1"], ("Add two", "Landed in core as 1."))
        self.assertEqual(shown["acme/app#2"], ("Use nine", "Left core: it can't be merged."))
        with urllib.request.urlopen(f"{address}logs/1/", timeout=60) as answer:
            log, = json.load(answer)
        with urllib.request.urlopen(f"{address}logs/1/{log['name']}", timeout=60) as answer:
            self.assertIn("ended: success", answer.read().decode())
        day.stdin.close()
        self.assertEqual((day.wait(60), day.stdout.read()), (0, ""))


if __name__ == "__main__":
    unittest.main()
