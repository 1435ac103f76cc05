"""Workers and their sandboxes don't need root: a scene of a day is played by a user who is nobody."""
from __future__ import annotations

import os
import shutil
import subprocess
import sys
import tempfile
import unittest
from pathlib import Path

from companions.tests.service import PROGRAM, TOP

NOBODY = 65534
SCENE = "worker-hastes"
REFUSED = "jobs run without sandboxes: "


def interpreter() -> str:
    """A Python that others may run too: this one may lie in somebody's home."""
    ran = subprocess.run([sys.executable, "-c", ""], capture_output=True, check=False, user=NOBODY, group=NOBODY,
                         extra_groups=[], cwd="/") if Path(sys.executable).parts[1] != "root" else None
    return sys.executable if ran is not None and ran.returncode == 0 else "/usr/bin/python3"


@unittest.skipUnless(os.geteuid() == 0, "needs root, to be another user")
class WithoutRoot(unittest.TestCase):
    def test_a_scene_by_nobody(self) -> None:
        with tempfile.TemporaryDirectory() as name:
            folder = Path(name)
            for it in ("companions", "examples"):
                shutil.copytree(TOP / it, folder / it, ignore=shutil.ignore_patterns("__pycache__"))
            shutil.copy(PROGRAM, folder / "gated")
            home = folder / "home"
            home.mkdir(mode=0o700)
            os.chown(home, NOBODY, NOBODY)
            folder.chmod(0o755)
            around = {"PATH": "/usr/local/bin:/usr/bin:/bin", "HOME": str(home), "TMPDIR": str(home),
                      "GATED": str(folder / "gated"), "PYTHONDONTWRITEBYTECODE": "1"}
            ran = subprocess.run([interpreter(), "-m", "companions.tests.day", "--scene", SCENE], cwd=folder,
                                 env=around, user=NOBODY, group=NOBODY, extra_groups=[], capture_output=True, text=True,
                                 timeout=500, check=False)
        self.assertEqual((ran.returncode, ran.stdout), (0, f"ok {SCENE}\n"), ran.stderr)
        refused = [it for it in ran.stderr.splitlines() if it.startswith(REFUSED)]
        if refused:
            print(refused[0], file=sys.__stderr__)
            self.skipTest("the kernel lets only root make namespaces")


if __name__ == "__main__":
    unittest.main()
