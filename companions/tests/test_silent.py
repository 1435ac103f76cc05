"""A client that connects to the gate's port and says nothing: on a machine with the rules of ports.nft nobody but the
proxy and root is one. In a network namespace, with a gate, nginx, and users of their own."""
from __future__ import annotations

import json
import os
import pwd
import subprocess
import sys
import tempfile
import unittest
from pathlib import Path
from typing import Any

from companions.tests.day.stage import missing, search
from companions.tests.silence import GATE, PROXY
from companions.tests.test_ports import RULES, TOP


def lacks() -> str | None:
    """Why it can't be tried on this machine; none where it can."""
    if os.geteuid() != 0:
        return "it needs root, for a network namespace and other users"
    ran = subprocess.run(["unshare", "--net", "nft", "list", "ruleset"], capture_output=True, text=True, check=False,
                         env={**os.environ, "PATH": search()})
    return None if ran.returncode == 0 else f"the kernel has no nftables: {ran.stderr.strip()}"


class SilentTest(unittest.TestCase):
    def setUp(self) -> None:
        self.assertIsNone(missing())
        cause = lacks()
        if cause is not None:
            print(f"not tried: {cause}", flush=True)
            self.skipTest(cause)
        folder = tempfile.TemporaryDirectory()
        self.addCleanup(folder.cleanup)
        self.folder = Path(folder.name)
        self.folder.chmod(0o755)

    def played(self, rules: str) -> Any:
        ran = subprocess.run(["unshare", "--net", "--pid", "--fork", "--kill-child", sys.executable, "-m",
                              "companions.tests.silence", self.folder, rules],
                             cwd=TOP, capture_output=True, text=True, timeout=300, check=False,
                             env={**os.environ, "PATH": search()})
        self.assertEqual(ran.returncode, 0, ran.stderr)
        return json.loads(ran.stdout.splitlines()[-1])

    def rules(self) -> str:
        """The rules for the users of this test."""
        text = RULES.read_text(encoding="utf-8")
        for name, number in {PROXY: pwd.getpwnam(PROXY).pw_uid, "gated": GATE, "gated-companions": 64003}.items():
            self.assertEqual(text.count(f'= "{name}"\n'), 1)
            text = text.replace(f'= "{name}"\n', f"= {number}\n")
        file = self.folder / "ports.nft"
        file.write_text(text, encoding="utf-8")
        return str(file)

    def test_with_the_rules_nobody_is_held_up(self) -> None:
        said = self.played(self.rules())
        self.assertEqual([said[it] for it in ("before", "silent", "meanwhile", "after")],
                         [True, "ConnectionRefusedError", True, True], said)

    def test_without_the_rules_all_are_held_up(self) -> None:
        """It is by design: the gate serves one connection after another, and has no clock."""
        said = self.played("-")
        self.assertEqual([said[it] for it in ("before", "silent", "meanwhile", "after")],
                         [True, "connected", False, True], said)


if __name__ == "__main__":
    unittest.main()
