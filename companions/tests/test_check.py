"""What `companions.check` says of a machine: of an empty one, of one that has all, and of each thing that lacks."""
from __future__ import annotations

import base64
import hashlib
import subprocess
import tempfile
import unittest
import unittest.mock
from pathlib import Path

from companions import check
from companions.check import Machine
from companions.tests.service import PROGRAM, SERVICE, SETTINGS

STARTED = ("multi-user.target.wants/gated.service", "multi-user.target.wants/gated-lander.service",
           "multi-user.target.wants/gated-watch.service", "timers.target.wants/gated-backup.timer")


def hashed(password: str) -> str:
    return "{SHA}" + base64.b64encode(hashlib.sha1(password.encode()).digest()).decode()


class CheckTest(unittest.TestCase):
    """A root that has all that a gate's machine has, but for the machine's own programs, users and ports."""

    def setUp(self) -> None:
        room = tempfile.TemporaryDirectory()
        self.addCleanup(room.cleanup)
        self.machine = Machine(Path(room.name))
        for file in (SERVICE / "systemd").iterdir():
            self.put(f"/usr/local/lib/systemd/system/{file.name}", file.read_text())
        for name in STARTED:
            self.put(f"/etc/systemd/system/{name}", "")
        self.put("/usr/local/bin/gated", f'#!/bin/sh\nexec {PROGRAM} "$@"\n').chmod(0o755)
        self.put("/etc/gated/gate.toml", SETTINGS.read_text())
        self.put("/var/lib/gated/gate.db", "")
        for name in ("companions", "worker"):
            text = (SERVICE / f"{name}.toml").read_text().replace("https://gate.example", "https://localhost")
            for it in ("forge", "worker", "watch", "secret", "token"):
                text = text.replace(f"@{it}@", f"secret of {it}")
            self.put(f"/etc/gated/{name}.toml", text)
        self.put("/etc/nginx/gate.passwords", "".join(f"{it}:{hashed(f'secret of {it}')}\n" for it in check.ACCOUNTS))
        self.put("/etc/nginx/conf.d/gate.conf", "")
        self.put("/etc/nginx/nginx.conf", "user www-data;\nworker_processes 4;\n")
        subprocess.run(["openssl", "req", "-x509", "-newkey", "ec", "-pkeyopt", "ec_paramgen_curve:prime256v1",
                        "-nodes", "-days", "365", "-subj", "/CN=gate", "-keyout", self.at("/etc/nginx/gate.key"),
                        "-out", self.at("/etc/nginx/gate.crt")], check=True, capture_output=True)

    def at(self, name: str) -> Path:
        return self.machine.at(name)

    def put(self, name: str, text: str) -> Path:
        self.at(name).parent.mkdir(parents=True, exist_ok=True)
        self.at(name).write_text(text, encoding="utf-8")
        return self.at(name)

    def change(self, name: str, old: str, new: str) -> None:
        text = self.at(name).read_text()
        self.assertIn(old, text)
        self.put(name, text.replace(old, new))

    def lacking(self) -> list[str]:
        """What lacks, with the names of files as on the machine itself."""
        checks = (check.gate, check.files, check.proxy, check.workers_of_nginx, check.units, check.name, check.versions)
        return [it.replace(str(self.machine.root), "") for one in checks for it in one(self.machine)]

    def test_nothing(self) -> None:
        self.assertEqual((self.machine.role, self.lacking()), ("gate", []))

    def test_an_empty_machine(self) -> None:
        self.machine = Machine(self.machine.root / "empty")
        found = self.lacking()
        self.assertEqual(found[0], "/usr/local/bin/gated isn't there: run install")
        for it in ("/var/lib/gated/gate.db isn't there: make it by 'gated init', once, or restore it",
                   "/etc/gated/worker.toml isn't there: run install", "/etc/nginx/gate.crt isn't there",
                   "the unit gated-worker@.service isn't there: run install",
                   "gated-backup.timer doesn't start with the machine: systemctl enable --now gated-backup.timer"):
            self.assertIn(it, found)

    def test_the_version(self) -> None:
        self.assertEqual(check.version(self.machine), "unknown")
        self.put("/usr/local/lib/gated/VERSION", "20261130-110832-22ae83231234\n")
        self.assertEqual(check.version(self.machine), "20261130-110832-22ae83231234")

    def test_each_thing_that_lacks(self) -> None:
        self.put("/etc/gated/gate.toml", "wrong")
        self.change("/etc/gated/companions.toml", '"secret of token"', '"@token@"')
        self.change("/etc/gated/companions.toml", '"secret of secret"', '"@secret@"')
        self.change("/etc/gated/worker.toml", "secret of worker", "another one")
        self.change("/etc/nginx/gate.passwords", "standby:", "somebody:")
        self.put("/etc/nginx/gate.crt", "none")
        self.at("/usr/local/lib/systemd/system/gated-fence.service").unlink()
        self.at("/etc/systemd/system/timers.target.wants/gated-backup.timer").unlink()
        self.put("/var/lib/gated-companions/replaced", "")
        self.assertEqual(self.lacking(), [
            "/etc/gated/gate.toml: gated: C1 not-toml",
            "/etc/gated/companions.toml: @secret@ isn't filled in",
            "/etc/gated/companions.toml: adapter.token isn't filled in",
            "/etc/nginx/gate.crt ends within 14 days, or is none",
            "/etc/nginx/gate.passwords has no standby: run install",
            "/etc/gated/worker.toml: the password of worker isn't the proxy's",
            "the unit gated-fence.service isn't there: run install",
            "gated-backup.timer doesn't start with the machine: systemctl enable --now gated-backup.timer",
            "/var/lib/gated-companions/replaced is there: this machine was retired, or another one has taken the gate"
            " over",
        ])

    def test_too_few_processes_of_nginx(self) -> None:
        lacks = "/etc/nginx/nginx.conf: nginx has 1 worker_processes: let it have 4 or more"
        for said in ("worker_processes 1;", "# worker_processes 4;", ""):
            self.put("/etc/nginx/nginx.conf", f"user www-data;\n{said}\n")
            self.assertEqual(self.lacking(), [lacks])
        self.put("/etc/nginx/nginx.conf", "worker_processes auto;\n")
        for has, found in ((1, [lacks]), (8, list[str]())):
            with unittest.mock.patch("os.cpu_count", return_value=has):
                self.assertEqual(self.lacking(), found)

    def test_a_standby(self) -> None:
        """It has other units, a file of its own, and a password for the follower."""
        self.at("/var/lib/gated/gate.db").rename(self.at("/var/lib/gated/standby.db"))
        self.assertEqual((self.machine.role, self.lacking()), ("standby", [
            "gated-follow.service doesn't start with the machine: systemctl enable --now gated-follow",
            "gated.service starts with the machine, which is the standby's: systemctl disable gated",
            "/var/lib/gated/.netrc isn't there: 'standby unpack' makes it"]))
        for name in STARTED:
            self.at(f"/etc/systemd/system/{name}").unlink()
        self.put("/etc/systemd/system/multi-user.target.wants/gated-follow.service", "")
        self.put("/var/lib/gated/.netrc", "")
        self.put("/usr/local/lib/gated/VERSION", "1\n")
        self.put("/etc/gated/packed.version", "1\n")
        self.assertEqual(self.lacking(), [])
        self.put("/etc/gated/packed.version", "2\n")
        self.assertEqual(self.lacking(), ["the gate's machine has version 2: install the same here"])

    def test_a_name_that_leads_nowhere(self) -> None:
        self.change("/etc/gated/companions.toml", "https://localhost", "https://gate.invalid")
        self.assertEqual(self.lacking(), ["the name gate.invalid leads nowhere"])


if __name__ == "__main__":
    unittest.main()
