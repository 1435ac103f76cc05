"""`install` of companions/service, on an empty stage, again, over changes, and back: see operating/stage.sh."""
from __future__ import annotations

import os
import re
import subprocess
import tempfile
import unittest
from pathlib import Path

from companions.tests.test_operating import make_stage

AGAIN = """
echo 1 > VERSION
echo "== first" && companions/service/install
echo "== second" && companions/service/install
echo '# mine' >> /etc/gated/gate.toml
sed -i 's/gate.example/gate.acme.example/' /etc/nginx/conf.d/gate.conf
echo '# an older one' >> /usr/local/lib/systemd/system/gated.service
touch /usr/local/lib/gated/companions/of_an_earlier_version.py
cp companions/service/systemd/gated-watch.service /etc/systemd/system/
rm /etc/gated/worker.toml
echo 2 > VERSION
before=$(sha256sum /etc/gated/gate.toml /etc/nginx/gate.passwords /etc/gated/companions.toml)
echo "== third" && companions/service/install
[ "$before" = "$(sha256sum /etc/gated/gate.toml /etc/nginx/gate.passwords /etc/gated/companions.toml)" ]
[ ! -e /usr/local/lib/gated/companions/of_an_earlier_version.py ]
! grep -q '@worker@' /etc/gated/worker.toml && ! grep -q '@forge@\\|@watch@\\|@secret@' /etc/gated/companions.toml
grep -q "$(cat /etc/gated/worker.password)" /etc/gated/worker.toml
stat -c '%a %U %G %n' /etc/gated/companions.toml /etc/gated/worker.toml /etc/gated/gate.toml \\
    /etc/nginx/gate.passwords /etc/gated/forge.password /var/lib/gated /var/lib/gated-copies /var/lib/gated-page \\
    /var/lib/gated-logs
"""
MODES = """\
640 root gated-companions /etc/gated/companions.toml
640 root gated-worker /etc/gated/worker.toml
640 root gated /etc/gated/gate.toml
640 root www-data /etc/nginx/gate.passwords
600 root root /etc/gated/forge.password
750 gated gated /var/lib/gated
2750 gated-companions www-data /var/lib/gated-copies
2750 gated-companions www-data /var/lib/gated-page
2750 gated-worker www-data /var/lib/gated-logs
"""
REMOVED = """
runuser -u gated -- gated init /etc/gated/gate.toml /var/lib/gated/gate.db
systemctl enable --now gated gated-worker@w1
echo "== removed" && companions/service/install --remove
! systemctl is-active gated 2>/dev/null || exit 1
[ -z "$(ls /usr/local/lib/systemd/system /etc/systemd/system/*.wants | grep gated)" ]
[ ! -e /usr/local/bin/gated ] && [ ! -e /usr/local/lib/gated ] && [ ! -e /etc/nginx/conf.d/gate.conf ]
[ -e /var/lib/gated/gate.db ] && [ -e /etc/gated/gate.toml ] && [ -e /etc/nginx/gate.passwords ] && id gated
echo "== anew" && companions/service/install
"""


class InstallTest(unittest.TestCase):
    def played(self, script: str) -> dict[str, list[str]]:
        """The lines that were printed behind each mark."""
        self.assertEqual(os.geteuid(), 0, "the stage has users of its own: run this as root, as in a container")
        with tempfile.TemporaryDirectory() as name:
            folder = Path(name) / "stage"
            make_stage(folder, f"set -euo pipefail\n{script}\necho '== end'\n", "trial.py")
            (folder / "checks.py").write_text("")
            words = ["unshare", "--mount", "--net", "--pid", "--fork", "--kill-child", "--mount-proc", "bash"]
            ran = subprocess.run([*words, "stage.sh"], cwd=folder, stdin=subprocess.DEVNULL, stdout=subprocess.PIPE,
                                 stderr=subprocess.STDOUT, text=True, timeout=300, check=False)
        self.assertIn("\n== end\n", ran.stdout)
        parts = re.split(r"^== (.*)\n", ran.stdout, flags=re.MULTILINE)
        return {mark: text.splitlines() for mark, text in zip(parts[1::2], parts[2::2])}

    def test_it_is_run_again(self) -> None:
        """It overwrites no settings, and says what differs."""
        printed = self.played(AGAIN)
        self.assertIn("install: user gated-worker: made", printed["first"])
        self.assertEqual(printed["first"][-1], "install: done, version 1")
        self.assertEqual(printed["second"], ["install: done, version 1"])
        *told, gate, worker, proxy, done = [it for it in printed["third"] if it.startswith("install: ")]
        self.assertEqual(told[0], "install: /usr/local/lib/gated/companions: put in place")
        self.assertEqual(told[1], "install: /usr/local/lib/gated/VERSION: 2 (before: 1)")
        self.assertEqual(told[2].partition("; ")[0], "install: /etc/systemd/system/gated-watch.service: counts in place"
                                                     " of /usr/local/lib/systemd/system/gated-watch.service")
        self.assertEqual(told[3:], ["install: /usr/local/lib/systemd/system/gated.service: replaced"])
        self.assertRegex(gate, "install: /etc/gated/gate.toml: is yours, and differs: compare it by 'diff /.* /etc/.*'")
        self.assertEqual(worker, "install: /etc/gated/worker.toml: new")
        self.assertRegex(proxy, "install: /etc/nginx/conf.d/gate.conf: is yours, and differs: ")
        self.assertEqual(done, "install: done, version 2")
        self.assertEqual("".join(f"{it}\n" for it in printed["third"][-9:]), MODES)

    def test_it_is_taken_back(self) -> None:
        """Settings, passwords and data stay, and what is installed anew finds them."""
        printed = self.played(f"companions/service/install\n{REMOVED}")
        self.assertTrue(printed["removed"][0].startswith("install: removed. Left are /etc/gated, "), printed)
        self.assertIn("install: /usr/local/bin/gated: new", printed["anew"])
        self.assertIn("install: /etc/nginx/conf.d/gate.conf: new", printed["anew"])
        self.assertEqual([it for it in printed["anew"] if "password" in it or "user" in it or "toml" in it], [])


if __name__ == "__main__":
    unittest.main()
