"""The commands of docs/OPERATING.md for a standby on another machine, typed on two stages that a cable joins: see
operating/pair.py."""
from __future__ import annotations

import os
import shutil
import subprocess
import tempfile
import unittest
from pathlib import Path

from companions.tests.test_operating import (FORGED, OF_A_TRIAL, OF_NO_ADAPTER, PAGE, STAGE, blocks_of, make_stage,
                                             script_of)

SERVICE = "/usr/local/lib/gated/companions/service"
# Less than companions/test.sh gives to a test, so that what was printed is shown.
PATIENCE = int(os.environ.get("PATIENCE", "1200")) - 10
READY = "echo $$ > /run/ready\nexec sleep infinity\n"
MARK = """
runuser -u gated-companions -- sqlite3 -cmd '.timeout 20000' /var/lib/gated-companions/adapter/adapter.db \\
    "CREATE TABLE IF NOT EXISTS mark(text); INSERT INTO mark VALUES ('{0}')" """
# What is typed on the first machine once it runs, and in front of the page's commands for the second one.
BEFORE_PACKING = f"""systemctl start gated-adapter
until [ -s /var/lib/gated-companions/adapter/people.db ]; do sleep 0.5; done
systemctl stop gated-adapter
{MARK.format('one')}
install -d -m 700 -o gated-companions -g gated-companions /var/lib/gated-companions/.ssh
runuser -u gated-companions -- sh -c 'umask 077; echo "a key" > /var/lib/gated-companions/.ssh/id_ed25519'
systemctl enable --now gated-backup.timer
python3 ../checks.py 101
"""
TOLD = """
curl -sf -d '{"id":"0b000000000040008000000000000302","kind":"revision","change":302,"project":"site",""" + (
    """"revision":1,"message":""}' http://127.0.0.1:8080/forge && echo""")
FOLLOWED = """until grep -q '"change":302' /var/lib/gated/standby.log; do sleep 0.5; done"""
AFTER = """
[ "$(sqlite3 /var/lib/gated-companions/adapter/adapter.db 'SELECT group_concat(text) FROM mark')" = one,two ]
[ "$(cat /var/lib/gated-companions/.ssh/id_ed25519)" = "a key" ]
[ "$(stat -c '%U %a' /var/lib/gated-companions/.ssh/id_ed25519)" = "gated-companions 600" ]
[ "$(curl -sf -u alice:"$(cat /srv/git/alice.password)" https://gate.example/status |
    grep -c 'queue core .* landed 1')" = 1 ]
systemctl is-active gated gated-lander gated-watch gated-copies gated-worker@w1
for it in gated gated-lander gated-watch gated-copies gated-worker@w1; do
    [ -L /etc/systemd/system/multi-user.target.wants/$it.service ]
done
[ -L /etc/systemd/system/timers.target.wants/gated-backup.timer ]
[ ! -e /etc/systemd/system/multi-user.target.wants/gated-follow.service ] && [ ! -e /var/lib/gated/standby.db ]
systemctl start gated-backup
(cd /usr/local/lib/gated && python3 -m companions.check) || exit 1
python3 ../checks.py 102
"""
# The first machine comes back after a power cut, while the name leads to the second one.
BACK = """
sed -i "/gate.example/d" /etc/hosts && echo "$SECOND gate.example" >> /etc/hosts
systemctl boot
! systemctl is-active gated gated-lander gated-watch gated-copies | grep -x active ||
    { echo "NOT OK: one runs again" && exit 1; }
[ -e /var/lib/gated-companions/replaced ]
"""
RETIRED = """
[ -z "$(ls /etc/systemd/system/*.wants/ | grep gated)" ]
rm -f /etc/hosts.new && systemctl boot
! systemctl is-active gated || exit 1
! systemctl start gated || exit 1
"""
# Archives that would write elsewhere than a gate's own files.
HOSTILE = """
companions/service/install > /dev/null
mkdir -p /root/made/etc/cron.d /root/made/etc/gated && cd /root/made
touch etc/cron.d/evil && ln -s /etc/cron.d etc/gated/link
tar -czf ../elsewhere.tgz etc/cron.d/evil
tar -czPf ../above.tgz --transform 's,etc/cron.d,etc/gated/../cron.d,' etc/cron.d/evil
tar -czf ../link.tgz etc/gated/link
tar -czf ../beside.tgz --transform 's,etc/cron.d,etc/gated-evil,' etc/cron.d/evil
echo nothing > ../none.tgz
before=$(ls -l /etc/gated | sha256sum)
for it in elsewhere above link beside none; do
    ! /usr/local/lib/gated/companions/service/standby unpack < ../$it.tgz || { echo "NOT OK: $it" && exit 1; }
done
[ "$before" = "$(ls -l /etc/gated | sha256sum)" ]
[ ! -e /etc/cron.d/evil ] && [ ! -e /etc/gated-evil ] && [ ! -e /var/lib/gated/standby.db ]
echo "nothing was unpacked"
echo 1 > /usr/local/lib/gated/VERSION
/usr/local/lib/gated/companions/service/standby pack > ../good.tgz
echo 2 > /usr/local/lib/gated/VERSION
/usr/local/lib/gated/companions/service/standby unpack < ../good.tgz
"""


class StandbyTest(unittest.TestCase):
    def setUp(self) -> None:
        self.assertEqual(os.geteuid(), 0, "the stages have users of their own: run this as root, as in a container")
        for it in ("nginx", "ip", "nsenter", "unshare", "sqlite3"):
            self.assertIsNotNone(shutil.which(it, path="/usr/sbin:/usr/bin:/sbin:/bin"), f"{it} isn't there")
        self.blocks = blocks_of(PAGE.read_text(encoding="utf-8"))[0]

    def block(self, mark: str) -> str:
        (found,) = [it for it in self.blocks if mark in it]
        return found

    def typed(self) -> dict[str, str]:
        """What is typed where, in order."""
        blocks = [it for it in self.blocks if OF_A_TRIAL not in it]
        end = next(at for at, it in enumerate(blocks) if OF_NO_ADAPTER in it)
        taking_over = f"{SERVICE}/standby take-over"
        return {
            "first-page": script_of(blocks[:end + 1]),
            "second-install": f"{blocks[0]}\n{self.block('groupadd --system gated-git')}\n"
                              'echo "$FIRST gate.example" >> /etc/hosts',
            "first-before": BEFORE_PACKING,
            "first-pack": self.block("standby pack") + "\ncp /root/standby.tar.gz /root/alice.password /srv/git/",
            "second-copy": "cp /srv/git/standby.tar.gz /root/\nchmod 600 /root/standby.tar.gz",
            "second-unpack": self.block("standby unpack"),
            "second-follow": next(it for it in self.blocks if it.startswith("until journalctl -u gated-follow ")),
            "second-check": "cd /usr/local/lib/gated && python3 -m companions.check",
            "second-too-early": f"! {taking_over} || {{ echo 'NOT OK: it took over from a gate that runs'; exit 1; }}",
            "first-more": MARK.format("two") + TOLD,
            "second-followed": FOLLOWED,
            "first-power": "",
            "second-name": 'sed -i "/gate.example/d" /etc/hosts && echo "127.0.0.1 gate.example" >> /etc/hosts',
            "second-take-over": self.block("standby take-over"),
            "second-after": AFTER,
            "first-back": BACK,
            "first-retire": self.block("standby retire"),
            "first-retired": RETIRED,
        }

    def test_the_second_machine_takes_over(self) -> None:
        with tempfile.TemporaryDirectory() as name:
            folder = Path(name)
            folder.chmod(0o755)
            (folder / "git").mkdir()
            (folder / "typed").mkdir()
            for machine in ("first", "second"):
                make_stage(folder / machine, READY, "landing.py")
            for at, (what, script) in enumerate(self.typed().items()):
                (folder / "typed" / f"{at:02d}-{what}").write_text(script, encoding="utf-8")
            ran = subprocess.run(
                ["unshare", "--mount", "--net", "--pid", "--fork", "--kill-child", "--mount-proc", "/usr/bin/python3",
                 STAGE / "pair.py", folder], env={**os.environ, FORGED: str(folder / "git")}, stdin=subprocess.DEVNULL,
                stdout=subprocess.PIPE, stderr=subprocess.STDOUT, text=True, errors="replace", timeout=PATIENCE,
                check=False)
        self.assertTrue("all was typed\n" in ran.stdout and ran.returncode == 0, ran.stdout)
        self.assertFalse("NOT OK" in ran.stdout, ran.stdout)

    def test_an_archive_of_something_else(self) -> None:
        with tempfile.TemporaryDirectory() as name:
            folder = Path(name) / "stage"
            make_stage(folder, f"set -euo pipefail\n{HOSTILE}", "trial.py")
            (folder / "checks.py").write_text("")
            words = ["unshare", "--mount", "--net", "--pid", "--fork", "--kill-child", "--mount-proc", "bash"]
            ran = subprocess.run([*words, "stage.sh"], cwd=folder, stdin=subprocess.DEVNULL, stdout=subprocess.PIPE,
                                 stderr=subprocess.STDOUT, text=True, timeout=300, check=False)
        self.assertIn("\nnothing was unpacked\n", ran.stdout)
        self.assertIn("\nstandby: the gate's machine has version 1, and this one 2: install the same on both\n",
                      ran.stdout)
        self.assertNotIn("NOT OK", ran.stdout)


if __name__ == "__main__":
    unittest.main()
