"""Runs each command of docs/OPERATING.md, in its order, on a stage of its own: see operating/stage.sh."""
from __future__ import annotations

import os
import re
import shutil
import subprocess
import tempfile
import unittest
from pathlib import Path
from typing import TypeVar

T = TypeVar("T")
TOP = Path(__file__).resolve().parents[2]
PAGE = TOP / "docs" / "OPERATING.md"
STAGE = Path(__file__).resolve().parent / "operating"
PROGRAM = Path(os.environ.get("GATED", TOP / "crates" / "gated" / "out" / "gated"))
# Of the indented blocks, the one that stands for another: whoever has tried the gate runs it in place of `init`. And
# the one for those who have no adapter.
OF_A_TRIAL, OF_NO_TRIAL = "mv /root/trial/gate.db*", "gated init /etc/gated/gate.toml /var/lib/gated/gate.db"
OF_NO_ADAPTER = "adapter = false"
# Those for a second machine, which test_standby.py types, and for an upgrade from before `install` and back, which
# test_upgrade.py types.
OF_TWO = "service/standby "
OF_FORMER, OF_ITS_START = "rm /etc/systemd/system/gated*.service", "gated-copies gated-backup.timer"
OF_WAY_BACK = "companions/service/install --remove"
NOT_TYPED = (OF_A_TRIAL, OF_NO_ADAPTER, OF_TWO, OF_FORMER, OF_ITS_START, OF_WAY_BACK)
# The variable that names a folder of repositories which several stages have.
FORGED = "SHARED"
# What stands between fences begins so: it is printed or written, and isn't run.
FENCED = ("queue core window 3 landed 0", "gated: O4 unavailable",
          "check: /etc/gated/worker.toml: project lib has no job docs", "change 17, revision 2, stands at place 4 of 5",
          "ci/lint is failure: no approval counts before it has passed", "tell = '''\ncase $GATED_VERDICT",
          "tell = '''\ncase $GATED_VERDICT", "core 1 lib: change 101, revision 1, ", "backup: /var/backups/gated/",
          "follow: both show the same at ", "restore: /var/lib/gated/gate.db has ")
# What clients of the gate tell meanwhile: behind the block that has the text on the left.
TOLD = {
    "https://gate.example/status": (
        '"kind":"revision","change":301,"project":"site","revision":1,"message":"Depends-On: https://forge/c/101"',
        '"kind":"approved","change":301,"revision":1'),
    "systemctl start gated gated-lander gated-watch gated-worker": (
        '"kind":"revision","change":301,"project":"site","revision":1,"message":"Depends-On: https://forge/c/101"',
        '"kind":"approved","change":301,"revision":1'),
    "gated-backup.timer": ('"kind":"revision","change":302,"project":"site","revision":1,"message":""',),
}
# What is done in front of the block that has the text on the left, and what has to hold behind it.
BEFORE = {
    "gated/before-$day": """
git -C /srv/git/site.git update-ref refs/landings/web/1 refs/heads/main
touch /var/lib/gated-companions/{lander,adapter}/was-here""",
    "-g www-data /var/lib/gated-page": """
sed -i '/^page = /d' /etc/gated/companions.toml
sed -i '/# The page for people/,/^    }/d; /# What the adapter says of requests/,/^    }/d' /etc/nginx/conf.d/gate.conf
chown root:root /var/lib/gated-page && chmod 700 /var/lib/gated-page
systemctl restart nginx
see() { curl -s --retry 5 --retry-connrefused -u "alice:$(cat /root/alice.password)" "https://gate.example/$1"; }
see '' | grep '404 Not Found'"""}
BEHIND = {
    "-g www-data /var/lib/gated-page": """
see '' | grep 'src="page.js"'
see page.js | grep 'import { State }'
[ "$(grep -A 1 -Fx '[adapter]' /etc/gated/companions.toml | tail -n 1)" = 'page = "/var/lib/gated-page"' ]
[ "$(stat -c '%a %U %G' /var/lib/gated-page)" = '2750 gated-companions www-data' ]
[ "$(see requests.json | grep -c '403 Forbidden')" = 0 ]""",
    "gated/before-$day": """
[ -s /var/lib/gated/before-$day/gate.db ] && [ -s /var/lib/gated/before-$day/gate.db-wal ]
git -C /srv/git/site.git rev-parse --verify "refs/landings-before/$day/web/1"
[ -z "$(git -C /srv/git/site.git for-each-ref refs/landings/)" ]
[ -e /var/lib/gated-companions/adapter/was-here ] && [ ! -e /var/lib/gated-companions/lander ]""",
    "systemctl start gated gated-lander gated-watch gated-worker": """
curl -s --retry 20 --retry-connrefused http://127.0.0.1:8080/changes/301 | grep unknown-change
curl -sf http://127.0.0.1:8080/status | grep 'queue web window 2 landed 0'""",
}
# A trial in /root/trial, whose gate was killed: what was told last is in its log alone.
TRIAL = """
mkdir -p /root/trial/companions/{lander,adapter}
touch /root/trial/companions/{lander,adapter}/was-here
crates/gated/out/gated init examples/settings.toml /root/trial/gate.db
crates/gated/out/gated serve examples/settings.toml /root/trial/gate.db --port 8080 --count 1000 &
curl -sf --retry 10 --retry-connrefused http://127.0.0.1:8080/status"""
TELL = """curl -sf -d "{{\\"id\\":\\"$(cat /proc/sys/kernel/random/uuid)\\",$(cat <<'SAID'
{0}
SAID
)}}" http://127.0.0.1:8080/forge && echo"""


def blocks_of(page: str) -> tuple[list[str], list[str]]:
    """The indented blocks of a page, and those between fences."""
    indented: list[str] = []
    fenced: list[str] = []
    for at, part in enumerate(re.split(r"^```[a-z]*\n", page, flags=re.MULTILINE)):
        if at % 2 == 1:
            fenced.append(part)
        else:
            found = re.findall(r"(?:^ {4}.*\n)+", part, flags=re.MULTILINE)
            indented += [re.sub(r"^ {4}", "", it, flags=re.MULTILINE) for it in found]
    return indented, fenced


def those_of(block: str, by_mark: dict[str, T]) -> list[T]:
    """What goes with a block, by a text in it."""
    return [it for mark, it in by_mark.items() if mark in block]


def script_of(blocks: list[str]) -> str:
    """The blocks as one script, as somebody has them who gives them to one shell."""
    lines = ["set -euo pipefail", "trap 'echo \"FAILED: $BASH_COMMAND\"' ERR"]
    for at, block in enumerate(blocks):
        lines += [f"echo '== block {at}'", *those_of(block, BEFORE), block, *those_of(block, BEHIND)]
        for told in those_of(block, TOLD):
            lines += [TELL.format(it) for it in told]
    return "\n".join([*lines, "echo 'the page was run'", ""])


def make_stage(folder: Path, page: str, checks: str) -> None:
    """Makes a stage, on which a script is run, and then checks."""
    checkout = folder / "checkout"
    (checkout / "crates" / "gated" / "out").mkdir(parents=True)
    shutil.copy(PROGRAM, checkout / "crates" / "gated" / "out" / "gated")
    for it in ("companions", "examples"):
        shutil.copytree(TOP / it, checkout / it, ignore=shutil.ignore_patterns("__pycache__"))
    (folder / "bin").mkdir()
    for it in ("systemctl", "journalctl"):
        shutil.copy(STAGE / it, folder / "bin" / it)
    shutil.copy(STAGE / "stage.sh", folder / "stage.sh")
    shutil.copy(STAGE / checks, folder / "checks.py")
    (folder / "page.sh").write_text(page, encoding="utf-8")
    folder.chmod(0o755)


def play(folder: Path, blocks: list[str], checks: str = "checks.py") -> str:
    """What the stage prints when these blocks are run on it, and the checks behind them."""
    make_stage(folder, script_of(blocks), checks)
    words = ["unshare", "--mount", "--net", "--pid", "--fork", "--kill-child", "--mount-proc"]
    ran = subprocess.run([*words, "bash", "stage.sh"], cwd=folder, stdin=subprocess.DEVNULL, stdout=subprocess.PIPE,
                         stderr=subprocess.STDOUT, text=True, errors="replace", timeout=1190, check=False)
    return ran.stdout


class OperatingTest(unittest.TestCase):
    def setUp(self) -> None:
        self.blocks, self.fenced = blocks_of(PAGE.read_text(encoding="utf-8"))

    def test_only_what_is_listed_is_not_run(self) -> None:
        self.assertEqual(len(self.fenced), len(FENCED))
        for block, begins in zip(self.fenced, FENCED):
            self.assertTrue(block.startswith(begins), block)
        for mark in (*NOT_TYPED, *BEFORE, *BEHIND, *TOLD):
            self.assertTrue(any(mark in it for it in self.blocks), mark)
        self.assertGreater(len(self.blocks), 20)

    def test_each_command_runs(self) -> None:
        self.assertEqual(os.geteuid(), 0, "the stage has users of its own: run this as root, as in a container")
        self.assertTrue(PROGRAM.exists(), f"{PROGRAM} isn't built")
        for it in ("nginx", "systemd-analyze", "sqlite3", "curl", "openssl", "unshare", "nft"):
            self.assertIsNotNone(shutil.which(it, path="/usr/sbin:/usr/bin:/sbin:/bin"), f"{it} isn't there")
        with tempfile.TemporaryDirectory() as folder:
            printed = play(Path(folder), [
                it for it in self.blocks if not any(mark in it for mark in NOT_TYPED)])
        self.assertTrue("the page was run\n" in printed and "all was checked\n" in printed, printed)
        self.assertFalse("NOT OK" in printed, printed)
        self.assertRegex(printed, r"backup: /var/backups/gated/gate-\d\d.db is /var/lib/gated/gate.db of .*held up for")
        self.assertRegex(printed, r"restore: /var/lib/gated/gate.db has the 2 deliveries of .* and 1 more, up to")
        self.assertRegex(printed, "follow: both show the same at [0-9a-f]{32}")

    def test_a_trial_becomes_the_service(self) -> None:
        """Its file and its log are the service's, and so is what the log alone has."""
        self.assertEqual(os.geteuid(), 0, "the stage has users of its own: run this as root, as in a container")
        blocks = list(self.blocks)
        blocks.remove(next(it for it in blocks if OF_NO_TRIAL in it))
        end = next(at for at, it in enumerate(blocks) if "systemctl enable --now gated\n" in it)
        trial = [TRIAL, *(TELL.format(it) for it in TOLD["https://gate.example/status"]), "kill -KILL $!"]
        with tempfile.TemporaryDirectory() as folder:
            printed = play(Path(folder), ["\n".join(trial), *blocks[:end + 1]], "trial.py")
        self.assertTrue("the page was run\n" in printed and "all was checked\n" in printed, printed)
        self.assertFalse("NOT OK" in printed, printed)

    def test_changes_land_in_repositories_of_the_machine(self) -> None:
        """Lander and workers run under the units' users, rights and masks, and find what each other has pushed."""
        self.assertEqual(os.geteuid(), 0, "the stage has users of its own: run this as root, as in a container")
        blocks = [it for it in self.blocks if OF_A_TRIAL not in it]
        end = next(at for at, it in enumerate(blocks) if OF_NO_ADAPTER in it)
        with tempfile.TemporaryDirectory() as folder:
            printed = play(Path(folder), blocks[:end + 1], "landing.py")
        self.assertTrue("the page was run\n" in printed and "all was checked\n" in printed, printed)
        self.assertFalse("NOT OK" in printed, printed)


if __name__ == "__main__":
    unittest.main()
