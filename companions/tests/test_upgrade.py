"""The commands of docs/OPERATING.md for an upgrade from before there was `install`, and back, over the files and the
repositories of a former revision, whose own page's commands made them: see operating/upgrade.py."""
from __future__ import annotations

import io
import json
import os
import subprocess
import sys
import tarfile
import tempfile
import unittest
from pathlib import Path

from companions.tests.test_operating import (OF_FORMER, OF_ITS_START, OF_WAY_BACK, PAGE, TOP, blocks_of, make_stage)

# Less than companions/test.sh gives to a test, so that what was printed is shown.
PATIENCE = int(os.environ.get("PATIENCE", "1200")) - 10
# The former revision is the one before this file was added: the last one whose tables had no version.
ADDED = "companions/tables.py"
# What the former page's machine had beside its commands: repositories that all may write, and a name that leads to it.
FORMER_STAGE = """
cp /etc/nginx/nginx.conf /root/nginx.conf.of-the-package
git config --system safe.directory '*'
for project in lib app site; do git -C /srv/git/$project.git config core.sharedRepository 0666; done
chmod -R a+rwX /srv/git
for unit in gated-lander gated-adapter; do
    install -d /etc/systemd/system/$unit.service.d
    printf '[Service]\\nReadWritePaths=/srv/git\\n' > /etc/systemd/system/$unit.service.d/repositories.conf
done
echo '127.0.0.1 gate.example' >> /etc/hosts
cd ../former
"""
# What is filled in by hand.
FILLED_IN = """
sed -i -e "s|https://git.example/api/v1|$FORGE_URL|" -e 's/"@token@"/"a token"/' \\
    -e 's/^secret = .*/secret = "a secret"/' /etc/gated/companions.toml
systemctl restart gated-adapter
"""
STARTED = """
systemctl start gated gated-lander gated-watch gated-adapter gated-worker@w1 gated-worker@w2
systemctl is-active gated gated-lander gated-watch gated-adapter gated-worker@w1 gated-worker@w2
"""
EVIDENCE = """
cd /usr/local/lib/gated && python3 -m companions.evidence /etc/gated/companions.toml core
python3 -m companions.check
"""
# What `install` says over what was installed by hand, but for the folders and groups that it makes, and when it is run
# once more.
FIRST = """\
install: /usr/local/lib/gated/companions: put in place
install: /usr/local/lib/gated/VERSION: unknown
{units}{differs}install: /etc/gated/ports.nft: new
install: /etc/nginx/conf.d/gate.conf: new
{proxy}install: done, version unknown
"""
AGAIN = "{differs}{proxy}install: done, version unknown\n"
DIFFERS = "".join(
    f"install: /etc/gated/{it}.toml: is yours, and differs: compare it by 'diff CHECKOUT/companions/service/{it}.toml"
    f" /etc/gated/{it}.toml'\n" for it in ("companions", "worker"))
PROXY = ("install: /etc/nginx/nginx.conf doesn't include /etc/nginx/conf.d/*.conf: it doesn't use the gate's part\n")


def git(*words: str) -> bytes:
    return subprocess.run(["git", "-C", TOP, *words], capture_output=True, check=True).stdout


def former() -> str:
    """The former revision, if the history has it."""
    try:
        added = git("log", "--diff-filter=A", "--format=%H", "--", ADDED).decode().split()
        return git("rev-parse", "--verify", "--quiet", f"{added[-1]}~1^{{commit}}").decode().strip()
    except (subprocess.CalledProcessError, OSError, IndexError):
        return ""


def block(blocks: list[str], mark: str) -> str:
    (found,) = [it for it in blocks if mark in it]
    return found


class UpgradeTest(unittest.TestCase):
    def setUp(self) -> None:
        self.assertEqual(os.geteuid(), 0, "the stage has users of its own: run this as root, as in a container")
        self.revision = former()
        if not self.revision:
            print(f"\nskipped: the upgrade from a former revision: no history from before {ADDED}", file=sys.stderr)
            self.skipTest("no history")

    def typed(self) -> dict[str, str]:
        """What is typed, by when."""
        was = blocks_of(git("show", f"{self.revision}:docs/OPERATING.md").decode())[0]
        now = blocks_of(PAGE.read_text(encoding="utf-8"))[0]
        end = next(at for at, it in enumerate(was) if "systemctl is-active gated-lander" in it)
        all_of = "systemctl is-active gated gated-lander gated-watch gated-adapter gated-copies gated-worker@w1\n"
        return {
            "former": FORMER_STAGE + "\n".join(was[:end + 1]) + FILLED_IN,
            "upgrade": block(now, OF_FORMER) + "echo '== again'\ncompanions/service/install\n"
            + "cp /root/nginx.conf.of-the-package /etc/nginx/nginx.conf\n"
            + block(now, "groupadd --system gated-git") + block(now, OF_ITS_START) + all_of,
            "evidence": EVIDENCE,
            "back": block(now, OF_WAY_BACK) + STARTED,
            "new file": block(now, "gated/before-$day") + block(
                now, "systemctl start gated gated-lander gated-watch gated-worker@w1 gated-worker@w2\nsystemctl start"),
        }

    def test_from_before_the_versions_of_tables(self) -> None:
        with tempfile.TemporaryDirectory() as name:
            folder = Path(name) / "stage"
            make_stage(folder, "", "upgrade.py")
            with tarfile.open(fileobj=io.BytesIO(git("archive", self.revision, "companions", "examples"))) as packed:
                # This mypy doesn't know the word yet.
                packed.extractall(folder / "former", filter="data")  # type: ignore[call-arg]
            # A program of that time can't be made quickly. Its tables had the same schema.
            (folder / "former" / "crates").symlink_to("../checkout/crates")
            (folder / "typed.json").write_text(json.dumps(self.typed()), encoding="utf-8")
            words = ["unshare", "--mount", "--net", "--pid", "--fork", "--kill-child", "--mount-proc", "bash"]
            ran = subprocess.run([*words, "stage.sh"], cwd=folder, stdin=subprocess.DEVNULL, stdout=subprocess.PIPE,
                                 stderr=subprocess.STDOUT, text=True, errors="replace", timeout=PATIENCE, check=False)
        self.assertTrue("all was checked\n" in ran.stdout, ran.stdout)
        self.assertFalse("NOT OK" in ran.stdout, ran.stdout)
        units = "".join(f"install: /usr/local/lib/systemd/system/{it.name}: new\n"
                        for it in sorted((TOP / "companions" / "service" / "systemd").iterdir()))
        says = ran.stdout.replace(str(folder / "checkout"), "CHECKOUT")
        says = "".join(it for it in says.splitlines(keepends=True) if it.startswith(("install: ", "== again"))
                       and not it.endswith(": made\n"))
        self.assertIn(FIRST.format(units=units, differs=DIFFERS, proxy=PROXY) + "== again\n"
                      + AGAIN.format(differs=DIFFERS, proxy=PROXY), says)
        self.assertIn("check: as the gate's machine it lacks nothing\n", ran.stdout)
        self.assertRegex(ran.stdout, "core 1 lib: change 1, revision 1, [0-9a-f]{12}: of an earlier version, .*\n"
                         "core 2 lib: change 3, revision 1, [0-9a-f]{12}: holds: .*\n"
                         "core 3 lib: change 5, revision 1, [0-9a-f]{12}: holds: .*\ncore: 3 of 3 landings hold")


if __name__ == "__main__":
    unittest.main()
