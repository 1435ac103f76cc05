"""Two machines, of which the second takes the gate over from the first: run by test_standby.py in a network namespace.

    pair.py FOLDER

In FOLDER is a stage for each machine, `first` and `second`, and the scripts that are typed there, in the order of their
names: NUMBER-MACHINE-WHAT. At `power` the machine's power is cut instead.
"""
from __future__ import annotations

import os
import subprocess
import sys
import time
from pathlib import Path

PATIENCE = 300.0
ADDRESSES = {"first": "10.9.0.1", "second": "10.9.0.2"}


class Machine:
    """A stage with a network of its own, one end of a cable in it."""

    def __init__(self, folder: Path, name: str, cable: str) -> None:
        self.folder, self.name = folder / name, name
        words = ["unshare", "--mount", "--net", "--pid", "--fork", "--kill-child", "--mount-proc"]
        self.process = subprocess.Popen([*words, "bash", "stage.sh"], cwd=self.folder, stdin=subprocess.DEVNULL)
        children = Path(f"/proc/{self.process.pid}/task/{self.process.pid}/children")
        self.wait(lambda: bool(children.read_text()))
        self.inside = children.read_text().split()[0]
        self.wait(self.is_ready)
        run("ip", "link", "set", cable, "netns", self.inside)
        self.type(f"ip address add {ADDRESSES[name]}/24 dev {cable}; ip link set {cable} up")

    def is_ready(self) -> bool:
        return Path(f"/proc/{self.inside}/root/run/ready").exists()

    def wait(self, what: object) -> None:
        until = time.monotonic() + PATIENCE
        while not what():  # type: ignore[operator]
            if self.process.poll() is not None or time.monotonic() > until:
                sys.exit(f"NOT OK: {self.name} doesn't come up")
            time.sleep(0.1)

    def type(self, script: str) -> None:
        """Runs a script on it, at the top of the checkout."""
        environment = {"PATH": f"{self.folder}/bin:/usr/local/sbin:/usr/local/bin:/usr/sbin:/usr/bin:/sbin:/bin",
                       "HOME": "/root", "LC_ALL": "C.UTF-8", "FIRST": ADDRESSES["first"],
                       "SECOND": ADDRESSES["second"]}
        ran = subprocess.run(["nsenter", "--target", self.inside, "--mount", "--net", "--pid", "bash", "-euc",
                              f"cd {self.folder}/checkout\n{script}"], env=environment, stdin=subprocess.DEVNULL,
                             check=False)
        if ran.returncode != 0:
            sys.exit(f"NOT OK: {self.name}: a script ended with {ran.returncode}")

    def power_cut(self) -> None:
        """Ends all that runs there at once."""
        self.type("for it in /proc/[0-9]*; do it=${it#/proc/}; case $it in 1 | $$ | $(cat /run/ready)) ;;"
                  " *) kill -KILL $it 2>/dev/null || true ;; esac; done; rm -rf /run/units /run/nginx.pid")


def run(*words: str) -> None:
    subprocess.run(words, check=True)


def main(folder: Path) -> None:
    run("ip", "link", "add", "cable1", "type", "veth", "peer", "name", "cable2")
    machines = {name: Machine(folder, name, cable) for name, cable in (("first", "cable1"), ("second", "cable2"))}
    for file in sorted((folder / "typed").iterdir()):
        _, name, what = file.name.split("-", 2)
        print(f"== {file.name}", flush=True)
        if what == "power":
            machines[name].power_cut()
        else:
            machines[name].type(file.read_text())
    print("all was typed", flush=True)
    for it in machines.values():
        it.process.kill()


if __name__ == "__main__":
    os.environ["PATH"] += ":/usr/sbin:/sbin"
    main(Path(sys.argv[1]))
