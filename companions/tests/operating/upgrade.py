"""What is done on the stage of an upgrade, and has to hold: run there by stage.sh, see test_upgrade.py.

The scripts that are typed are in typed.json, by their names. A forge in Gitea's form runs beside, whose repositories
are those of the stage.
"""
from __future__ import annotations

import json
import os
import subprocess
import sys
import threading
import time
from collections.abc import Callable
from pathlib import Path

STAGE = Path(__file__).resolve().parent
CHECKOUT = STAGE / "checkout"
sys.path[:0] = [str(CHECKOUT), str(CHECKOUT / "examples" / "gitea")]

import forge  # type: ignore[import]  # noqa: E402
from companions.forges import Place  # noqa: E402
from companions.tests.forges import StandInForge  # noqa: E402

TYPED: dict[str, str] = json.loads((STAGE / "typed.json").read_text())
FORGE = Path("/srv/forge")
PATIENCE = 240.0
# The forge looks at its branches less often than in the example, since a machine may have much else to do.
forge.PAUSE = 2.0


def told(says: bool, what: str) -> None:
    print(f"{'ok' if says else 'NOT OK'}: {what}", flush=True)


def run(script: str) -> None:
    """Types a script at the top of the checkout."""
    ran = subprocess.run(["bash", "-euo", "pipefail", "-c", script], cwd=CHECKOUT, stdin=subprocess.DEVNULL,
                         check=False)
    if ran.returncode != 0:
        sys.exit(f"NOT OK: a script ended with {ran.returncode}: {script}")


def journal(unit: str) -> str:
    return Path(f"/run/units/{unit}.service.log").read_text()


def wait(what: str, holds: Callable[[], bool]) -> None:
    until = time.monotonic() + PATIENCE
    while not holds() and time.monotonic() < until:
        time.sleep(0.3)
    told(holds(), what)
    if not holds():
        for it in ("gated-lander", "gated-adapter", "gated-worker@w1"):
            print(f"{it}: {journal(it)[-3000:]}", flush=True)
        sys.exit("NOT OK: nothing more is tried")


class People:
    """Those who work at the forge."""

    def __init__(self) -> None:
        self.stand_in = StandInForge("gitea", "http://127.0.0.1:8090/hook")
        for name in ("lib", "app", "site"):
            (FORGE / "acme").mkdir(parents=True, exist_ok=True)
            (FORGE / "acme" / f"{name}.git").symlink_to(f"/srv/git/{name}.git")
            self.stand_in.model.add(f"acme/{name}", "ann")
        self.forge = forge.Forge(self.stand_in, FORGE)

    def start(self) -> None:
        self.stand_in.server.start()
        threading.Thread(target=self.forge.watch, daemon=True).start()

    def open(self, name: str, title: str) -> Place:
        """Opens a request: a commit on what the branch has by now."""
        place = Place(f"acme/{name}", 1 + len(self.stand_in.model.of(f"acme/{name}")))
        run(f"""
work=$(mktemp -d)
git clone --quiet --no-local /srv/git/{name}.git $work
cd $work
printf 'check docs::\\n\\ttrue\\n' > Makefile && echo '{title}' > change-{place.number}
git add --all
git -c user.name=ann -c user.email=ann@localhost commit --quiet --message '{title}'
git push --quiet origin HEAD:refs/pull/{place.number}/head
rm -rf $work""")
        self.forge.command(["open", place.repository, "main", title, ""])
        return place

    def propose(self, name: str, title: str) -> Place:
        """Opens a request, and waits until the gate knows it."""
        before = journal("gated-adapter").count("revision: recorded")
        place = self.open(name, title)
        wait(f"the gate knows {place.repository} {place.number}",
             lambda: journal("gated-adapter").count("revision: recorded") > before)
        return place

    def land(self, place: Place) -> None:
        """Somebody approves a request, and it is merged."""
        self.forge.command(["approve", place.repository, str(place.number), "ann"])
        wait(f"{place.repository} {place.number} lands", lambda: self.stand_in.model.pulls[place].state == "merged")


def former(people: People) -> list[Place]:
    """Two changes land by the former companions. Two requests are left open, which the gate knows."""
    run(TYPED["former"])
    wait("the former adapter takes hooks", lambda: "hooks come in" in journal("gated-adapter"))
    for name in ("lib", "site"):
        people.land(people.propose(name, "One"))
    return [people.propose("lib", "Two"), people.propose("app", "One")]


def back(people: People, known: Place) -> list[Place]:
    """What the former companions do over the files of the later ones."""
    run(TYPED["back"])
    people.forge.command(["approve", known.repository, str(known.number), "ann"])
    wait("the former lander stops the queue", lambda: "lander: core: a landing's note is at a commit that names no"
         " landing: 'Land change 5: Three" in journal("gated-lander"))
    place = people.open("site", "Two")
    wait("the former adapter tells nothing of a request that has another one's number",
         lambda: "adapter: acme/site 2: Trouble: the gate has revision 1 of change 5, and the adapter 0. Its tables are"
         " older than the gate's file" in journal("gated-adapter"))
    return [known, place]


def main() -> None:
    people = People()
    os.environ["FORGE_URL"] = people.stand_in.url
    people.start()
    lib, app = former(people)
    settings = Path("/etc/gated/gate.toml").read_bytes(), Path("/etc/nginx/gate.passwords").read_bytes()
    print("==== the upgrade", flush=True)
    run(TYPED["upgrade"])
    told(settings == (Path("/etc/gated/gate.toml").read_bytes(), Path("/etc/nginx/gate.passwords").read_bytes()),
         "settings and passwords are what they were")
    people.land(lib)
    people.land(people.propose("lib", "Three"))
    run(TYPED["evidence"])
    print("==== the way back", flush=True)
    left = back(people, app)
    print("==== a new file", flush=True)
    known = journal("gated-adapter").count("revision: recorded")
    run(TYPED["new file"])
    wait("the former adapter tells the new file of both requests",
         lambda: journal("gated-adapter").count("revision: recorded") >= known + len(left))
    for place in left:
        people.land(place)
    told(git_log("lib") == ["Land change 5: Three", "Land change 3: Two", "Land change 1: One", "Begin"],
         f"the branch has what landed: {git_log('lib')}")
    print("all was checked", flush=True)


def git_log(name: str) -> list[str]:
    return subprocess.run(["git", "--git-dir", f"/srv/git/{name}.git", "log", "--first-parent", "--format=%s", "main"],
                          stdout=subprocess.PIPE, text=True, check=True).stdout.splitlines()


if __name__ == "__main__":
    main()
