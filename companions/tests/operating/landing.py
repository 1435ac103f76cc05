"""What has to hold on the stage whose repositories are folders of the machine: changes land. Run there by stage.sh."""
from __future__ import annotations

import json
import os
import subprocess
import sys
import time
import urllib.error
import urllib.request
import uuid

sys.path.insert(0, "/usr/local/lib/gated")

from companions.ids import revision_id  # noqa: E402

GATE, BARE, WORK = "http://127.0.0.1:8080", "/srv/git/lib.git", "/srv/dev/lib"
PATIENCE = 240.0


def told(says: bool, what: str) -> None:
    print(f"{'ok' if says else 'NOT OK'}: {what}", flush=True)


def git(user: str, *words: str) -> str:
    """What git prints to a user, as under a unit: whoever isn't in the group can't read what is made."""
    ran = subprocess.run(["git", *words], cwd="/srv/dev", text=True, stdout=subprocess.PIPE, umask=0o027, user=user,
                         group=user, extra_groups=os.getgrouplist(user, 0), check=False,
                         env={"PATH": os.environ["PATH"], "HOME": "/srv/dev", "GIT_AUTHOR_NAME": "dev",
                              "GIT_AUTHOR_EMAIL": "dev@localhost", "GIT_COMMITTER_NAME": "dev",
                              "GIT_COMMITTER_EMAIL": "dev@localhost"})
    told(ran.returncode == 0, f"{user}: git {' '.join(words)}")
    return ran.stdout.strip()


def answer(path: str, said: object = None) -> str:
    content = None if said is None else json.dumps(said).encode()
    try:
        with urllib.request.urlopen(f"{GATE}/{path}", content, timeout=60) as it:
            return str(it.read().decode())
    except urllib.error.HTTPError as fault:
        return str(fault.read().decode())


def land(change: int, pusher: str) -> None:
    """A change is made from what the branch has by now, pushed and approved, and lands."""
    git("dev", "-C", WORK, "pull", "--quiet", "--ff-only", "origin", "main")
    with open(f"{WORK}/Makefile", "a", encoding="utf-8") as makefile:
        makefile.write(f"# {change}\ncheck docs::\n\ttrue\n")
    git("dev", "-C", WORK, "add", "Makefile")
    git("dev", "-C", WORK, "commit", "--quiet", "--message", f"Change {change}")
    commit = git("dev", "-C", WORK, "rev-parse", "HEAD")
    # An adapter pushes the same under its own user.
    git("dev", "-C", WORK, "push", "--quiet", BARE, f"HEAD:refs/heads/work-{change}")
    git(pusher, "--git-dir", BARE, "push", "--quiet", BARE, f"{commit}:refs/changes/{change}/1")
    git("dev", "-C", WORK, "reset", "--quiet", "--hard", "HEAD~")
    first = json.loads(answer("deliveries").partition("\n")[0])["id"]
    print(answer("forge", {"id": revision_id(first, change, 1, commit, ()), "kind": "revision", "change": change,
                           "project": "lib", "revision": 1, "message": ""}), flush=True)
    print(answer("forge", {"id": str(uuid.uuid4()), "kind": "approved", "change": change, "revision": 1}), flush=True)
    until = time.monotonic() + PATIENCE
    while time.monotonic() < until and '"state":"open"' in answer(f"changes/{change}"):
        time.sleep(0.5)
    told('"state":"landed"' in answer(f"changes/{change}"), f"change {change}: {answer(f'changes/{change}')}")


def main(changes: list[int]) -> None:
    subprocess.run(["usermod", "--append", "--groups", "gated-git", "dev"], check=True)
    # A copy of the folder would meet what the lander is pushing.
    git("dev", "clone", "--quiet", "--no-local", BARE, WORK)
    for at, change in enumerate(changes):
        land(change, ("dev", "gated-companions")[at % 2])
    builds = [json.loads(answer(f"builds/{number}")) for number in range(1, 20)]
    # Change 301 needs 101, and has builds too.
    outcomes = [it["outcome"] for it in builds if it.get("change") in changes]
    told(outcomes == ["success"] * 2 * len(changes), f"each job had one build: {builds}")
    write = subprocess.run(["touch", f"{BARE}/description"], user="gated-worker", group="gated-worker", check=False,
                           extra_groups=os.getgrouplist("gated-worker", 0), stderr=subprocess.DEVNULL)
    told(write.returncode != 0, "a worker can't write to a repository")
    print("all was checked")


main([int(it) for it in sys.argv[1:]] or [101, 102])
