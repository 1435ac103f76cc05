"""What a day begins with: repositories with hooks, the settings of gate and companions, and a proxy's configuration."""
from __future__ import annotations

import os
from collections.abc import Collection
from dataclasses import dataclass
from pathlib import Path

from companions.tests.boxes import boxed
from companions.tests.day.parts import Differs, run

TOP = Path(__file__).resolve().parents[3]
ADAPTER = TOP / "examples" / "forge" / "adapter.py"
SERVICE = TOP / "companions" / "service"
PASSWORD = "day-and-night"
# The change with which the adapter of bare repositories begins a gate's file.
BEGINNING = 999999999


@dataclass(frozen=True)
class Project:
    """A project of the day: its queue, its jobs and whether they vote, and the files of its first commit.

    It has a repository of its own, unless it names that of another project, of which it is another branch then. With
    a forge its changes `land` so.
    """
    name: str
    queue: str
    jobs: tuple[tuple[str, bool], ...]
    files: tuple[tuple[str, str], ...]
    branch: str = "main"
    repository: str = ""
    land: str = "merge"

    @property
    def home(self) -> str:
        """The name of its repository."""
        return self.repository or self.name


# Jobs are deterministic: what they say depends on the trees alone. A slow one takes its time and says the same.
SLOW = '[ "$(cat slow 2>/dev/null)" != "$GATED_CHANGE" ] || sleep "${SLOW:-3}"\n'
LIB = Project("lib", "core", (("unit", True), ("docs", False)), (
    ("numbers/1", "one"), ("numbers/2", "two"),
    ("unit.sh", SLOW + '[ "$(ls numbers | sort -n | tail -n 1)" -le 100 ]'),
    ("docs.sh", '[ -z "$(grep -L . numbers/*)" ]')))
APP = Project("app", "core", (("unit", True),), (
    ("uses/1", "once"),
    ("unit.sh", 'for use in uses/*; do [ -e "$GATED_TREES/lib/numbers/${use##*/}" ] || exit 1; done')))
SITE = Project("site", "web", (("unit", True),), (
    ("page", "Welcome"), ("title", "Gate"), ("unit.sh", '! grep -q broken page style-* 2>/dev/null')))
PRESS = Project("press", "press", (("unit", True),), (
    ("letter", "Dear reader"), ("unit.sh", '! grep -q broken letter-* 2>/dev/null')))
# Is added while the day runs.
TOOL = Project("tool", "web", (("unit", True),), (("tool", "a hammer"), ("unit.sh", 'grep -q hammer tool')))

# The server's side of git runs in a session of its own: a client that is killed leaves it alone, as with a real forge.
# Who pushes is told by the name before the @.
SSH = """#!/bin/sh
while [ "$1" = -o ]; do shift 2; done
export FORGE_ACCOUNT="${1%%@*}"
exec setsid --wait sh -c "$2"
"""
UPDATE = """#!/bin/sh
# A branch moves for the lander alone.
case $1 in
refs/changes/*) ;;
*) [ "$FORGE_ACCOUNT" = lander ] || { echo "$1 moves by the gate alone"; exit 1; } ;;
esac
"""
# Notes what a job runs on, by the files that are there, and what it came to.
JOB = """#!/bin/sh
trees=
for tree in "$GATED_TREES"/*/; do
    index=$(mktemp -u)
    hash=$(cd "$tree" && GIT_INDEX_FILE=$index git add --all . && GIT_INDEX_FILE=$index git write-tree) || exit 2
    rm -f "$index"
    tree=${tree%/}
    trees="$trees ${tree##*/}=$hash"
done
status=0
sh "$1.sh" || status=$?
echo "$GATED_QUEUE $GATED_CHANGE $GATED_REVISION $GATED_PROJECT $1 $status$trees" >> "$DAY/witness"
exit "$status"
"""
# The status that stands for a job where a CI runs it, and for how many seconds it may run there: half as long as a day
# waits. A gate that was restored may show a build whose end it has forgotten, and it's the watch that ends it then.
STATUS, LONG = "ci/{}", 120.0
# Who knocks at the proxy in which role; the names are those that companions/service/gate.conf knows.
USERS = {"forge": "forge", "worker": "worker", "people": "watch", "standby": "watch"}
FOLLOWER = "standby"


def environment(folder: Path) -> dict[str, str]:
    """What all parts of a day have in their environment: git without anybody's settings."""
    who = {f"GIT_{role}_{it}": value for role in ("AUTHOR", "COMMITTER")
           for it, value in (("NAME", "forge"), ("EMAIL", "forge@localhost"))}
    return {**os.environ, **who, "DAY": str(folder), "PYTHONPATH": str(TOP), "PYTHONDONTWRITEBYTECODE": "1",
            "GIT_CONFIG_GLOBAL": "/dev/null", "GIT_CONFIG_NOSYSTEM": "1", "GIT_SSH_COMMAND": str(folder / "ssh"),
            "GIT_SSH_VARIANT": "ssh", "TMPDIR": str(folder / "tmp"),
            **{it: str(folder / "proxy" / "gate.crt") for it in ("SSL_CERT_FILE", "CURL_CA_BUNDLE")}}


def pace() -> float:
    """The seconds between two questions of whoever waits: PACE, where the gate is slow."""
    return float(os.environ.get("PACE", "0.2"))


def write_script(file: Path, text: str) -> None:
    file.write_text(text, encoding="utf-8")
    file.chmod(0o755)


def make_repository(folder: Path, project: Project, around: dict[str, str], hooks: dict[str, str]) -> None:
    """A bare repository with a first commit on the project's branch, which `base` keeps, and hooks.

    One that is there already, as another project's, gets the branch.
    """
    seed, bare = folder / "seed" / project.home, folder / "repos" / f"{project.home}.git"
    if bare.exists():
        run(["git", "-C", str(bare), "branch", project.branch, "base"], around)
        return
    seed.mkdir(parents=True)
    run(["git", "init", "--quiet", f"--initial-branch={project.branch}", str(seed)], around)
    for name, text in project.files:
        (seed / name).parent.mkdir(exist_ok=True)
        (seed / name).write_text(text + "\n", encoding="utf-8")
    for words in (["add", "."], ["commit", "--quiet", "--message", "Begin"], ["branch", "base"],
                  ["clone", "--quiet", "--bare", str(seed), str(bare)]):
        run(["git", "-C", str(seed), *words], around)
    for name, text in hooks.items():
        write_script(bare / "hooks" / name, text)


def git_hooks(folder: Path) -> dict[str, str]:
    """The hooks of repositories that are their own forge."""
    return {"update": UPDATE,
            "post-receive": f'#!/bin/sh\nexec python3 {ADAPTER} {folder / "adapter.toml"} post-receive\n'}


def gate_settings(projects: list[Project]) -> str:
    text = '[forge]\nbase = "https://forge/c/"\n'
    for queue in dict.fromkeys(it.queue for it in projects):
        text += f'\n[[queue]]\nname = "{queue}"\nwindow = 6\nfloor = 2\n'
    for project in projects:
        text += f'\n[[project]]\nname = "{project.name}"\nqueue = "{project.queue}"\n'
        for job, votes in project.jobs:
            text += f'[[project.job]]\nname = "{job}"\nvoting = {str(votes).lower()}\n'
    return text


def companions_settings(folder: Path, port: int, projects: list[Project], where: str, more: str = "",
                        evidence: bool = True, beats: int = 0, of_ci: Collection[str] = ()) -> str:
    """The companions' file; `where` stands before the folder of the repositories in their addresses.

    `more` are tables of a day of another kind. Without `evidence` the lander doesn't ask what was tested. The watch
    hears workers at the port `beats`. The jobs of the projects `of_ci` are a CI's.
    """
    text = f'folder = "{folder}/companions"\n[gate]\nurl = "https://127.0.0.1:{port}"\npause = {pace()}\n'
    for role, user in USERS.items():
        text += f'[gate.{role}]\nuser = "{user}"\npassword = "{PASSWORD}"\n'
    text += f'[worker]\nlook = 1.0\nsandbox = {str(boxed()).lower()}\n[watch]\ngrace = 3.0\nstands = 20.0\n'
    text += f'silent = 10.0\nlisten = "127.0.0.1:{beats}"\n{more}'
    for project in projects:
        text += (f'[[project]]\nname = "{project.name}"\nqueue = "{project.queue}"\nbranch = "{project.branch}"\n'
                 f'repository = "{where}{folder}/repos/{project.home}.git"\nforge = "acme/{project.home}"\n'
                 f'evidence = {str(evidence).lower()}\nland = "{project.land}"\n')
        for job, _ in project.jobs:
            command = (f'command = "DAY={folder} sh {folder}/job {job}"\nread = ["{folder}/job"]\n'
                       f'write = ["{folder}/witness"]\n')
            status, limit = f'status = "{STATUS.format(job)}"\n', 12 + 10 * pace()
            runs = f"{status}limit = {LONG}\n" if project.name in of_ci else f"{command}limit = {limit}\n"
            text += f'[[project.job]]\nname = "{job}"\n{runs}'
    return text


def proxy_settings(folder: Path, proxy: int, gate: int, beats: int = 8092) -> str:
    """The part of nginx's configuration that operators are given, at other places, in one of its own. Beats go on to
    the port `beats`."""
    text = (SERVICE / "gate.conf").read_text(encoding="utf-8")
    changes = {"/var/log/nginx": f"{folder}/proxy", "/etc/nginx": f"{folder}/proxy",
               "/var/lib/gated-copies": f"{folder}/copies", "listen 443 ssl;": f"listen 127.0.0.1:{proxy} ssl;",
               "http://127.0.0.1:8080": f"http://127.0.0.1:{gate}",
               "http://127.0.0.1:8092": f"http://127.0.0.1:{beats}",
               "/var/lib/nginx": f"{folder}/proxy", "/var/lib/gated-page": f"{folder}/page",
               "/var/lib/gated-logs": f"{folder}/logs",
               "/usr/local/lib/gated/companions/page": str(SERVICE.parent / "page")}
    for old, new in changes.items():
        if old not in text:
            raise Differs(f"companions/service/gate.conf has no {old.strip()!r}")
        text = text.replace(old, new)
    kinds = ("client_body", "proxy", "fastcgi", "uwsgi", "scgi")
    elsewhere = "".join(f"{it}_temp_path {folder}/proxy/{it};\n" for it in kinds)
    return (f"{'user root;' if os.geteuid() == 0 else ''}\nworker_processes 4;\nworker_rlimit_nofile 8192;\n"
            f"pid {folder}/proxy/pid;\nerror_log {folder}/proxy/error.log;\nevents {{ worker_connections 4096; }}\n"
            f"http {{\n{elsewhere}{text}}}\n")


def make_proxy(folder: Path, proxy: int, gate: int, around: dict[str, str], beats: int = 8092) -> None:
    """The proxy's configuration, its passwords, and a certificate that all parts trust."""
    (folder / "proxy").mkdir()
    (folder / "proxy" / "nginx.conf").write_text(proxy_settings(folder, proxy, gate, beats), encoding="utf-8")
    coded = run(["openssl", "passwd", "-apr1", PASSWORD], around)
    names = sorted({*USERS.values(), FOLLOWER})
    (folder / "proxy" / "gate.passwords").write_text("".join(f"{it}:{coded}" for it in names), encoding="ascii")
    run(["openssl", "req", "-x509", "-newkey", "ec", "-pkeyopt", "ec_paramgen_curve:prime256v1", "-nodes", "-days", "2",
         "-keyout", str(folder / "proxy" / "gate.key"), "-out", str(folder / "proxy" / "gate.crt"),
         "-subj", "/CN=localhost", "-addext", "subjectAltName=IP:127.0.0.1"], around)
