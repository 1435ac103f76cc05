"""What has to hold on the stage once each command of the page was run: run there by stage.sh."""
from __future__ import annotations

import grp
import hashlib
import hmac
import subprocess
import time
import tomllib
import uuid
from pathlib import Path

GATE_FILE = Path("/var/lib/gated/gate.db")
PATHS = ("forge", "orders", "worker", "builds/1", "status", "running", "history/core", "changes/301", "items/1",
         "deliveries")
PEOPLE = {"status", "running", "history/core", "changes/301", "items/1"}
MAY = {"forge": {"forge", "orders", "builds/1", "deliveries"} | PEOPLE, "worker": {"worker", "builds/1", "changes/301"},
       "watch": {"worker", "builds/1", "deliveries"} | PEOPLE, "standby": {"deliveries"} | PEOPLE}


def ran(*words: str) -> subprocess.CompletedProcess[str]:
    return subprocess.run(words, capture_output=True, text=True, check=False)


def told(says: bool, what: str) -> None:
    print(f"{'ok' if says else 'NOT OK'}: {what}", flush=True)


def passwords() -> dict[str, str]:
    lander = tomllib.loads(Path("/etc/gated/companions.toml").read_text())["gate"]
    worker = tomllib.loads(Path("/etc/gated/worker.toml").read_text())["gate"]
    netrc = Path("/var/lib/gated/.netrc").read_text().split()
    return {"forge": lander["forge"]["password"], "watch": lander["people"]["password"],
            "worker": worker["worker"]["password"], "standby": netrc[-1]}


def curl(path: str, account: str | None, said: str | None = None) -> tuple[int, str]:
    """The status and the content of an answer behind the proxy."""
    words = ["curl", "-s", "--max-time", "60", "-w", "\n%{http_code}", f"https://gate.example/{path}"]
    content, _, status = ran(*words, *(["-u", account] if account else []),
                             *(["-d", said] if said else [])).stdout.rpartition("\n")
    return int(status), content


def check_proxy() -> None:
    for name, password in passwords().items():
        for path in PATHS:
            said = "{}" if path in ("forge", "worker") else None
            status, content = curl(path, f"{name}:{password}", said)
            passed = status not in (401, 403) and "<html>" not in content
            told(passed == (path in MAY[name]), f"{name} at /{path}: {status}")
        told(curl("status", f"{name}:wrong")[0] == (403 if name == "worker" else 401), f"{name} with a wrong password")
    for path in PATHS:
        told(curl(path, None)[0] == 401, f"nobody at /{path}")
    alice = f"alice:{Path('/root/alice.password').read_text().strip()}"
    told(curl("status", alice)[0] == 200 and curl("orders", alice)[0] == 403, "a person sees what people may")
    told(curl("elsewhere", f"forge:{passwords()['forge']}")[0] == 404, "another path")


def check_hooks() -> None:
    """Hooks reach the adapter by the proxy, without a name, and are believed where they are signed."""
    secret = tomllib.loads(Path("/etc/gated/companions.toml").read_text())["adapter"]["secret"]
    for by, status in ((secret, 200), ("somebody else", 403)):
        signature = hmac.new(by.encode(), b"{}", hashlib.sha256).hexdigest()
        words = ["curl", "-s", "-w", " %{http_code}", "-d", "{}", "-H", f"X-Gitea-Signature: {signature}"]
        said = ran(*words, "https://gate.example/hook").stdout
        told(said.endswith(f" {status}") and "hook" in said, f"a hook: {said}")


def check_log() -> None:
    """Of a worker's answers of status 404 only E12 is left out of the proxy's log."""
    account = f"worker:{passwords()['worker']}"
    ids = [str(uuid.uuid4()) for _ in range(2)]
    idle = curl("worker", account, f'{{"id":"{ids[0]}","kind":"take","worker":"me"}}')
    unknown = curl("worker", account, f'{{"id":"{ids[1]}","kind":"result","build":999,"outcome":"lost"}}')
    told(idle == (404, '{"code":"E12","error":"idle"}'), f"nothing to build: {idle}")
    told(unknown == (404, '{"code":"E11","error":"unknown-build"}'), f"no such build: {unknown}")
    log = Path("/var/log/nginx/gate.log")
    lines = log.read_text()
    told(ids[0] not in lines and ids[1] in lines, "E12 isn't in the log, E11 is")
    told(ran("stat", "-c", "%a %U %G", str(log)).stdout == "640 www-data adm\n", "who may read the log")


def check_figures() -> None:
    """Who may read the figures, as the node exporter, may read nothing else; others can't read them."""
    figures, group = "/var/lib/gated-figures/gated.prom", grp.getgrnam("gated-figures").gr_gid
    cases: list[tuple[list[int], str, bool]] = [
        ([group], figures, True), ([], figures, False), ([group], "/etc/gated/companions.toml", False),
        ([group], "/var/lib/gated-companions/watch/notes.db", False)]
    for groups, name, may in cases:
        read = subprocess.run(["cat", name], capture_output=True, user="nobody", group="nogroup", extra_groups=groups,
                              check=False)
        told(Path(name).exists() and (read.returncode == 0) == may, f"{name} by a user of the groups {groups}")


def check_ports() -> None:
    """Who reaches the gate, the adapter and the watch on a machine that all share."""
    for port, user, reaches in ((8080, "root", True), (8080, "www-data", True), (8080, "gated-worker", False),
                                (8080, "gated-companions", False), (8090, "www-data", True), (8090, "root", False),
                                (8090, "gated-worker", False), (8092, "www-data", True), (8092, "gated-worker", False)):
        knocked = ran("runuser", "-u", user, "--", "curl", "--silent", "--max-time", "20", "--output", "/dev/null",
                      f"http://127.0.0.1:{port}/status")
        told((knocked.returncode == 0) == reaches and knocked.returncode in (0, 7),
             f"{user} at port {port}: {knocked.returncode}")


def check_missing_file() -> None:
    """A start without the file ends with O4, however often, and makes none."""
    ran("systemctl", "stop", "gated")
    for it in GATE_FILE.parent.glob("gate.db*"):
        it.rename(it.with_name(f"kept-{it.name}"))
    for _ in range(2):
        ran("systemctl", "start", "gated")
        time.sleep(4)
        told(ran("systemctl", "is-active", "gated").returncode != 0, "a gate without its file isn't up")
        told(ran("journalctl", "-u", "gated", "-n", "1").stdout == "gated: O4 unavailable\n", "it ends with O4")
        told(not GATE_FILE.exists(), "no file was made")


def check_units() -> None:
    units = sorted(str(it) for it in Path("/usr/local/lib/systemd/system").glob("gated*"))
    verified = ran("systemd-analyze", "--man=no", "verify", *(it.replace("@.", "@w1.") for it in units))
    told(len(units) == 11 and verified.returncode == 0 and verified.stdout + verified.stderr == "",
         f"units are well: {verified.stdout}{verified.stderr}")
    told(all(" init " not in Path(it).read_text() for it in units), "no unit makes a file")


for check in (check_proxy, check_hooks, check_ports, check_log, check_figures, check_units, check_missing_file):
    check()
print("all was checked")
