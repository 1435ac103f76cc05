"""Jobs that are out for the gate, the workers or the next build, over two workers of one machine beside a gate.

The workers run as one user that isn't root, in a space of processes of their own: what ends all processes that it
can end ends none of the machine's. Each test has a queue of its own.
"""
from __future__ import annotations

import json
import os
import shutil
import signal
import socket
import subprocess
import tempfile
import time
import unittest
import urllib.error
import urllib.request
import uuid
from pathlib import Path
from typing import Any
from unittest import mock

from companions.tests.boxes import boxed
from companions.tests.day.stage import free_port
from companions.tests.forge import Origin
from companions.tests.service import PROGRAM, TOP, wait_for

NOBODY = 65534
PYTHON = "/usr/bin/python3"
PASSWORD = "the-workers-own"
# A disk of the workers' own, and how much of it jobs may take.
DISK, FREE, LOG = 96, 16, 1
# The queues, and so the tests.
NAMES = ("refs", "hooks", "drivers", "password", "gate", "port", "daemon", "trees", "disk", "rights", "files",
         "kill", "silence")
# Two workers as one user, which are started again whenever they end, as by systemd.
WORKERS = """
mount -t tmpfs -o size={disk}m,mode=755 none {folder}/state && chown {user}:{user} {folder}/state
for name in w1 w2; do
    while :; do
        setpriv --reuid={user} --regid={user} --clear-groups --bounding-set=-all --no-new-privs \\
            {python} -m companions.worker {folder}/companions.toml $name 2>>{folder}/logs/$name
        sleep 1
    done &
done
wait
"""
# A test keeps its job in a file of its change, so that changes don't conflict.
COMMAND = "sh jobs/$GATED_CHANGE"


def end(process: subprocess.Popen[bytes]) -> None:
    process.kill()
    process.wait()


@unittest.skipUnless(os.geteuid() == 0, "needs root, for another user, a disk and a space of processes")
@unittest.skipUnless(boxed(), "jobs have no sandboxes here")
class BesideAGate(unittest.TestCase):
    folder: Path
    port: int
    origin: Origin
    head: str
    gate: subprocess.Popen[bytes]
    workers: subprocess.Popen[bytes]

    @classmethod
    def setUpClass(cls) -> None:
        folder = tempfile.TemporaryDirectory()
        cls.addClassCleanup(folder.cleanup)
        cls.folder, cls.port = Path(folder.name).resolve(), free_port()
        cls.folder.chmod(0o755)
        safe = {"GIT_CONFIG_COUNT": "1", "GIT_CONFIG_KEY_0": "safe.directory", "GIT_CONFIG_VALUE_0": "*"}
        cls.enterClassContext(mock.patch.dict(os.environ, safe))
        for it in ("state", "logs"):
            (cls.folder / it).mkdir()
        cls.origin = Origin(cls.folder / "lib.git")
        cls.head = cls.origin.commit({"text": "as it was\n"})
        for it in NAMES:
            cls.origin.name(f"refs/heads/{it}", cls.head)
            cls.origin.first(it, cls.head)
        cls.write_settings()
        subprocess.run(["chown", "-R", f"{NOBODY}:{NOBODY}", str(cls.origin.folder)], check=True)
        subprocess.run([PROGRAM, "init", cls.folder / "gate.toml", cls.folder / "it.gate"], check=True)
        cls.gate = cls.serve()
        cls.addClassCleanup(lambda: end(cls.gate))
        cls.workers = cls.start_workers()

    @classmethod
    def write_settings(cls) -> None:
        gate = '[forge]\nbase = "https://forge/c/"\n'
        mine = (f'folder = "{cls.folder}/state"\n[gate]\nurl = "http://127.0.0.1:{cls.port}"\npause = 0.1\n'
                f'worker = {{ user = "worker", password = "{PASSWORD}" }}\n'
                f"[worker]\nlook = 1.0\nfree = {FREE << 20}\nspace = {FREE << 20}\n")
        for it in NAMES:
            gate += f'[[queue]]\nname = "{it}"\nwindow = 6\nfloor = 2\n'
        for it in NAMES:
            gate += f'[[project]]\nname = "{it}"\nqueue = "{it}"\n'
            mine += (f'[[project]]\nname = "{it}"\nqueue = "{it}"\nbranch = "{it}"\nforge = "acme/{it}"\n'
                     f'repository = "{cls.origin.folder}"\n')
            for job in ("unit", "docs"):
                gate += f'[[project.job]]\nname = "{job}"\n'
                mine += (f"[[project.job]]\nname = \"{job}\"\ncommand = '{COMMAND}'\nlimit = 60\n"
                         f"log_limit = {LOG << 20}\n")
        (cls.folder / "gate.toml").write_text(gate)
        (cls.folder / "companions.toml").write_text(mine)
        os.chown(cls.folder / "companions.toml", NOBODY, NOBODY)

    @classmethod
    def serve(cls) -> subprocess.Popen[bytes]:
        words: list[str | Path] = [PROGRAM, "serve", cls.folder / "gate.toml", cls.folder / "it.gate", "--port",
                                   str(cls.port), "--count", "1000000"]
        gate = subprocess.Popen(words, stdout=subprocess.DEVNULL, stderr=subprocess.DEVNULL)
        assert wait_for(lambda: gate.poll() is not None or answers(cls.port), 30.0)
        return gate

    @classmethod
    def start_workers(cls) -> subprocess.Popen[bytes]:
        # A checkout may lie where nobody else may look.
        code = cls.folder / "code"
        shutil.copytree(TOP / "companions", code / "companions", ignore=shutil.ignore_patterns("__pycache__"))
        text = WORKERS.format(folder=cls.folder, user=NOBODY, python=PYTHON, disk=DISK)
        words = ["unshare", "--pid", "--mount", "--fork", "--kill-child", "--mount-proc", "sh", "-c", text]
        around = {**os.environ, "PYTHONPATH": str(code), "HOME": "/nonexistent", "PYTHONDONTWRITEBYTECODE": "1"}
        workers = subprocess.Popen(words, cwd="/", env=around, start_new_session=True)
        cls.addClassCleanup(end, workers)
        return workers

    def setUp(self) -> None:
        self.queue = self.id().rpartition(".test_")[2].partition("_")[0]
        self.first = 100 * (1 + NAMES.index(self.queue))

    def post(self, door: str, **said: Any) -> dict[str, Any]:
        body = json.dumps({"id": str(uuid.uuid4()), **said}).encode()
        try:
            with urllib.request.urlopen(f"http://127.0.0.1:{self.port}/{door}", body, timeout=60) as answer:
                return dict(json.loads(answer.read()))
        except urllib.error.HTTPError as fault:
            return dict(json.loads(fault.read()))

    def get(self, path: str, timeout: float = 60.0) -> Any:
        with urllib.request.urlopen(f"http://127.0.0.1:{self.port}{path}", timeout=timeout) as answer:
            return json.loads(answer.read())

    def begin(self, number: int, script: str, others: dict[int, str] | None = None) -> int:
        """A change with a job, and those that it has of others, which is approved. Its order's number."""
        change = self.first + number
        self.origin.revision(change, 1, self.commit({change: script, **(others or {})}))
        self.post("forge", kind="revision", change=change, project=self.queue, revision=1, message="")
        return int(self.post("forge", kind="approved", change=change, revision=1)["order"])

    def blob(self, script: str) -> str:
        return self.origin.git("hash-object", "-w", "--stdin", given=script)

    def commit(self, jobs: dict[int, str]) -> str:
        """A commit with the jobs of changes."""
        files = "".join(f"100644 blob {self.blob(script)}\t{change}\n" for change, script in sorted(jobs.items()))
        tree = self.origin.git("mktree", given=files)
        lines = self.origin.git("ls-tree", self.head).splitlines()
        tree = self.origin.git("mktree", given="\n".join([*lines, f"040000 tree {tree}\tjobs"]) + "\n")
        return self.origin.git("commit-tree", tree, "-p", self.head, "-m", "A job")

    def ended(self, order: int) -> dict[str, str]:
        """The outcomes of an order's jobs, once both have ended."""
        def shown() -> dict[str, str]:
            return {it["job"]: it["outcome"] for it in self.get(f"/items/{order}")["builds"]}

        self.assertTrue(wait_for(lambda: len(shown()) == 2 and "running" not in shown().values(), 120.0), self.told())
        return shown()

    def run_job(self, number: int, script: str) -> dict[str, str]:
        return self.ended(self.begin(number, script))

    def leave(self, number: int) -> None:
        """Takes a change out, so that the next one isn't built on it."""
        self.post("forge", kind="closed", change=self.first + number, revision=1)
        for it in self.get("/orders"):
            if it["change"] == self.first + number:
                self.post("forge", kind="refused", order=it["order"])

    def told(self) -> str:
        """What the workers said."""
        return "".join(it.read_text(errors="replace") for it in sorted((self.folder / "logs").iterdir()))

    def logs(self, number: int) -> str:
        """What the jobs of a change said."""
        texts = [it.read_text(errors="replace") for it in sorted(self.state().glob("*/logs/*.log"))]
        return "".join(it for it in texts if f"change {self.first + number}, " in it.partition("\n")[0])

    def state(self) -> Path:
        """The workers' folders, as the first process of their space sees them, whose disk they are on."""
        return Path(f"/proc/{self.first_process()}/root{self.folder}/state/worker")

    def first_process(self) -> int:
        return children(self.workers.pid)[0]

    def restart(self) -> None:
        """Ends both workers, which are started again."""
        for it in children(self.first_process()):
            for worker in children(it):
                os.kill(worker, signal.SIGKILL)

    def is_unchanged(self, number: int, script: str = "sleep 1; [ \"$(cat text)\" = 'as it was' ]") -> None:
        """The next build isn't changed by what a job left, by whichever worker it is run."""
        self.assertEqual(self.run_job(number, script), {"unit": "success", "docs": "success"}, self.told())

    def test_refs_that_a_job_moves(self) -> None:
        """Change 2 fails alone. Something that the job of change 1 leaves moves its name to a commit with another job,
        again and again, in whichever repository the tree is one of."""
        moves = f"while :; do git update-ref refs/changes/{self.first + 2}/1 $it; done"
        order = self.begin(1, "it=$(git rev-parse HEAD); cd $(git rev-parse --git-common-dir)\n"
                              f'env -i PATH="$PATH" setsid sh -c "{moves}" >/dev/null 2>&1 </dev/null & sleep 1',
                           {self.first + 2: "true"})
        self.ended(order)
        self.leave(1)
        self.assertEqual(self.run_job(2, "exit 1"), {"unit": "failure", "docs": "failure"})

    def test_hooks_that_a_job_leaves(self) -> None:
        self.run_job(1, 'top=$(git rev-parse --git-common-dir); mkdir -p $top/hooks; sleep 1\n'
                        'printf "#!/bin/sh\\necho changed > text\\n" > $top/hooks/post-checkout\n'
                        'chmod 755 $top/hooks/post-checkout')
        self.leave(1)
        self.is_unchanged(2)

    def test_drivers_that_a_job_leaves(self) -> None:
        """Something that it leaves sets them again and again."""
        sets = ('while :; do echo "* filter=own merge=own" > info/attributes\n'
                'git config filter.own.smudge "echo changed; cat"; git config merge.own.driver false; done')
        self.run_job(1, "cd $(git rev-parse --git-common-dir); mkdir -p info\n"
                        f'env -i PATH="$PATH" setsid sh -c \'{sets}\' >/dev/null 2>&1 </dev/null & sleep 1')
        self.leave(1)
        self.is_unchanged(2)

    def test_password_and_a_success_that_a_job_tells(self) -> None:
        said = '{\\"id\\":\\"$(cat /proc/sys/kernel/random/uuid)\\",\\"kind\\":\\"result\\",\\"build\\":$GATED_BUILD,'
        outcomes = self.run_job(1, f"cat {self.folder}/companions.toml\n"
                                   f'curl -sS -m 5 -d "{said}\\"outcome\\":\\"success\\"}}" '
                                   f"http://127.0.0.1:{self.port}/worker; exit 1")
        self.assertEqual(outcomes, {"unit": "failure", "docs": "failure"})
        self.assertNotIn(PASSWORD, self.logs(1))
        self.assertIn("Failed to connect", self.logs(1))

    def test_gate_that_a_job_tells_what_it_likes(self) -> None:
        said = '{\\"id\\":\\"$(cat /proc/sys/kernel/random/uuid)\\",\\"kind\\":\\"closed\\",\\"revision\\":1,'
        other = self.first + 2
        self.post("forge", kind="revision", change=other, project=self.queue, revision=1, message="")
        self.run_job(1, f'curl -sS -m 5 -d "{said}\\"change\\":{other}}}" http://127.0.0.1:{self.port}/forge')
        self.assertEqual(self.get(f"/changes/{other}")["state"], "open")
        self.assertIn("Failed to connect", self.logs(1))

    def test_port_that_a_job_takes_while_the_gate_restarts(self) -> None:
        """The other worker asks for builds meanwhile, and would tell the job its password."""
        takes = f"""exec python3 - <<'END'
import socket, time
end, server = time.monotonic() + 8, None
print("begun", flush=True)
while server is None and time.monotonic() < end:
    try:
        server = socket.create_server(("127.0.0.1", {self.port}))
    except OSError:
        time.sleep(0.05)
print("taken" if server else "not taken", flush=True)
while server and time.monotonic() < end:
    server.settimeout(0.2)
    try:
        print(server.accept()[0].recv(4000).decode(), flush=True)
    except OSError:
        pass
END"""
        order = self.begin(1, takes)
        self.assertTrue(wait_for(lambda: "begun" in self.logs(1), 60.0))
        type(self).gate.kill()
        self.gate.wait()
        time.sleep(3)
        self.assertTrue(wait_for(lambda: is_free(self.port) or "Authorization" in self.logs(1), 30.0))
        self.assertNotIn("Authorization", self.logs(1))
        type(self).gate = self.serve()
        self.ended(order)
        self.assertNotIn("Authorization", self.logs(1))

    def test_daemon_that_a_job_starts(self) -> None:
        port = free_port()
        serves = f"import socket, time; it = socket.create_server((\\\"127.0.0.1\\\", {port})); time.sleep(600)"
        self.run_job(1, f'env -i setsid python3 -c "{serves}" >/dev/null 2>&1 </dev/null & sleep 1')
        self.leave(1)
        knocks = f"import socket; socket.create_connection((\\\"127.0.0.1\\\", {port}))"
        self.is_unchanged(2, f'! python3 -c "{knocks}"')
        self.assertTrue(is_free(port))

    def test_trees_of_another_worker_that_a_job_writes(self) -> None:
        """Its two jobs run at once, by a worker each: `unit` changes what `docs` has."""
        changes = ("end=$(($(date +%s) + 6)); while [ $(date +%s) -lt $end ]; do\n"
                   f"for it in $(find {self.folder}/state/worker -name text 2>/dev/null); do\n"
                   "case $it in $GATED_TREES/*) ;; *) echo changed > $it; esac; done; sleep 0.1; done")
        stays = "sleep 4; grep -qx 'as it was' text"
        outcomes = self.run_job(1, f"if [ $GATED_JOB = unit ]; then {changes}\nelse {stays}; fi")
        self.assertEqual(outcomes, {"unit": "success", "docs": "success"})

    def test_disk_that_a_job_fills_with_its_log(self) -> None:
        order = self.begin(1, f"[ $GATED_JOB = docs ] || head -c {4 * DISK}M /dev/zero | tr '\\0' a; sleep 2")
        self.assertEqual(self.ended(order), {"unit": "success", "docs": "success"}, self.told())
        self.assertIn(f"the log ends here, at log_limit ({LOG << 20} bytes)", self.logs(1))
        self.leave(1)
        self.is_unchanged(2)

    def test_rights_that_a_job_takes_away(self) -> None:
        """Those of its trees, and of all folders above them."""
        self.run_job(1, "sleep 1; mkdir -p closed/it; chmod 0 closed; it=$GATED_TREES; above=$(dirname $it)\n"
                        "chmod 0 $(dirname $above) $above $it; true")
        self.leave(1)
        self.is_unchanged(2)

    def test_files_of_root_that_a_job_leaves(self) -> None:
        """As by a container. They are set aside, and the workers say where."""
        order = self.begin(1, "mkdir -p left; echo begun; sleep 5")
        self.assertTrue(wait_for(lambda: self.logs(1).count("\nbegun") == 2, 60.0))
        for it in self.state().glob("w*/trees/*/**/left"):
            (it / "roots").mkdir(mode=0o700)
            (it / "roots/file").touch()
        self.ended(order)
        self.leave(1)
        self.restart()
        self.is_unchanged(2)
        self.assertEqual(self.told().count("can't be removed, and is set aside as "), 2)

    def test_kill_of_all_processes(self) -> None:
        """It ends each process that it may end: the job's own."""
        order = self.begin(1, "[ $GATED_JOB = docs ] || kill -9 -1; sleep 3")
        self.assertEqual(self.ended(order)["docs"], "success", self.told())
        self.leave(1)
        self.is_unchanged(2)

    def test_silence_at_the_gate_s_port(self) -> None:
        """Who connects and says nothing holds up all others."""
        knocks = (f"import socket, time; it = socket.create_connection((\\\"127.0.0.1\\\", {self.port})); "
                  "print(\\\"connected\\\", flush=True); time.sleep(8)")
        order = self.begin(1, f'echo begun; python3 -c "{knocks}"; sleep 3')
        self.assertTrue(wait_for(lambda: "begun" in self.logs(1), 60.0))
        time.sleep(2)
        self.get("/orders", timeout=4.0)
        self.ended(order)
        self.assertIn("ConnectionRefusedError", self.logs(1))


def children(process: int) -> list[int]:
    return [int(it) for it in Path(f"/proc/{process}/task/{process}/children").read_text().split()]


def answers(port: int) -> bool:
    try:
        with urllib.request.urlopen(f"http://127.0.0.1:{port}/status", timeout=5):
            return True
    except OSError:
        return False


def is_free(port: int) -> bool:
    """Whether nobody listens at a port."""
    with socket.socket() as trial:
        return trial.connect_ex(("127.0.0.1", port)) != 0


if __name__ == "__main__":
    unittest.main()
