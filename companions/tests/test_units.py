"""The units of companions/service: how much each may do, and that a worker's jobs can have a sandbox under its own."""
from __future__ import annotations

import os
import re
import shutil
import subprocess
import sys
import unittest
from pathlib import Path

from companions.moments import BOOT
from companions.tests.service import SERVICE

UNITS = {it.name.removesuffix(".service").rstrip("@"): it for it in (SERVICE / "systemd").glob("*.service")}
# What each may be exposed to at most, in tenths, as `systemd-analyze security` reckons. A worker runs foreign code, and
# its jobs have sandboxes of their own, which take rights that the others don't have.
MOST = {"gated": 19, "gated-lander": 19, "gated-adapter": 19, "gated-watch": 19, "gated-follow": 19, "gated-backup": 19,
        "gated-copies": 19, "gated-fence": 19, "gated-worker": 37, "gated-ci": 37}
# What covers parts of /proc, or hides its processes.
COVERS = ("ProtectProc", "ProcSubset", "ProtectKernelTunables", "ProtectKernelLogs", "ProtectHostname")
# What limits a worker's unit. Another limit has to be tried below too.
WORKERS = {"NoNewPrivileges", "CapabilityBoundingSet", "ProtectSystem", "ProtectHome", "PrivateTmp", "PrivateDevices",
           "DevicePolicy", "ProtectClock", "ProtectControlGroups", "ProtectKernelModules", "RestrictRealtime",
           "RestrictAddressFamilies", "SystemCallFilter", "SystemCallErrorNumber", "MemoryMax"}
# The calls by which a sandbox is made.
CALLS = {"clone", "clone3", "unshare", "setns", "mount", "umount2", "pivot_root", "sethostname", "prctl", "capset",
         "seccomp", "socket", "setresuid", "setresgid", "setgroups"}
# The mounts of a worker's unit, made by hand: the system is read-only, devices, temporary files and homes are its own.
MOUNTS = """
set -e
mount --make-rprivate /
mount -o remount,bind,ro /
mount -t tmpfs -o mode=755 none /dev/shm
mkdir /dev/shm/dev
for it in null zero full random urandom tty; do
  touch /dev/shm/dev/$it && mount --bind /dev/$it /dev/shm/dev/$it
done
mount --rbind /dev/shm/dev /dev
mount -t tmpfs -o mode=000 none /home
mount -t tmpfs -o mode=1777 none /tmp
mount -t tmpfs -o mode=1777 none /var/tmp
[ ! -d /sys/fs/cgroup ] || mount -o bind,ro /sys/fs/cgroup /sys/fs/cgroup
[ ! -d /lib/modules ] || mount -t tmpfs -o mode=000 none /lib/modules
"""
LIMITS = ("setpriv", "--reuid=65534", "--regid=65534", "--clear-groups", "--bounding-set=-all", "--inh-caps=-all",
          "--no-new-privs")
INSIDE = 'test "$(cat /proc/self/comm)" = cat && test "$(ls -d /proc/[0-9]* | wc -l)" -lt 9 && echo inside'
SANDBOXES = {
    "unshare": ("unshare", "--user", "--map-root-user", "--mount", "--net", "--ipc", "--uts", "--pid", "--fork",
                "--mount-proc", "sh", "-c", INSIDE),
    "bwrap": ("bwrap", "--unshare-all", "--die-with-parent", "--ro-bind", "/", "/", "--proc", "/proc", "--dev", "/dev",
              "--tmpfs", "/tmp", "sh", "-c", INSIDE),
}


def analyze(*words: str | Path) -> str:
    return subprocess.run(["systemd-analyze", "--no-pager", *words], capture_output=True, text=True, check=True).stdout


def says(unit: str) -> list[tuple[str, str]]:
    """The members and values of a unit, in their order."""
    lines = UNITS[unit].read_text().replace("\\\n", " ").splitlines()
    return [(key, value) for key, equals, value in (it.partition("=") for it in lines) if equals and key[0] != "#"]


def calls_of(group: str) -> set[str]:
    """The system calls of a group of systemd's, with those of the groups in it."""
    found = set()
    for it in analyze("syscall-filter", group).splitlines()[1:]:
        name = it.strip()
        if name.startswith("@"):
            found |= calls_of(name)
        elif name and not name.startswith("#"):
            found.add(name)
    return found


def start_sandbox(kind: str, more: str = "") -> str:
    """What is printed inside a sandbox that is started under a worker's mounts and limits, and others."""
    script = f"{MOUNTS}{more}\nexec \"$@\""
    words = ("unshare", "--mount", "--net", "--ipc", "--pid", "--fork", "--mount-proc", "sh", "-c", script, "sh")
    ran = subprocess.run([*words, *LIMITS, *SANDBOXES[kind]], capture_output=True, text=True, check=False, cwd="/",
                         timeout=60)
    return ran.stdout + ran.stderr


class Exposure(unittest.TestCase):
    def test_no_unit_is_exposed_to_more_than_it_needs(self) -> None:
        self.assertEqual(set(UNITS), set(MOST))
        for unit, most in MOST.items():
            told = analyze("security", "--offline=true", UNITS[unit])
            found = re.search(r"Overall exposure level for .*: ([0-9.]+) ", told)
            assert found is not None, told
            self.assertLessEqual(float(found[1]), most / 10, told)

    def test_nothing_covers_a_workers_proc(self) -> None:
        members = dict(says("gated-worker"))
        limits = re.compile("Protect|Restrict|Private|System|NoNew|Cap|Device|Lock|Memory|Remove|IP|Inaccessible")
        self.assertLessEqual({it for it in members if limits.match(it)}, WORKERS)
        self.assertEqual([it for it in (*COVERS, "RestrictNamespaces") if it in members], [])
        self.assertEqual({it for it in COVERS if dict(says("gated")).get(it) not in (None, "no")}, set(COVERS))

    def test_a_ci_that_runs_commands_too_has_the_limits_of_a_worker(self) -> None:
        own = [it for it in says("gated-ci") if it[0] not in ("Description", "After", "ConditionPathExists", "User",
                                                              "StateDirectory", "ExecStart")]
        others = [it for it in says("gated-worker") if it[0] not in ("Description", "After", "User", "StateDirectory",
                                                                     "ExecStart")]
        self.assertEqual(own, others)

    def test_a_worker_has_the_calls_that_a_sandbox_takes(self) -> None:
        (said,) = [value for key, value in says("gated-worker") if key == "SystemCallFilter"]
        self.assertTrue(said.startswith("~@"))
        denied = set[str]().union(*(calls_of(it) for it in said[1:].split()))
        self.assertIn("reboot", denied)
        self.assertEqual(denied & CALLS, set())


@unittest.skipUnless(os.geteuid() == 0, "the mounts of a unit are made by root")
class Moments(unittest.TestCase):
    def moment(self, subset: str) -> str:
        """What reads the boot's id prints under a /proc of its own."""
        code = "from companions.moments import Moment; print(Moment.now().boot == sys.argv[1])"
        script = f'mount -t proc -o {subset} proc /proc && exec "$@"'
        words = ("unshare", "--mount", "--pid", "--fork", "--mount-proc", "sh", "-c", script, "sh", sys.executable,
                 "-c", f"import sys; {code}", BOOT.read_text().strip())
        ran = subprocess.run(words, capture_output=True, text=True, check=False, cwd=SERVICE.parents[1], timeout=60)
        return ran.stdout + ran.stderr

    def test_each_that_measures_ages_can_read_the_boots_id(self) -> None:
        self.assertIn("No such file", self.moment("subset=pid"))
        for unit in ("gated-adapter", "gated-lander", "gated-watch"):
            subset = dict(says(unit)).get("ProcSubset", "all")
            self.assertEqual(self.moment("rw" if subset == "all" else f"subset={subset}"), "True\n", unit)


@unittest.skipUnless(os.geteuid() == 0, "the mounts of a unit are made by root")
class Sandboxes(unittest.TestCase):
    def test_a_sandbox_under_a_workers_own(self) -> None:
        for kind, words in SANDBOXES.items():
            if shutil.which(words[0]) is None:
                print(f"{kind} isn't there: not tried", flush=True)
                continue
            self.assertEqual(start_sandbox(kind), "inside\n", kind)

    def test_a_covered_proc_would_keep_it_from_its_own(self) -> None:
        """As ProtectKernelTunables covers it: this is why a worker hasn't got that."""
        for kind, words in SANDBOXES.items():
            if shutil.which(words[0]) is not None:
                told = start_sandbox(kind, "mount -o bind,ro /proc/sys /proc/sys")
                self.assertIn("proc", told)
                self.assertNotIn("inside", told)


if __name__ == "__main__":
    unittest.main()
