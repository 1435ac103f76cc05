"""Jobs that are out for the next build, the worker or the machine: the next build isn't changed by any of them."""
from __future__ import annotations

import os
import subprocess
import unittest
from pathlib import Path
from typing import Any
from unittest import mock

from companions import aside, room, sandbox, settings, worker
from companions.reader import SettingsFault
from companions.tests.boxes import boxed
from companions.tests.worker_case import PretendClock, WorkerCase

IS_OFF = ("worker w1: worker.sandbox is false: a job can read all that the worker reads, its password too, and change "
          "what later builds are\n")


class Repositories(WorkerCase):
    """A job finds no repository but its own by git."""
    # Where git keeps what the work trees of a repository share.
    shared = 'top=$(git rev-parse --git-common-dir); '

    def after(self, first: str, then: str = "cat text own") -> str:
        """The log of build 8, of change 104, whose job runs `then`, after one of change 103 has run `first`."""
        self.worker = self.start(f'case $GATED_CHANGE in 103) {first};; *) {then};; esac')
        self.gate.left.append({**self.gate.left[0], "build": 8, "change": 104})
        self.worker.turn()
        self.worker.turn()
        self.assertEqual([it["outcome"] for it in self.gate.results], ["success", "success"], self.log())
        [log] = (self.folder / "state/worker/w1/logs").glob("*-8.log")
        return log.read_text().partition("\n\n")[2]

    def test_a_change_s_name_that_a_job_moves_is_moved_for_no_other_build(self) -> None:
        moved = "git update-ref refs/changes/104/1 HEAD; git update-ref refs/heads/main HEAD"
        self.assertTrue(self.after(moved).startswith("0\n104ended: success"))

    def test_hooks_of_one_job_are_run_for_no_other_build(self) -> None:
        hooks = self.shared + ('mkdir -p $top/hooks; printf "#!/bin/sh\\necho 1 > text\\n" > $top/hooks/post-checkout; '
                               'chmod 755 $top/hooks/post-checkout; git config core.hooksPath $top/hooks')
        self.assertTrue(self.after(hooks).startswith("0\n104ended: success"))

    def test_filters_and_attributes_of_one_job_are_no_other_build_s(self) -> None:
        drivers = self.shared + ('git config filter.own.smudge "echo 1; cat"; git config core.autocrlf true; '
                                 'mkdir -p $top/info; echo "* filter=own merge=ours" > $top/info/attributes')
        self.assertTrue(self.after(drivers).startswith("0\n104ended: success"))

    def test_a_past_that_one_job_cuts_off_is_cut_off_for_no_other_build(self) -> None:
        """Without a common past nothing can be merged."""
        self.land()
        self.assertTrue(self.after(self.shared + "git rev-list HEAD | grep -v $(git rev-parse HEAD) > $top/shallow")
                        .startswith("1\n104ended: success"))

    def test_a_lock_that_a_job_leaves_locks_no_other_build_out(self) -> None:
        locks = "touch $top/packed-refs.lock; mkdir -p $top/refs/changes/104; touch $top/refs/changes/104/1.lock"
        self.assertTrue(self.after(self.shared + locks).startswith("0\n104ended: success"))

    def land(self) -> None:
        """A landing, above which builds 7 and 8 stand."""
        self.origin.land("core", 1, {"text": "1\n"})
        self.gate.left = [self.reply(7, 103, after=1)]

    def test_a_job_has_its_commit_and_its_past_and_no_other_name(self) -> None:
        self.worker = self.start("git log --format=%s; git fsck --connectivity-only; git for-each-ref; git status -s")
        self.worker.turn()
        log = self.log().partition("\n\n")[2].splitlines()
        self.assertEqual(log[:-1], ["Land change 103: A commit", "A commit", "A commit"])


@unittest.skipUnless(boxed(), "the kernel refuses sandboxes, or bubblewrap is missing")
class Sandboxes(WorkerCase):
    """Each of these jobs reached what it is out for before jobs had sandboxes."""

    def said(self, command: str, more: str = "") -> list[str]:
        """What a job says, up to its end, which is a success. Another worker has a folder too."""
        (self.folder / "state/worker/w2").mkdir(exist_ok=True)
        self.more = more
        self.worker = self.start(command)
        self.worker.turn()
        self.assertEqual([it["outcome"] for it in self.gate.results], ["success"], self.log())
        return self.log().partition("\n\n")[2].splitlines()[:-1]

    def test_the_password_and_the_folders_of_the_companions_are_not_there(self) -> None:
        self.assertEqual(self.said(f"cat {self.folder}/companions.toml 2>&- | wc -c; ls {self.folder}/state/worker/w1; "
                                   f"ls {self.folder}/state/worker {self.folder}/state"),
                         ["0", "mirrors", "trees", f"{self.folder}/state:", "worker", "",
                          f"{self.folder}/state/worker:", "w1"])

    def test_settings_that_are_among_the_machine_s_files_are_hidden(self) -> None:
        """Where nothing else hides them."""
        file = Path("/usr/local/lib/gated-test-settings.toml")
        if not os.access(file.parent, os.W_OK):
            self.skipTest(f"{file.parent} can't be written")
        self.addCleanup(file.unlink)
        file.write_text(self.write_settings(f"cat {file}; wc -c < {file}").read_text())
        self.worker = worker.Worker(settings.read(file), "w1")
        self.worker.begin()
        self.worker.turn()
        self.assertEqual(self.log().partition("\n\n")[2].splitlines()[0], "0")

    def test_the_environment_is_made_anew(self) -> None:
        with mock.patch.dict(os.environ, {"SECRET": "of the worker"}):
            said = self.said("env | sed 's/=.*//' | grep -v '^GATED_' | sort")
        self.assertEqual([it for it in said if it not in ("PWD", "OLDPWD", "SHLVL", "_")], ["HOME", "LANG", "PATH"])

    def test_the_gate_is_not_reached(self) -> None:
        port = self.standin.url.rpartition(":")[2]
        knock = f"python3 -c 'import socket; socket.create_connection((\"127.0.0.1\", {port}), 5)'"
        self.assertIn("ConnectionRefusedError: [Errno 111] Connection refused", self.said(f"{knock}; true"))
        self.gate.left = [self.reply(8, 103)]
        self.gate.results.clear()
        self.more = "network = true"
        self.worker = self.start(knock)
        self.worker.turn()
        self.assertEqual([it["outcome"] for it in self.gate.results], ["success"])

    def test_nothing_that_a_job_starts_survives_it(self) -> None:
        """It has neither the job's group nor its mark."""
        mark = f"left{self.folder}".replace("/", "-")
        left = f"env -i setsid python3 -c 'import time; time.sleep(1000)' {mark} & env -i setsid -f sleep 0.01"
        self.said(f"{left}; ps ax | grep -c {mark}")
        found = [it for it in Path("/proc").glob("[0-9]*/cmdline") if mark.encode() in content(it)]
        self.assertEqual(found, [])

    def test_no_process_of_the_machine_can_be_killed(self) -> None:
        other = subprocess.Popen(["sleep", "1000"])
        self.addCleanup(other.wait)
        self.addCleanup(other.kill)
        self.worker = self.start(f"kill -9 {other.pid}; kill -9 {os.getpid()}; exit 3")
        self.worker.turn()
        self.assertEqual(self.outcomes(), [(7, "failure")])
        self.assertIsNone(other.poll())

    def test_what_belongs_to_the_machine_is_only_read(self) -> None:
        commands = ("touch /usr/here", "touch /etc/here", "touch /dev/here",
                    "touch $(cat .git/objects/info/alternates)/here", "chmod 0 $(cat .git/objects/info/alternates)",
                    "mount -o remount,rw /", "umount /tmp")
        self.said(f"touch {self.folder}/state/here; " + "; ".join(f"if {it}; then exit 1; fi" for it in commands))
        self.assertFalse((self.folder / "state/here").exists())

    def test_a_job_has_folders_of_its_own(self) -> None:
        self.assertEqual(self.said("for it in /tmp /var/tmp /run /dev/shm ~; do echo 1 > $it/here; cat $it/here; done; "
                                   "hostname; ls /home /root"), [*5 * ["1"], "job", "/home:", "", "/root:"])
        self.gate.left = [self.reply(8, 104)]
        self.worker = self.start("! ls /tmp/here /var/tmp/here /run/here /dev/shm/here ~/here")
        self.worker.turn()
        self.assertEqual([it["outcome"] for it in self.gate.results], ["success", "success"])

    def test_folders_that_the_settings_name_are_given(self) -> None:
        for name in ("cache", "tools"):
            (self.folder / name).mkdir()
            (self.folder / name / "it").write_text(f"{name}\n")
        cache, tools = self.folder / "cache", self.folder / "tools"
        said = self.said(f"cat {cache}/it {tools}/it; echo 1 > {cache}/new; ! touch {tools}/new",
                         f'read = ["{tools}"]\nwrite = ["{cache}"]')
        self.assertEqual(said[:2], ["cache", "tools"])
        self.assertEqual(sorted(it.name for it in self.folder.glob("*/new")), ["new"])
        self.assertEqual((cache / "new").read_text(), "1\n")

    def test_no_folder_with_the_settings_is_given(self) -> None:
        for name in (self.folder, self.folder / "state", self.folder / "state/worker/w1", "/", "tmp"):
            self.more = f'write = ["{name}"]'
            with self.subTest(name), self.assertRaisesRegex(SettingsFault, "no job may have it|isn't the whole name"):
                self.start()

    def test_a_folder_that_a_job_turns_into_another_is_given_to_nobody(self) -> None:
        """It is within one that the job may write."""
        cache = self.folder / "cache"
        (cache / "own").mkdir(parents=True)
        self.clock, self.room = PretendClock(), "patience = 0.5"
        self.said(f"rmdir {cache}/own; ln -s {self.folder}/state {cache}/own", f'write = ["{cache}"]')
        self.more = f'write = ["{cache}/own"]'
        (cache / "own").rename(cache / "turned")
        (cache / "own").mkdir()
        self.worker = self.start(f"ls {cache}/own")
        (cache / "own").rmdir()
        (cache / "turned").rename(cache / "own")
        self.gate.left = [self.reply(8, 104)]
        self.worker.turn()
        self.assertIn(f"build 8: lost, {cache}/own leads to the settings or the folder of the companions: no job may "
                      "have it\n", self.errors.getvalue())

    def test_a_status_of_the_job_is_a_failure_and_one_of_the_sandbox_a_loss(self) -> None:
        self.clock, self.room = PretendClock(), "patience = 0.5"
        self.worker = self.start("exit 1")
        self.worker.turn()
        self.more = f'read = ["{self.folder}/gone"]'
        self.worker = self.start()
        self.gate.left = [self.reply(8, 104)]
        self.worker.turn()
        self.assertEqual(self.outcomes(), [(7, "failure"), (8, "lost")])
        self.assertIn(f"build 8: lost, its sandbox didn't begin, or was killed: bwrap: Can't find source path "
                      f"{self.folder}/gone: No such file or directory\n", self.errors.getvalue())

    def test_a_job_that_hangs_ends_with_its_sandbox(self) -> None:
        mark = f"hangs{self.folder}".replace("/", "-")
        self.worker = self.start(f"setsid python3 -c 'import time; time.sleep(1000)' {mark}", limit=1)
        self.worker.turn()
        self.assertEqual(self.outcomes(), [(7, "failure")])
        self.assertEqual([it for it in Path("/proc").glob("[0-9]*/cmdline") if mark.encode() in content(it)], [])


class Leftovers(WorkerCase):
    """What a build leaves on disk holds up no other one."""

    def test_folders_that_are_very_deep_are_removed(self) -> None:
        deep = "at=0; while [ $at -lt 1500 ]; do mkdir d && cd d || exit 1; at=$((at + 1)); done"
        self.worker = self.start(f"if [ $GATED_CHANGE = 103 ]; then {deep}; fi", limit=600.0)
        self.gate.left.append(self.reply(8, 104))
        self.worker.turn()
        self.worker.turn()
        self.assertEqual(self.outcomes(), [(7, "success"), (8, "success")])
        self.assertEqual(list((self.folder / "state/worker/w1").glob("trees/*")), [])
        self.assertFalse((self.folder / "state/worker/w1/aside").exists())

    def test_what_cannot_be_removed_is_set_aside_and_said(self) -> None:
        self.gate.left.append(self.reply(8, 104))
        why = "rm: cannot remove 'x': Operation not permitted"
        with mock.patch.object(aside, "removed", lambda place: why):
            self.worker.turn()
            self.worker.turn()
            self.assertEqual(self.outcomes(), [(7, "success"), (8, "success")])
            places = sorted((self.folder / "state/worker/w1").resolve().glob("aside/*"))
            said = {f"worker w1: {it.parents[1]}/trees/{it.name[:-2]} can't be removed, and is set aside as {it}: {why}"
                    for it in places}
            self.assertEqual(len(said), 2)
            self.assertLessEqual(said, set(self.errors.getvalue().splitlines()))
            self.start()
            self.assertIn(f"worker w1: 2 folders in {places[0].parent} can't be removed: remove them as root\n",
                          self.errors.getvalue())
        self.start()
        self.assertEqual(list(places[0].parent.iterdir()), [])

    def test_a_job_takes_rights_away_from_a_worker_that_is_not_root(self) -> None:
        """Trees without any right are removed; what is another user's is set aside."""
        self.folder.chmod(0o755)
        place, source = self.folder / "w1", Path(aside.__file__).read_text()
        for name in ("trees/closed/trees/lib", "trees/roots/trees/lib/etc"):
            (place / name).mkdir(parents=True)
            (place / name / "file").touch()
        clear = f"{source}\nprint(clear(Path('{place}/trees'), Path('{place}/aside')))"
        user: dict[str, Any] = {"user": 65534, "group": 65534} if os.geteuid() == 0 else {}
        if user:
            subprocess.run(["chown", "-R", "65534:65534", str(place)], check=True)
            subprocess.run(["chown", "-R", "0:0", str(place / "trees/roots/trees/lib/etc")], check=True)
        for name in ("trees/closed/trees/lib", "trees/closed/trees", "trees/closed", "trees"):
            (place / name).chmod(0)
        ran = subprocess.run(["python3", "-c", clear], cwd="/", capture_output=True, text=True, check=False, **user)
        self.assertEqual(ran.stderr, "")
        self.assertFalse((place / "trees/closed").exists())
        if user:
            self.assertIn("can't be removed, and is set aside as ", ran.stdout)
            self.assertTrue((place / "aside/roots-1/trees/lib/etc/file").exists())


class Starting(WorkerCase):
    def test_without_bubblewrap_it_does_not_start(self) -> None:
        with mock.patch.dict(sandbox.ENVIRONMENT, PATH=str(self.folder)):
            self.assertEqual(worker.main([str(self.file()), "w2"]), 1)
        self.assertEqual(self.errors.getvalue(), (
            "worker w2: stops: bubblewrap is missing: install it (apt-get install bubblewrap), or set worker.sandbox to"
            " false, with which a job can do all that the worker can\n"))

    def test_where_the_kernel_refuses_it_does_not_start(self) -> None:
        refuses = self.folder / "bwrap"
        refuses.write_text("#!/bin/sh\necho 'bwrap: No permissions to create new namespace' >&2\nexit 1\n")
        refuses.chmod(0o755)
        with mock.patch.dict(sandbox.ENVIRONMENT, PATH=f"{self.folder}:/usr/bin:/bin"):
            self.assertEqual(worker.main([str(self.file()), "w2"]), 1)
        self.assertRegex(self.errors.getvalue(), "^worker w2: stops: bubblewrap can't begin a sandbox: bwrap: No "
                         "permissions to create new namespace: allow user namespaces .user.max_user_namespaces, ")

    def file(self) -> Path:
        with mock.patch(f"{WorkerCase.__module__}.boxed", lambda: True):
            return self.write_settings()

    def test_what_jobs_may_do_is_said(self) -> None:
        self.enterContext(mock.patch.object(worker, "shared", lambda folder: None))
        self.worker.say_of_sandbox()
        self.assertEqual(self.errors.getvalue(), "worker w1: jobs without a network (network = true gives them the "
                                                 "machine's): lib unit\n" if boxed() else IS_OFF)
        self.errors.truncate(0)
        self.sandbox = False
        self.start().say_of_sandbox()
        self.assertEqual(self.errors.getvalue().strip("\0"), IS_OFF)


class Limits(WorkerCase):
    def test_a_log_ends_at_its_limit_and_the_job_goes_on(self) -> None:
        """Before, a log grew for as long as its job ran."""
        self.more = "log_limit = 100000"
        self.worker = self.start("timeout 2 yes; echo end; cat text")
        self.gate.left.append(self.reply(8, 104))
        self.worker.turn()
        self.worker.turn()
        self.assertEqual(self.outcomes(), [(7, "success"), (8, "success")])
        log = self.log()
        self.assertLess(len(log), 101000)
        self.assertRegex(log, "(?s)\ny\n.*\n\nthe log ends here, at log_limit .100000 bytes.\nended: success")

    def disk(self) -> None:
        """A disk of 64 MiB for the companions."""
        state = self.folder / "state"
        mounted = subprocess.run(["mount", "-t", "tmpfs", "-o", "size=64m", "none", str(state)], capture_output=True,
                                 check=False)
        if mounted.returncode != 0:
            self.skipTest(f"no disk can be mounted: {mounted.stderr!r}")
        self.addCleanup(lambda: subprocess.run(["umount", "--lazy", str(state)], check=True))

    def test_a_job_that_fills_the_disk_is_a_failure(self) -> None:
        """It closes what it has written, and doesn't end by itself."""
        self.disk()
        self.room = "free = 33554432\nspace = 8388608"
        fills = "mkdir closed; head -c 50M /dev/zero > closed/big; chmod 0 closed; sleep 1000"
        self.worker = self.start(f"if [ $GATED_CHANGE = 103 ]; then {fills}; fi", limit=60.0)
        self.gate.left.append(self.reply(8, 104))
        self.worker.turn()
        self.worker.turn()
        self.assertEqual(self.outcomes(), [(7, "failure"), (8, "success")])
        self.assertIn("build 7: failure, killed, since the disk was nearly full and it had written more than "
                      "worker.space\n", self.errors.getvalue())

    def test_a_disk_that_others_have_filled_is_the_machine_s_fault(self) -> None:
        self.clock = PretendClock()
        self.disk()
        self.room = "free = 33554432\nspace = 8388608\npatience = 0.5"
        self.worker = self.start("sleep 1000", limit=60.0)
        (self.folder / "state/other").write_bytes(bytes(40 * 1024 * 1024))
        self.worker.turn()
        self.assertEqual(self.outcomes(), [(7, "lost")])
        self.assertRegex(self.errors.getvalue(),
                         "build 7: lost, less than worker.free is left on the disk of .*/trees/")

    def test_a_folder_on_the_machine_s_disk_is_told(self) -> None:
        self.assertEqual(room.shared(Path("/")), "/ is on the disk of /, which jobs can fill down to worker.free: give "
                                                 "it a file system of its own")
        self.assertIsNone(room.shared(Path("/proc")))


def content(file: Path) -> bytes:
    try:
        return file.read_bytes()
    except OSError:
        return b""


if __name__ == "__main__":
    unittest.main()
