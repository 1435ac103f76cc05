"""`backup`, `restore` and `follow` of companions/service, with real gates."""
from __future__ import annotations

import signal
import subprocess
import threading
import unittest
from http.server import BaseHTTPRequestHandler, HTTPServer
from pathlib import Path

from companions.tests.service import LINES, SERVICE, SETTINGS, ServiceTest, end, ids_of, state_of, tell, wait_for


class BackupTest(ServiceTest):
    def setUp(self) -> None:
        super().setUp()
        self.target = self.folder / "backup.db"

    def old_backup(self) -> bytes:
        """An older backup in the target's place."""
        self.gate("backup.db", LINES[:1])
        return self.target.read_bytes()

    def test_a_gate_that_runs(self) -> None:
        """What the log alone has is in the copy, the target is one file, and the gate goes on."""
        file = self.gate("gate.db", LINES[:2])
        gate, address = self.serve(file)
        for line in LINES[2:5]:
            tell(address, line)
        ran = self.run_script("backup", file, self.target)
        self.assertEqual(ran.returncode, 0, ran.stderr)
        self.assertIn(f"process {gate.pid} was held up for", ran.stdout)
        self.assertEqual(len(ran.stdout.splitlines()), 1)
        tell(address, LINES[5])
        self.assertEqual([it.name for it in self.folder.glob("backup.db*")], ["backup.db"])
        self.assertEqual(self.deliveries(self.target), ids_of(LINES[:5]))

    def test_of_two_gates_the_right_one_is_held_up(self) -> None:
        file = self.gate("gate.db", LINES[:2])
        other, _ = self.serve(self.gate("other.db", LINES[:2]))
        gate, _ = self.serve(file)
        self.stand_in("cp", f'for it in {gate.pid} {other.pid}; do cut -d" " -f3 /proc/$it/stat; done >>'
                            f'{self.folder}/states\nexec /bin/cp "$@"')
        ran = self.run_script("backup", file, self.target)
        self.assertEqual(ran.returncode, 0, ran.stderr)
        self.assertEqual((self.folder / "states").read_text().split(), ["T", "S"] * 2)
        self.assertEqual((state_of(gate), state_of(other)), ("S", "S"))

    def test_a_copy_that_fails(self) -> None:
        """The gate goes on, and the older backup stays."""
        old, file = self.old_backup(), self.gate("gate.db", LINES[:2])
        gate, address = self.serve(file)
        self.stand_in("cp", 'echo "no space left" >&2; head -c 100 "$1" >"$2"; exit 1')
        ran = self.run_script("backup", file, self.target)
        self.assertEqual(ran.returncode, 1)
        self.assertIn("can't be copied", ran.stderr)
        self.assertNotEqual(state_of(gate), "T")
        tell(address, LINES[2])
        self.assertEqual(self.target.read_bytes(), old)
        self.assertEqual(list(self.folder.glob("*.part*")), [])

    def test_a_copy_without_an_end(self) -> None:
        file = self.gate("gate.db", LINES[:2])
        gate, _ = self.serve(file)
        self.stand_in("cp", "sleep 100")
        self.environment["HOLD"] = "1"
        ran = self.run_script("backup", file, self.target)
        self.assertEqual((ran.returncode, ran.stderr),
                         (1, f"backup: the copy took longer than 1 s: {self.target} stays what it was\n"))
        self.assertNotEqual(state_of(gate), "T")

    def is_held_for_a_while(self, gate: subprocess.Popen[str]) -> None:
        """A gate that is about to be held up goes on by itself."""
        self.assertTrue(wait_for(lambda: state_of(gate) == "T", 20.0))
        self.assertTrue(wait_for(lambda: state_of(gate) != "T", 15.0))

    def test_a_copy_that_no_signal_ends(self) -> None:
        """The gate goes on although the copy doesn't end, and what is copied in the end is thrown away."""
        file = self.gate("gate.db", LINES[:2])
        gate, address = self.serve(file)
        copied = self.folder / "copied"
        self.stand_in("cp", f"trap '' TERM\nsleep 20\ntouch {copied}\nexec /bin/cp \"$@\"")
        self.environment["HOLD"] = "1"
        process = self.start(SERVICE / "backup", file, self.target)
        self.is_held_for_a_while(gate)
        self.assertFalse(copied.exists())
        tell(address, LINES[2])
        self.assertEqual(process.wait(timeout=20), 1)
        self.assertFalse(self.target.exists())

    def test_a_disk_that_hangs(self) -> None:
        """A file system that is frozen, as for a snapshot: no signal ends a copy to it."""
        disk, mount = self.folder / "disk", self.folder / "mount"
        mount.mkdir()
        with disk.open("wb") as image:
            image.truncate(1 << 25)
        for words in (["mkfs.ext4", "-q", str(disk)], ["mount", "-o", "loop", str(disk), str(mount)]):
            ran = subprocess.run(words, capture_output=True, text=True, check=False)
            if ran.returncode != 0:
                self.skipTest(f"no file system to freeze: {ran.stderr.strip()}")
        self.addCleanup(lambda: subprocess.run(["umount", "--lazy", mount], check=True))
        file = self.gate("gate.db", LINES[:2])
        gate, address = self.serve(file)
        self.environment["HOLD"] = "1"
        self.stand_in("cp", f'fsfreeze --freeze {mount}\nexec /bin/cp "$@"')
        process = self.start(SERVICE / "backup", file, mount / "backup.db")
        try:
            self.is_held_for_a_while(gate)
            tell(address, LINES[2])
            self.assertIsNone(process.poll())
        finally:
            subprocess.run(["fsfreeze", "--unfreeze", mount], check=True)
        self.assertEqual(process.wait(timeout=20), 1)
        self.assertEqual([it.name for it in mount.glob("backup*")], [])

    def test_a_backup_that_is_killed(self) -> None:
        """The gate goes on, whichever way the script ends."""
        file = self.gate("gate.db", LINES[:2])
        gate, address = self.serve(file)
        self.stand_in("cp", "exec sleep 3")
        for number, way in enumerate((signal.SIGKILL, signal.SIGTERM, signal.SIGHUP)):
            process = self.start(SERVICE / "backup", file, self.target)
            self.assertTrue(wait_for(lambda: state_of(gate) == "T"), way)
            process.send_signal(way)
            self.assertTrue(wait_for(lambda: state_of(gate) != "T", 2.5), way)
            tell(address, LINES[2 + number])
            self.assertFalse(self.target.exists())
            process.wait()

    def test_a_gate_that_was_killed(self) -> None:
        """File and log are copied, and both stay as they are, byte by byte."""
        file, log = self.gate("gate.db", LINES[:2]), self.folder / "gate.db-wal"
        gate, address = self.serve(file)
        for line in LINES[2:5]:
            tell(address, line)
        gate.kill()
        gate.wait()
        before = file.read_bytes(), log.read_bytes()
        ran = self.run_script("backup", file, self.target)
        self.assertEqual(ran.returncode, 0, ran.stderr)
        self.assertIn("no gate ran over it", ran.stdout)
        self.assertEqual((file.read_bytes(), log.read_bytes()), before)
        self.assertEqual([it.name for it in self.folder.glob("backup.db*")], ["backup.db"])
        self.assertEqual(self.deliveries(self.target), ids_of(LINES[:5]))

    def test_a_gate_whose_log_is_gone(self) -> None:
        old, file = self.old_backup(), self.gate("gate.db", LINES[:2])
        gate, address = self.serve(file)
        tell(address, LINES[2])
        (self.folder / "gate.db-wal").unlink()
        ran = self.run_script("backup", file, self.target)
        self.assertEqual(ran.returncode, 1)
        self.assertIn("no copy without the log", ran.stderr)
        self.assertEqual((self.target.read_bytes(), state_of(gate)), (old, "S"))

    def test_a_file_that_is_no_gate(self) -> None:
        old, file = self.old_backup(), self.folder / "gate.db"
        file.write_text("no gate")
        ran = self.run_script("backup", file, self.target)
        self.assertEqual(ran.returncode, 1)
        self.assertIn("doesn't open", ran.stderr)
        self.assertEqual(self.target.read_bytes(), old)

    def test_a_second_writer(self) -> None:
        file = self.gate("gate.db", LINES[:2])
        self.serve(file)
        with open(file, "r+b"):
            ran = self.run_script("backup", file, self.target)
        self.assertEqual(ran.returncode, 1)
        self.assertIn("more than one process", ran.stderr)


class RestoreTest(ServiceTest):
    def setUp(self) -> None:
        super().setUp()
        self.target = self.folder / "gate.db"
        self.backup = self.gate("backup.db", LINES[:3])
        self.log = self.folder / "log"
        self.log.write_text("".join(LINES))

    def restored(self, *words: str | Path) -> str:
        ran = self.run_script("restore", *words, self.target)
        self.assertEqual(ran.returncode, 0, ran.stderr)
        return ran.stdout

    def fails(self, says: str, *words: str | Path) -> None:
        ran = self.run_script("restore", *words, self.target)
        self.assertEqual(ran.returncode, 1, ran.stdout)
        self.assertIn(says, ran.stderr)
        self.assertEqual(list(self.folder.glob("*.part*")), [])

    def test_a_log_of_lines(self) -> None:
        said = self.restored(self.backup, self.log)
        self.assertEqual(said, f"restore: {self.target} has the 3 deliveries of {self.backup} and 4 more, up to"
                               f" {ids_of(LINES)[-1]}\n")
        self.assertEqual(self.deliveries(self.target), ids_of(LINES))
        self.assertEqual(self.deliveries(self.backup), ids_of(LINES[:3]))

    def test_the_file_of_a_standby_that_was_killed(self) -> None:
        """What its log alone has is told too, and it stays as it is."""
        standby = self.gate("standby.db", LINES[:4])
        process, address = self.serve(standby)
        for line in LINES[4:]:
            tell(address, line)
        process.kill()
        process.wait()
        before = standby.read_bytes()
        self.restored(self.backup, standby)
        self.assertEqual(self.deliveries(self.target), ids_of(LINES))
        self.assertEqual(standby.read_bytes(), before)

    def test_a_standby_alone(self) -> None:
        self.assertIn("and 0 more", self.restored(self.gate("standby.db", LINES)))
        self.assertEqual(self.deliveries(self.target), ids_of(LINES))

    def test_several_logs(self) -> None:
        self.log.write_text("".join(LINES[1:4]))
        later = self.folder / "later"
        later.write_text("".join(LINES[4:]))
        self.assertIn("and 4 more", self.restored(self.backup, self.log, later))
        self.assertEqual(self.deliveries(self.target), ids_of(LINES))

    def test_a_cut_last_line(self) -> None:
        self.log.write_text("".join(LINES)[:-20])
        self.assertIn("and 3 more", self.restored(self.backup, self.log))
        self.assertEqual(self.deliveries(self.target), ids_of(LINES[:-1]))

    def test_a_log_that_ends_before_the_backup(self) -> None:
        self.log.write_text(self.gated("deliveries", self.backup).splitlines(keepends=True)[0])
        self.assertIn("and 0 more", self.restored(self.backup, self.log))

    def test_a_log_of_another_gate(self) -> None:
        self.log.write_text("".join(LINES).replace('"id":"0c', '"id":"0d'))
        self.fails("no log has", self.backup, self.log)
        self.assertFalse(self.target.exists())

    def test_a_line_that_is_refused(self) -> None:
        self.log.write_text("".join(LINES[:4] + LINES[5:6] + [LINES[4].replace('"order":1', '"order":9')] + LINES[6:]))
        self.fails("line 3 behind the backup", self.backup, self.log)
        self.assertFalse(self.target.exists())

    def test_a_file_that_is_there(self) -> None:
        for name in (self.target, self.folder / "gate.db-wal"):
            name.write_text("what was there")
            self.fails(f"{name} is there", self.backup, self.log)
            self.assertEqual(name.read_text(), "what was there")
            name.unlink()


class Proxy(BaseHTTPRequestHandler):
    """Answers as a proxy that has no such path."""

    def do_GET(self) -> None:
        self.send_error(404)

    def log_message(self, *_: object) -> None:
        pass


class FollowTest(ServiceTest):
    def setUp(self) -> None:
        super().setUp()
        self.environment["PAUSE"] = "0.2"
        self.standby, self.log = self.gate("standby.db", []), self.folder / "log"

    def follow(self, address: str) -> subprocess.Popen[str]:
        return self.start(SERVICE / "follow", address, SETTINGS, self.standby, self.log)

    def has(self, number: int) -> bool:
        return self.log.exists() and len(self.log.read_text().splitlines()) == number

    def test_file_and_log_follow(self) -> None:
        """Over a kill, and over a log that lost its end: both have what the gate has, each line once."""
        _, address = self.serve(self.gate("gate.db", LINES[:3]))
        process = self.follow(address)
        self.assertTrue(wait_for(lambda: self.has(3)))
        end(process)
        self.log.write_text(self.log.read_text()[:-30])
        for line in LINES[3:]:
            tell(address, line)
        process = self.follow(address)
        self.assertTrue(wait_for(lambda: self.has(len(LINES)) or process.poll() is not None))
        end(process)
        self.assertEqual(ids_of(self.log.read_text().splitlines()), ids_of(LINES))
        self.assertEqual(self.deliveries(self.standby), ids_of(LINES))

    def test_the_file_of_another_gate(self) -> None:
        self.gated("deliver", self.standby, given="".join(LINES[:2]))
        _, address = self.serve(self.gate("gate.db", []))
        process = self.follow(address)
        said, _ = process.communicate(timeout=60)
        self.assertEqual(process.returncode, 1)
        self.assertIn("its file is another one", said)

    def test_a_gate_that_has_the_last_delivery_behind_others(self) -> None:
        """It was restored without what stands before, and told it again in another order."""
        self.gated("deliver", self.standby, given="".join(LINES[:2]))
        _, address = self.serve(self.gate("gate.db", [LINES[0], LINES[5], LINES[1]]))
        process = self.follow(address)
        said, _ = process.communicate(timeout=60)
        self.assertEqual(process.returncode, 1)
        self.assertIn("its file is another one, or was restored without it", said)

    def test_a_log_of_another_gate(self) -> None:
        self.log.write_text(LINES[0])
        process = self.follow("http://127.0.0.1:1")
        said, _ = process.communicate(timeout=60)
        self.assertEqual(process.returncode, 1)
        self.assertIn("begin another log", said)

    def test_a_proxy_without_the_path(self) -> None:
        """Its 404 says nothing of the gate: it is asked again."""
        self.gated("deliver", self.standby, given="".join(LINES[:2]))
        server = HTTPServer(("127.0.0.1", 0), Proxy)
        threading.Thread(target=server.serve_forever, daemon=True).start()
        self.addCleanup(server.server_close)
        self.addCleanup(server.shutdown)
        process = self.follow(f"http://127.0.0.1:{server.server_port}")
        assert process.stdout is not None
        self.assertIn("follow: from", process.stdout.readline())
        self.assertIn("no whole answer", process.stdout.readline())
        self.assertIsNone(process.poll())


if __name__ == "__main__":
    unittest.main()
