"""What the operator of a day does: a follower, backups, a file that is lost and restored, a standby that takes over.

Each is done by a script of companions/service.
"""
from __future__ import annotations

import os

from companions.tests.day.layout import FOLLOWER, PASSWORD, SERVICE, TOOL, pace
from companions.tests.day.parts import Differs, run
from companions.tests.day.stage import Stage


class Keeper:
    """Keeps a gate's file safe, and brings it back."""

    def __init__(self, stage: Stage) -> None:
        self.stage = stage
        self.copy = stage.folder / "backup.gate"
        self.around = {**stage.environment, "GATED_SETTINGS": str(stage.settings), "HOME": str(stage.folder),
                       "PAUSE": str(pace())}

    def make(self) -> None:
        netrc = self.stage.folder / ".netrc"
        netrc.write_text(f'machine 127.0.0.1 login {FOLLOWER} password {PASSWORD}\n', encoding="ascii")
        netrc.chmod(0o600)
        self.stage.gated("init", self.stage.standby)
        self.stage.add_part("follow", [str(SERVICE / "follow"), f"https://127.0.0.1:{self.stage.proxy}",
                                       str(self.stage.settings), str(self.stage.standby)])
        self.stage.parts["follow"].environment = self.around

    def backup(self) -> None:
        with self.stage.lock:
            run([str(SERVICE / "backup"), str(self.stage.file), str(self.copy)], self.around)

    def stop_following(self) -> None:
        """The follower is killed. One that ended by itself has a standby that is no copy of the gate."""
        with self.stage.lock:
            if not self.stage.parts["follow"].is_running():
                raise Differs(f"the follower ended: {self.stage.log('follow')[-300:]}")
            self.stage.kill("follow")

    def lose(self) -> None:
        """The gate is killed and its disk is gone."""
        self.stage.kill("gate")
        for file in self.stage.folder.glob("day.gate*"):
            file.unlink()

    def restore(self, follower: bool = True) -> None:
        """The backup, and what the follower had read, in the place of the gate's file. It doesn't run by now."""
        with self.stage.lock:
            logs = [str(self.stage.standby)] if follower else []
            run([str(SERVICE / "restore"), str(self.copy), *logs, str(self.stage.file)], self.around)
            self.stage.start_gate()
            if follower:
                self.stage.start("follow")

    def take_over(self) -> None:
        """The standby becomes the gate, and gets a standby of its own."""
        with self.stage.lock:
            for file in self.stage.folder.glob("standby.gate*"):
                os.rename(file, self.stage.folder / file.name.replace("standby", "day"))
            self.stage.start_gate()
            self.stage.gated("init", self.stage.standby)
            self.stage.start("follow")

    def add_project(self) -> None:
        """Repository and companions first, then the gate. The standby has the rest told under the settings before."""
        with self.stage.lock:
            self.stage.add_project(TOOL)
            self.stage.start(*self.stage.programs)
            self.stop_following()
            self.stage.kill("gate")
            last = self.stage.gated("deliveries", self.stage.standby).splitlines()[-1:]
            after = ["--after", last[0].partition('"id":"')[2][:32]] if last else []
            rest = self.stage.gated("deliveries", self.stage.file, *after)
            self.stage.gated("deliver", self.stage.standby, given=rest)
            self.stage.write_gate_settings()
            self.stage.start_gate()
            self.stage.start("follow")
            # A copy of before would have to be told what came since under two settings.
            self.backup()
