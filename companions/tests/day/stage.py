"""The stage of a day: the built gate behind a real proxy, repositories, and the companions, each a part."""
from __future__ import annotations

import os
import random
import shutil
import socket
import sys
import threading
import time
from pathlib import Path

from companions.gate import Gate, NoAnswer
from companions.job import kill_marked
from companions.tests.day import layout
from companions.tests.day.layout import ADAPTER, APP, LIB, PRESS, SITE, Project
from companions.tests.day.parts import Differs, Part, put, run, wait_for

WORKERS = ("w1", "w2", "w3")


def program() -> Path:
    """The built gate: GATED, or the one that `rt run` leaves."""
    return Path(os.environ.get("GATED") or layout.TOP / "crates" / "gated" / "out" / "gated").resolve()


def missing() -> str | None:
    """What a day can't do without and this machine lacks."""
    if not os.access(program(), os.X_OK):
        return f"no program at {program()}: name one by GATED"
    wanted = ("nginx", "git", "openssl", "curl", "setsid")
    lacking = [it for it in wanted if shutil.which(it, path=search()) is None]
    return f"not installed: {', '.join(lacking)}" if lacking else None


def search() -> str:
    """Where programs are looked for: nginx is often where a user's PATH doesn't lead."""
    return os.environ.get("PATH", "") + ":/usr/sbin:/sbin"


def free_port() -> int:
    """A port that nobody listens at, below those that connections of clients get."""
    while True:
        port = random.SystemRandom().randrange(15000, 32000)
        with socket.socket() as trial:
            if trial.connect_ex(("127.0.0.1", port)) != 0:
                return port


class Stage:
    """All that runs in a day, in one folder. `turned` names a wrong part that is started in place of the right one.

    Here the repositories are their own forge: their hooks call the adapter, and so does whoever says something.
    """
    first_projects = (LIB, APP, SITE, PRESS)
    # The companions that run, and the projects whose jobs a CI runs.
    programs: tuple[str, ...] = ("lander", *WORKERS, "watch", "adapter")
    of_ci: frozenset[str] = frozenset()

    def __init__(self, folder: Path, turned: str | None = None) -> None:
        self.folder, self.turned = folder, turned
        self.file, self.standby = folder / "day.gate", folder / "standby.gate"
        self.settings = folder / "gate.toml"
        self.environment = {**layout.environment(folder), "PATH": search(), "GATED": str(program())}
        self.projects: list[Project] = []
        self.parts: dict[str, Part] = {}
        self.began = time.monotonic()
        # Who does something that nobody may disturb, as a restore, has this.
        self.lock = threading.RLock()

    def make(self) -> None:
        """Makes all files, and the parts, of which none is started."""
        for it in ("tmp", "repos", "logs"):
            (self.folder / it).mkdir()
        layout.write_script(self.folder / "ssh", layout.SSH)
        layout.write_script(self.folder / "job", layout.JOB)
        (self.folder / "witness").touch()
        self.port, self.proxy, self.beats = free_port(), free_port(), free_port()
        layout.make_proxy(self.folder, self.proxy, self.port, self.environment, self.beats)
        for project in self.first_projects:
            self.add_project(project)
        self.write_gate_settings()
        self.gated("init", self.file)
        # The gate itself, for whoever looks at the end.
        self.gate = Gate(f"http://127.0.0.1:{self.port}", None)
        self.make_parts()

    def make_parts(self) -> None:
        self.add_part("gate", self.gate_words())
        self.add_part("nginx", ["nginx", "-g", "daemon off;", "-c", str(self.folder / "proxy" / "nginx.conf")])
        self.add_part("adapter", [sys.executable, str(ADAPTER), str(self.folder / "adapter.toml"), "stay"])
        for name, (module, *words) in self.modules().items():
            is_turned = (self.turned or "").partition("-")[0] == module
            program = ["companions.tests.day.turned", str(self.turned)] if is_turned else [f"companions.{module}"]
            self.add_part(name, [sys.executable, "-m", *program, *words])

    def modules(self) -> dict[str, list[str]]:
        """The parts that are modules of the companions: of each the module, and its words."""
        companions = str(self.folder / "companions.toml")
        return {"lander": ["lander", companions], "watch": ["watch", companions],
                **{it: ["worker", companions, it] for it in WORKERS}}

    def add_part(self, name: str, words: list[str]) -> None:
        self.parts[name] = Part(name, words, self.folder / "logs" / name, self.environment)

    def gate_words(self) -> list[str]:
        serve = [str(program()), "serve", str(self.settings), str(self.file), "--port", str(self.port),
                 "--count", "1000000000"]
        if self.turned != "unit":
            return serve
        # A unit that makes the file where it isn't there.
        make = f"[ -e {self.file} ] || {program()} init {self.settings} {self.file}; exec \"$@\""
        return ["sh", "-c", make, "sh", *serve]

    def add_project(self, project: Project) -> None:
        """First the repository, then the companions' settings. Those of the gate come last."""
        layout.make_repository(self.folder, project, self.environment, self.hooks())
        self.projects.append(project)
        for name, (where, more) in self.companions().items():
            # A lander that asks what was tested lands nothing of what that wrong worker tells.
            text = layout.companions_settings(self.folder, self.proxy, self.projects, where, more,
                                              self.turned != "worker-keeps", self.beats, self.of_ci)
            put(self.folder / name, text)

    def hooks(self) -> dict[str, str]:
        """The hooks of a repository, by their names."""
        return layout.git_hooks(self.folder)

    def companions(self) -> dict[str, tuple[str, str]]:
        """The companions' settings files: what stands before the repositories' folder, and tables of their own."""
        return {"companions.toml": ("ssh://lander@forge", ""), "adapter.toml": ("", "")}

    def project(self, name: str) -> Project:
        return next(it for it in self.projects if it.name == name)

    def write_gate_settings(self) -> None:
        put(self.settings, layout.gate_settings(self.projects))

    def gated(self, command: str, file: Path, *words: str, given: str | None = None) -> str:
        return run([str(program()), command, str(self.settings), str(file), *words], self.environment, given)

    def git(self, project: str, *words: str) -> str:
        """What git prints in a project's repository."""
        repository = self.folder / "repos" / f"{self.project(project).home}.git"
        return run(["git", "-C", str(repository), *words], self.environment).strip()

    def adapter(self, *words: str) -> str:
        return run([sys.executable, str(ADAPTER), str(self.folder / "adapter.toml"), *words], self.environment)

    def send(self) -> None:
        """Has all sent that the adapter keeps."""
        self.adapter("send")

    def tell_again(self) -> None:
        """Has a gate that was restored told again: nobody knows what the follower hadn't read."""
        self.adapter("tell-again")

    def start(self, *names: str) -> None:
        for name in names:
            self.parts[name].start()

    def start_gate(self) -> None:
        """Starts the gate and waits until it answers."""
        self.start("gate")
        self.await_gate()

    def await_gate(self) -> None:
        def answers() -> bool:
            if not self.parts["gate"].is_running():
                raise Differs(f"the gate ended: {(self.folder / 'logs' / 'gate').read_text()[-300:]}")
            try:
                return self.gate.get("/status") is not None
            except NoAnswer:
                return False
        wait_for("the gate to answer", answers)

    def kill(self, *names: str) -> None:
        for name in names:
            self.parts[name].kill()

    def end(self) -> None:
        """Kills all that runs, jobs of workers among it, which are groups of their own."""
        for part in self.parts.values():
            part.kill()
        for it in self.marks():
            kill_marked(it)

    def marks(self) -> list[str]:
        """By what in their environment jobs are known."""
        return [f"GATED_WORKER={self.folder / 'companions' / 'worker' / it}" for it in WORKERS]

    def note(self, what: str) -> None:
        """A line for whoever reads what a day left."""
        with open(self.folder / "logs" / "diary", "a", encoding="utf-8") as diary:
            diary.write(f"{time.monotonic() - self.began:7.2f} {what}\n")

    def log(self, name: str) -> str:
        file = self.folder / "logs" / name
        return file.read_text(encoding="utf-8", errors="replace") if file.exists() else ""
