"""What a job runs in: bubblewrap, with processes, users, mounts and a host name of its own.

The job reads the machine's programs, and writes its trees and folders of its own. It sees neither the companions'
folders and settings, nor other builds, nor anybody's home; and nothing that it starts survives it.
"""
from __future__ import annotations

import contextlib
import glob
import json
import os
import pwd
import subprocess
import tempfile
from collections.abc import Iterable
from dataclasses import dataclass, replace
from pathlib import Path

# What each job has of its own, in the folder of its build.
OWN = {"tmp": "/tmp", "var-tmp": "/var/tmp", "run": "/run", "shm": "/dev/shm"}
HOME = "/run/home"
# The places of OPERATING, and those where people and services leave their secrets.
HIDDEN = ("/etc/gated", "/var/lib/gated*", "/var/backups/gated", "/home", "/root", "/var/run")
ENVIRONMENT = {"PATH": "/usr/local/sbin:/usr/local/bin:/usr/sbin:/usr/bin:/sbin:/bin", "LANG": "C.UTF-8", "HOME": HOME}
APART = ("--unshare-user", "--unshare-pid", "--unshare-ipc", "--unshare-uts", "--unshare-cgroup-try", "--hostname",
         "job", "--cap-drop", "ALL", "--die-with-parent", "--new-session")
# How long a trial may take, in seconds.
PATIENCE = 60
OTHERWISE = "or set worker.sandbox to false, with which a job can do all that the worker can"


@dataclass(frozen=True)
class Sandbox:
    """What a job gets: its trees, which it writes; the folder that its own folders are made in; the objects of its
    mirrors; and folders of the machine that it reads and writes besides. `folder` is that of the companions, and
    `file` their settings. `logs` has logs of other builds, if it isn't in that folder.
    """
    folder: Path
    file: Path
    trees: Path
    own: Path
    objects: tuple[Path, ...] = ()
    read: tuple[Path, ...] = ()
    write: tuple[Path, ...] = ()
    network: bool = False
    logs: Path | None = None

    def words(self, status: int) -> list[str]:
        """The command before the job's own. What became of the job is written to the descriptor `status`.

        `OSError` where a folder leads to the companions' by now, as a job may have turned one within a folder of
        `write`.
        """
        self.check()
        words = ["bwrap", *APART, *([] if self.network else ["--unshare-net"]), "--json-status-fd", str(status),
                 "--ro-bind", "/", "/", "--dev", "/dev", "--proc", "/proc"]
        for name, place in OWN.items():
            (self.own / name).mkdir(parents=True, exist_ok=True)
            words += ["--bind", str(self.own / name), place]
        (self.own / "run" / Path(HOME).name).mkdir(exist_ok=True)
        hidden = self.hidden()
        words += [word for it in hidden for word in ("--tmpfs", it)]
        words += [word for it in (*self.objects, *self.read) for word in ("--ro-bind", str(it), str(it))]
        words += [word for it in (self.trees, *self.write) for word in ("--bind", str(it), str(it))]
        if not is_below(str(self.file), [*hidden, *OWN.values()]):
            (self.own / "empty").touch()
            words += ["--ro-bind", str(self.own / "empty"), str(self.file)]
        resolver = Path("/etc/resolv.conf").resolve()
        if self.network and resolver.is_file() and is_below(str(resolver), ["/run"]):
            words += ["--ro-bind", str(resolver), str(resolver)]
        words += [word for it in (*hidden, "/dev") for word in ("--remount-ro", it)]
        return [*words, "--"]

    def check(self) -> None:
        for it in (*self.read, *self.write):
            real = os.path.realpath(it)
            holds = any(is_below(str(own), [real]) for own in (self.folder, self.file))
            if is_below(real, [str(self.folder)]) or holds:
                raise OSError(f"{it} leads to the settings or the folder of the companions: no job may have it")

    def hidden(self) -> list[str]:
        """The folders of the machine in whose place there is an empty one: none of them within another one."""
        logs = [str(self.logs)] if self.logs is not None else []
        named = [str(self.folder), *logs, *(it for pattern in HIDDEN for it in glob.glob(pattern)), *homes()]
        found: list[str] = []
        for it in sorted({os.path.realpath(it) for it in named if os.path.isdir(it)}):
            if it != "/" and not is_below(it, [*found, *OWN.values()]):
                found.append(it)
        return found


def homes() -> list[str]:
    """The homes of the user, by the environment and by the machine, where they are the user's own."""
    named = [os.environ.get("HOME", "/")]
    with contextlib.suppress(KeyError):
        named.append(pwd.getpwuid(os.geteuid()).pw_dir)
    return [it for it in named if os.path.isdir(it) and os.stat(it).st_uid == os.geteuid()
            and not is_below(it, ["/usr", "/bin", "/sbin"])]


def is_below(name: str, folders: Iterable[str]) -> bool:
    """Whether a place is one of these folders or in one."""
    return any(name == it or name.startswith(f"{it}/") for it in folders)


def refused() -> str | None:
    """Why no sandbox can be begun on this machine, and what to do about it; none where one can."""
    with tempfile.TemporaryDirectory() as folder:
        place = Path(folder).resolve()
        (place / "file").touch()
        try:
            said = tried(Sandbox(place / "folder", place / "file", place, place), place)
        except FileNotFoundError:
            return f"bubblewrap is missing: install it (apt-get install bubblewrap), {OTHERWISE}"
        except subprocess.TimeoutExpired:
            return f"bubblewrap doesn't end within {PATIENCE} seconds: find out why, {OTHERWISE}"
    if said is None:
        return None
    return (f"bubblewrap can't begin a sandbox: {said}: allow user namespaces (user.max_user_namespaces, "
            "kernel.unprivileged_userns_clone and kernel.apparmor_restrict_unprivileged_userns of sysctl), "
            f"{OTHERWISE}")


def tried(box: Sandbox, folder: Path) -> str | None:
    """What bubblewrap says where a sandbox like this one can't be begun; none where it can. Its trees and its own
    folders are made anew, in a folder.

    `FileNotFoundError` where bubblewrap is missing, `subprocess.TimeoutExpired` where it doesn't end.
    """
    with tempfile.TemporaryDirectory(dir=folder) as trial:
        place = Path(trial).resolve()
        mine = replace(box, trees=place / "trees", own=place / "own")
        mine.trees.mkdir()
        reading, writing = os.pipe()
        try:
            ran = subprocess.run([*mine.words(writing), "true"], stdin=subprocess.DEVNULL, capture_output=True,
                                 env=ENVIRONMENT, pass_fds=(writing,), timeout=PATIENCE, check=False)
        finally:
            os.close(reading)
            os.close(writing)
    return None if ran.returncode == 0 else ran.stderr.decode("utf-8", "replace").strip()[:300]


@dataclass(frozen=True)
class Told:
    """What bubblewrap tells of a job: the process that all of the job's end with, and how the job ended. Each of them
    is none where it doesn't get so far."""
    process: int | None
    status: int | None


def told(text: bytes) -> Told:
    """What it tells, given the lines that it wrote."""
    said: dict[str, object] = {}
    for line in text.splitlines():
        said |= json.loads(line)
    process, status = said.get("child-pid"), said.get("exit-code")
    return Told(process if isinstance(process, int) else None, status if isinstance(status, int) else None)
