"""Says what lacks, on which side, and what to do about it. It changes nothing.

    python3 -m companions.check [gate.toml] companions.toml [worker.toml..]
    python3 -m companions.check

With files it compares them, and looks at what they name: the gate and its proxy's accounts, the repositories, the
forge, the sandbox, and the machine's units where there are any. Run it as root where the files are those of services:
git and the sandbox are then tried as their users.

Without files it looks at this machine, as root: what it lacks to be the gate's, or its standby's where a standby's file
is there and no gate's. It compares the files in /etc/gated, and connects to nobody.

The status is 0 where nothing lacks, 1 where something does, and 2 where it can't be run so.
"""
from __future__ import annotations

import base64
import grp
import hashlib
import os
import pwd
import re
import shutil
import socket
import subprocess
import sys
import urllib.parse
from collections.abc import Callable, Iterator
from dataclasses import dataclass
from pathlib import Path

from companions import check_forge, check_git, check_gate, sandbox
from companions.check_files import Files, compare, read_files
from companions.check_forge import Unseen
from companions.command_line import CommandLine
from companions.reader import SettingsFault
from companions.repository import GitFault, untested
from companions.settings import Settings, read

PART = "check"
USERS = ("gated", "gated-companions", "gated-worker")
GROUPS = ("gated-figures",)
PROGRAMS = ("nginx", "git", "curl", "openssl", "sqlite3", "bwrap", "nft")
SEARCH = "/usr/local/sbin:/usr/local/bin:/usr/sbin:/usr/bin:/sbin:/bin"
UNITS = ("gated.service", "gated-adapter.service", "gated-backup.service", "gated-backup.timer", "gated-copies.service",
         "gated-fence.service", "gated-follow.service", "gated-lander.service", "gated-watch.service",
         "gated-worker@.service")
UNIT_FOLDERS = ("/etc/systemd/system", "/usr/local/lib/systemd/system", "/lib/systemd/system")
# Those that start with the gate's machine, and with its standby's; and the ports where somebody listens then.
STARTED = {"gate": ("gated.service", "gated-lander.service", "gated-watch.service", "gated-backup.timer"),
           "standby": ("gated-follow.service",)}
PORTS = {"gate": (443, 8080), "standby": ()}
ACCOUNTS = ("forge", "worker", "watch", "standby")
# For so many days a certificate has to be good.
DAYS = 14
# Processes of nginx: a guess at a password that a person chose keeps one of them busy for some milliseconds.
PROCESSES = 4


@dataclass(frozen=True)
class Machine:
    """The places of a machine; `root` stands before each of them."""
    root: Path = Path("/")

    def at(self, name: str) -> Path:
        return self.root / name.lstrip("/")

    @property
    def role(self) -> str:
        state = self.at("/var/lib/gated")
        return "standby" if (state / "standby.db").exists() and not (state / "gate.db").exists() else "gate"

    def settings(self, name: str) -> Settings | None:
        try:
            return read(self.at(name))
        except SettingsFault:
            return None


def programs(_machine: Machine) -> Iterator[str]:
    """What is run here, by its name, and the versions that were tested."""
    for name in PROGRAMS:
        if shutil.which(name, path=SEARCH) is None:
            yield f"the program {name} isn't installed"
    if sys.version_info[:2] < (3, 11):
        yield f"Python is {sys.version_info[0]}.{sys.version_info[1]}, and has to be 3.11 or later"
    try:
        told = untested()
    except (GitFault, OSError) as fault:
        told = str(fault)
    if told is not None:
        yield told


def gate(machine: Machine) -> Iterator[str]:
    """The gate's program, its settings and its file."""
    program, settings = machine.at("/usr/local/bin/gated"), machine.at("/etc/gated/gate.toml")
    if not os.access(program, os.X_OK):
        yield f"{program} isn't there: run install"
    elif settings.exists():
        ran = subprocess.run([program, "check", settings], capture_output=True, text=True, check=False)
        if ran.returncode != 0:
            yield f"{settings}: {ran.stderr.strip() or ran.returncode}"
    file = machine.at("/var/lib/gated") / ("standby.db" if machine.role == "standby" else "gate.db")
    if not file.exists():
        yield f"{file} isn't there: make it by 'gated init', once, or restore it"


def accounts(_machine: Machine) -> Iterator[str]:
    for name in USERS:
        if not is_known(pwd.getpwnam, name):
            yield f"the user {name} isn't there: run install"
    for name in GROUPS:
        if not is_known(grp.getgrnam, name):
            yield f"the group {name} isn't there: run install"


def is_known(ask: Callable[[str], object], name: str) -> bool:
    try:
        ask(name)
    except KeyError:
        return False
    return True


def files(machine: Machine) -> Iterator[str]:
    """The settings, and whether they are filled in."""
    for name in ("/etc/gated/gate.toml", "/etc/gated/companions.toml", "/etc/gated/worker.toml"):
        file = machine.at(name)
        if not file.exists():
            yield f"{file} isn't there: run install"
        elif name != "/etc/gated/gate.toml":
            try:
                read(file)
            except SettingsFault as fault:
                yield str(fault)
            text = file.read_text(encoding="utf-8")
            for it in ("forge", "worker", "watch", "secret"):
                if f'"@{it}@"' in text:
                    yield f"{file}: @{it}@ isn't filled in"
    settings = machine.settings("/etc/gated/companions.toml")
    if settings is not None and settings.has_adapter and settings.adapter and settings.adapter.token == "@token@":
        yield f"{machine.at('/etc/gated/companions.toml')}: adapter.token isn't filled in"


def proxy(machine: Machine) -> Iterator[str]:
    """nginx's part, its passwords and its certificate."""
    part, key = machine.at("/etc/nginx/conf.d/gate.conf"), machine.at("/etc/nginx/gate.key")
    certificate, passwords = machine.at("/etc/nginx/gate.crt"), machine.at("/etc/nginx/gate.passwords")
    for file in (part, key, certificate, passwords):
        if not file.exists():
            yield f"{file} isn't there"
    if certificate.exists():
        ran = subprocess.run(["openssl", "x509", "-in", certificate, "-noout", "-checkend", str(DAYS * 86400)],
                             capture_output=True, check=False)
        if ran.returncode != 0:
            yield f"{certificate} ends within {DAYS} days, or is none"
    if passwords.exists():
        known = dict(line.split(":", 1) for line in passwords.read_text(encoding="utf-8").splitlines() if ":" in line)
        for name in ACCOUNTS:
            if name not in known:
                yield f"{passwords} has no {name}: run install"
        yield from differing(machine, known)


def differing(machine: Machine, known: dict[str, str]) -> Iterator[str]:
    """The passwords of the settings that aren't those of the proxy, as far as a hash can be compared here."""
    for name in ("/etc/gated/companions.toml", "/etc/gated/worker.toml"):
        settings = machine.settings(name)
        for it in settings.accounts.values() if settings else ():
            hashed = base64.b64encode(hashlib.sha1(it.password.encode()).digest()).decode()
            if known.get(it.user, "").startswith("{SHA}") and known[it.user] != "{SHA}" + hashed:
                yield f"{machine.at(name)}: the password of {it.user} isn't the proxy's"


def workers_of_nginx(machine: Machine) -> Iterator[str]:
    """Whether others are answered while nginx works out the hash of somebody's password."""
    file = machine.at("/etc/nginx/nginx.conf")
    text = file.read_text(encoding="utf-8") if file.exists() else ""
    said = re.search(r"^\s*worker_processes\s+(\w+)\s*;", text, re.MULTILINE)
    number = said[1] if said else "1"
    has = os.cpu_count() or 1 if number == "auto" else int(number) if number.isdecimal() else 0
    if has < PROCESSES:
        yield f"{file}: nginx has {has} worker_processes: let it have {PROCESSES} or more"


def units(machine: Machine) -> Iterator[str]:
    """Which units are there, and start with the machine."""
    folders = [machine.at(it) for it in UNIT_FOLDERS]
    for name in UNITS:
        if not any((it / name).exists() for it in folders):
            yield f"the unit {name} isn't there: run install"
    started = {it.name for it in folders[0].glob("*.wants/gated*")}
    for name in STARTED[machine.role]:
        if name not in started:
            yield f"{name} doesn't start with the machine: systemctl enable --now {name.removesuffix('.service')}"
    if machine.role == "standby" and "gated.service" in started:
        yield "gated.service starts with the machine, which is the standby's: systemctl disable gated"
    mark = machine.at("/var/lib/gated-companions/replaced")
    if machine.role == "gate" and mark.exists():
        yield f"{mark} is there: this machine was retired, or another one has taken the gate over"


def name(machine: Machine) -> Iterator[str]:
    """Where the gate's name leads, and the follower's password."""
    settings = machine.settings("/etc/gated/companions.toml")
    host = urllib.parse.urlsplit(settings.url).hostname if settings else None
    if host is not None:
        try:
            socket.getaddrinfo(host, 443)
        except OSError:
            yield f"the name {host} leads nowhere"
    if machine.role == "standby" and not machine.at("/var/lib/gated/.netrc").exists():
        yield f"{machine.at('/var/lib/gated/.netrc')} isn't there: 'standby unpack' makes it"


def ports(machine: Machine) -> Iterator[str]:
    """Where nobody listens. To connect to the gate would hold it up."""
    listens = {int(words[1].rpartition(":")[2], 16) for table in ("tcp", "tcp6")
               for words in rows(Path("/proc/net") / table) if words[3] == "0A"}
    for port in PORTS[machine.role]:
        if port not in listens:
            yield f"nobody listens at port {port}"


def rows(table: Path) -> Iterator[list[str]]:
    if table.exists():
        yield from (line.split() for line in table.read_text(encoding="ascii").splitlines()[1:])


def compared(machine: Machine) -> Iterator[str]:
    """What differs between the files. Those that can't be read are told of elsewhere."""
    names = [machine.at(f"/etc/gated/{it}.toml") for it in ("gate", "companions", "worker")]
    yield from compare(read_files([str(it) for it in names if it.exists()])[0])


def versions(machine: Machine) -> Iterator[str]:
    """Whether a standby has the version that the gate's machine had when it packed: tables of a later one can't be
    opened by an earlier one."""
    packed = machine.at("/etc/gated/packed.version")
    was = packed.read_text(encoding="utf-8").strip() if packed.exists() else version(machine)
    if machine.role == "standby" and was != version(machine):
        yield f"the gate's machine has version {was}: install the same here"


CHECKS = (programs, accounts, gate, files, compared, proxy, workers_of_nginx, units, name, ports, versions)


def lacking(machine: Machine) -> list[str]:
    """All that this machine lacks, in the order of the checks."""
    return [it for check in CHECKS for it in check(machine)]


def version(machine: Machine) -> str:
    """What `install` has put here."""
    file = machine.at("/usr/local/lib/gated/VERSION")
    return file.read_text(encoding="utf-8").strip() if file.exists() else "unknown"


def around(found: Files) -> Iterator[str]:
    """All that files name, and whether it is as they say."""
    yield from compare(found)
    yield from check_gate.look(found)
    is_service = any(it.file.parent == Path("/etc/gated") for it in found.all)
    own, workers = ((check_git.user_of(it) if is_service else None) for it in (check_git.OWN, check_git.WORKERS))
    yield from check_git.look(found, own, workers)
    yield from check_forge.look(found.companions)
    if any(it.sandbox for it in found.workers or found.all):
        yield from boxes(workers)
    machine = Machine()
    if any((machine.at(it) / "gated.service").exists() for it in UNIT_FOLDERS):
        yield from units(machine)


def boxes(user: str | None) -> Iterator[str]:
    """Whether a sandbox can be begun, as the workers' user where there is one."""
    if user is None:
        said = sandbox.refused()
    else:
        ran = subprocess.run([sys.executable, "-c", "from companions import sandbox; print(sandbox.refused() or '')"],
                             cwd=Path(__file__).resolve().parents[1], user=user, group=pwd.getpwnam(user).pw_gid,
                             extra_groups=[], capture_output=True, text=True, check=False)
        said = ran.stdout.strip() if ran.returncode == 0 else ran.stderr.strip()[-300:]
    if said:
        yield f"workers{f' as the user {user}' if user else ''}: {said}"


def tell(found: list[str], where: str) -> int:
    """Says what was found, and the status of the process."""
    lacks = [it for it in found if not isinstance(it, Unseen)]
    for it in found:
        print(f"{PART}: {'not seen: ' if isinstance(it, Unseen) else ''}{it}")
    print(f"{PART}: {where} lack{'' if where == 'the files and what they name' else 's'} {len(lacks) or 'nothing'}"
          f"{'' if not lacks else ' thing' if len(lacks) == 1 else ' things'}")
    return 1 if lacks else 0


def main(words: list[str]) -> int:
    line = CommandLine(PART, __doc__)
    line.add_argument("files", nargs="*", metavar="FILE", help="files of settings, told apart by what is in them")
    return line.run(words, lambda asked: begin(asked.files))


def begin(files: list[str]) -> int:
    if files:
        found, faults = read_files(files)
        return tell([*faults, *around(found)], "the files and what they name")
    if os.geteuid() != 0:
        print(f"{PART}: run this as root: others can't read the settings. Or name the files: see --help",
              file=sys.stderr)
        return 2
    machine = Machine()
    print(f"{PART}: version {version(machine)}")
    return tell(lacking(machine), f"as the {machine.role}'s machine it")


if __name__ == "__main__":
    sys.exit(main(sys.argv[1:]))
