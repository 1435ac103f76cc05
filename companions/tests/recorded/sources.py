"""Debian's sources in which answers and hooks of real forges are recorded: each is known by its version and SHA-256.

RECORDED names a folder in which they are kept between runs. What isn't there is fetched by apt, with a list of sources
and a state of its own: nothing of the machine's changes.
"""
from __future__ import annotations

import fcntl
import functools
import hashlib
import os
import re
import shutil
import subprocess
import tarfile
import tempfile
import time
from dataclasses import dataclass
from pathlib import Path

KEYS = "/usr/share/keyrings/debian-archive-keyring.gpg"
# The seconds that one call of apt may take.
PATIENCE = 240
DAY = 86400


class Unavailable(Exception):
    """A source can't be had here, and why."""


@dataclass(frozen=True)
class Source:
    """The upstream file of a package in a suite of Debian."""
    suite: str
    version: str
    file: str
    sha256: str


# Each package with the files of it that will do, the first one first.
SOURCES = {
    "pygithub": [Source(
        "trixie", "2.6.1-1", "pygithub_2.6.1.orig.tar.gz",
        "b5c035392991cca63959e9453286b41b54d83bf2de2daa7d7ff7e4312cebf3bf")],
    "golang-github-xanzy-go-gitlab": [Source(
        "trixie", "0.110.0-1", "golang-github-xanzy-go-gitlab_0.110.0.orig.tar.gz",
        "b0db3c9e2f258d44f95b9790b70c5f0ce80bc4ce5d214beb5acec63d5aa162b8")],
    "golang-gitlab-gitlab-org-api-client-go": [Source(
        "trixie", "0.123.0-2", "golang-gitlab-gitlab-org-api-client-go_0.123.0.orig.tar.gz",
        "4d58739e23e7e060c4f37636eece9ddde2c74e142bf6775177a70f553c746172")],
    "buildbot": [
        Source("trixie", "4.2.1-1", "buildbot_4.2.1.orig.tar.gz",
               "f4aaaed05d5672920b5f839a42271be7decbc7dc0db95071da78b2c230708f06"),
        Source("sid", "4.3.0-4", "buildbot_4.3.0.orig.tar.gz",
               "a7d60816a90ae392caa12526aa5b5ad2113ca874f46c6da71d071425ea751fa6")],
    "golang-code-gitea-sdk": [Source(
        "trixie", "0.17.0-2", "golang-code-gitea-sdk_0.17.0.orig.tar.gz",
        "e8ae6ca1f4d3a1e97057efbb24556b33c54e38f193f7d2cc09a794f88569f828")],
    "golang-github-google-go-github": [Source(
        "trixie", "60.0.0-1", "golang-github-google-go-github_60.0.0.orig.tar.gz",
        "ecc0474a3aab2e1b04784d708872d338786e830994301da12f427902df1400f0")],
    "python-gitlab": [Source(
        "trixie", "1:4.9.0-1", "python-gitlab_4.9.0.orig.tar.gz",
        "2c0e29aa0963c9978cc4fadaf0c1abdf3fa91722e0bf9b854b093095231eb8bf")],
    "glab": [Source(
        "trixie", "1.53.0-1", "glab_1.53.0.orig.tar.bz2",
        "333b252b1f5e3e8c1076fdeb0145cccfceb648808c5b5ca899c9719be0f37760")]}


@functools.cache
def folder() -> Path:
    """Where the files are: the folder that RECORDED names, or one for this run alone."""
    named = os.environ.get("RECORDED")
    if named:
        Path(named).mkdir(parents=True, exist_ok=True)
        return Path(named)
    return Path(made().name)


@functools.cache
def made() -> tempfile.TemporaryDirectory[str]:
    """A folder that is gone at the end of this run."""
    return tempfile.TemporaryDirectory(prefix="recorded-")


def source(package: str) -> Path:
    """The file of a package; `Unavailable` where none can be had."""
    found = tried(package)
    if isinstance(found, str):
        raise Unavailable(found)
    return found


@functools.cache
def tried(package: str) -> Path | str:
    """The file of a package, or why none can be had. One process at a time fetches what isn't there."""
    with open(folder() / "lock", "w", encoding="ascii") as lock:
        fcntl.flock(lock, fcntl.LOCK_EX)
        for it in SOURCES[package]:
            file = folder() / it.file
            if file.exists() and digest(file) == it.sha256:
                return file
        said = []
        for it in SOURCES[package]:
            try:
                return fetched(package, it)
            except Unavailable as fault:
                said.append(str(fault))
    return f"recordings of {package}, since {said[0]}"


def digest(file: Path) -> str:
    return hashlib.sha256(file.read_bytes()).hexdigest()


def fetched(package: str, it: Source) -> Path:
    """Fetches a file by apt, which checks by Debian's keys what it is."""
    home = suite(it.suite)
    if isinstance(home, str):
        raise Unavailable(home)
    apt(home, "source", "--download-only", "--tar-only", f"{package}={it.version}")
    file = home / "down" / it.file
    if not file.exists() or digest(file) != it.sha256:
        raise Unavailable(f"{it.file} of {it.suite} isn't the one of {it.sha256[:12]}")
    return Path(shutil.move(file, folder() / it.file))


@functools.cache
def suite(name: str) -> Path | str:
    """apt's own lists of a suite, of this day, in a folder of their own; or why they can't be had."""
    home = folder() / "apt" / name
    for it in ("state/lists/partial", "cache/archives/partial", "down"):
        (home / it).mkdir(parents=True, exist_ok=True)
    (home / "status").touch()
    (home / "sources.list").write_text(f"deb-src [signed-by={KEYS}] http://deb.debian.org/debian {name} main\n",
                                       encoding="ascii")
    updated = home / "updated"
    if not updated.exists() or time.time() - updated.stat().st_mtime > DAY:
        try:
            apt(home, "update")
        except Unavailable as fault:
            return str(fault)
        updated.touch()
    return home


def apt(home: Path, *words: str) -> None:
    """Calls apt-get with all that it writes in a folder; `Unavailable` with its last words where it fails."""
    options = {"Dir::Etc::sourcelist": home / "sources.list", "Dir::Etc::sourceparts": "-",
               "Dir::State": home / "state", "Dir::State::status": home / "status", "Dir::Cache": home / "cache",
               "APT::Sandbox::User": "root", "APT::Update::Error-Mode": "any", "Acquire::Retries": 2,
               "Acquire::http::Timeout": 30}
    said = [word for name, value in options.items() for word in ("-o", f"{name}={value}")]
    try:
        ran = subprocess.run(["apt-get", *said, *words], cwd=home / "down", capture_output=True, text=True,
                             timeout=PATIENCE, check=False, env={**os.environ, "LC_ALL": "C"})
    except (OSError, subprocess.TimeoutExpired) as fault:
        raise Unavailable(f"apt-get {words[0]}: {fault}") from fault
    if ran.returncode != 0:
        lines = [line for line in ran.stderr.splitlines() if line.startswith("E:")] or ["no words"]
        raise Unavailable(f"apt-get {words[0]}: {lines[0][:200]}")


@functools.cache
def files(package: str, pattern: str) -> dict[str, str]:
    """The texts of a package's files whose path within it is of a pattern."""
    found = {}
    with tarfile.open(source(package)) as archive:
        for it in archive:
            name = it.name.partition("/")[2]
            content = archive.extractfile(it) if it.isfile() and re.fullmatch(pattern, name) else None
            if content is not None:
                found[name] = content.read().decode("utf-8", "replace")
    return dict(sorted(found.items()))
