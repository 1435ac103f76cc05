"""Git, as lander and workers use it: a mirror of a project's repository, and merges in it without a work tree.

What git makes here depends on the commits alone, on whichever machine: nobody's settings of git have a say, but where a
repository is fetched from or pushed to.
"""
from __future__ import annotations

import os
import re
import shutil
import subprocess
import threading
from collections.abc import Mapping
from dataclasses import dataclass, replace
from pathlib import Path

from companions.merging import Merge, Parent, parent_of
from companions.squash import squashed

# Where the companions find things in a repository. A landing's place has six digits, so that no name is the beginning
# of another one: `find` asks a server by such beginnings.
FIRST_HEADS = "refs/landings/{queue}/000000"
LANDING = "refs/landings/{queue}/{place:06d}"
REVISION = "refs/changes/{change}/{revision}"

# How long a command of git may take, in seconds: one that hangs holds up its queue.
PATIENCE = 900
# Where names stand that are about to be pushed.
OUT = "refs/out/"
# So many commits of a branch are read at once.
PAGE = 1000
# So many bytes of an object are read: whoever may push decides how large a commit is.
MOST = 1 << 20

# The versions of git with which the merges were tested, and the least one that can do them.
TESTED = ("2.39",)
LEAST = (2, 38)

# What talks to a forge goes by the user's settings, which have the proxy and the credentials.
AFAR = ("fetch", "push", "ls-remote")
# Whatever could change a merge, a commit's reading or a tree on disk, by name: renames, drivers, line ends, attributes,
# hooks. What the mirror's own file says counts for less.
OPTIONS = {
    "core.attributesFile": "/dev/null", "core.excludesFile": "/dev/null", "core.hooksPath": "/dev/null",
    "core.autocrlf": "false", "core.eol": "lf", "core.safecrlf": "false", "core.symlinks": "true",
    "core.fileMode": "true", "core.ignoreCase": "false", "core.protectHFS": "false", "core.protectNTFS": "true",
    "core.precomposeUnicode": "false", "core.sparseCheckout": "false", "core.fsmonitor": "false",
    "core.bigFileThreshold": "512m", "core.quotePath": "false", "core.useReplaceRefs": "false",
    "diff.algorithm": "histogram", "diff.renames": "true", "diff.renameLimit": "7000",
    "merge.renames": "true", "merge.directoryRenames": "conflict", "merge.renameLimit": "7000",
    "merge.renormalize": "false", "merge.default": "text", "merge.conflictStyle": "merge", "merge.verbosity": "0",
    "i18n.commitEncoding": "UTF-8", "i18n.logOutputEncoding": "UTF-8", "log.showSignature": "false",
    "log.mailmap": "false", "submodule.recurse": "false", "safe.directory": "*", "gc.auto": "0"}
OWN = [word for name, value in OPTIONS.items() for word in ("-c", f"{name}={value}")]
# Later versions of git would read attributes from the tree of a mirror's HEAD: no attribute counts in a merge.
NO_ATTRIBUTES = {"GIT_ATTR_SOURCE": "4b825dc642cb6eb9a060e54bf8d69288fbee4904"}
# A mirror's own settings. What else git reads in it stays away: attributes, grafts.
CONFIG = "[core]\n\trepositoryformatversion = 0\n\tfilemode = true\n\tbare = true\n"
STRAY = ("info/attributes", "info/grafts", "info/sparse-checkout", "config.worktree")

# So much is kept of what a server says.
WORDS = 2000


class GitFault(Exception):
    """Git failed for a cause that isn't in what is merged: a network, a disk, a missing name."""


class Declined(GitFault):
    """The server refuses what is pushed, by a hook or a rule. `words` are its own, and the same for the same cause."""

    def __init__(self, said: str, words: str) -> None:
        super().__init__(said)
        self.words = words


def words_of(listed: str, said: str) -> str | None:
    """The words with which a server declines a push, given what git lists and says of it; none where it doesn't."""
    causes = re.findall(r"^!\t.*\[remote rejected\] \((.*)\)$", listed, re.MULTILINE)
    if not causes:
        return None
    remote = (line.removeprefix("remote:").strip() for line in said.splitlines() if line.startswith("remote:"))
    words = [*(it for it in remote if it), *dict.fromkeys(it for it in causes if it != "atomic push failure")]
    return "; ".join(words)[:WORDS]


@dataclass(frozen=True)
class Merged:
    """What a merge came to: a tree, or none and the files that conflict. Without a common past there are no files."""
    tree: str | None
    files: tuple[str, ...] = ()


@dataclass(frozen=True)
class Commit:
    """A commit of a branch."""
    hash: str
    parents: tuple[str, ...]
    message: str


def own_environment() -> dict[str, str]:
    """What git gets here: nothing of anybody's settings."""
    plain = {name: value for name, value in os.environ.items() if not name.startswith("GIT_")}
    return {**plain, "LC_ALL": "C", "GIT_CONFIG_NOSYSTEM": "1", "GIT_CONFIG_GLOBAL": "/dev/null",
            "GIT_ATTR_NOSYSTEM": "1", "GIT_NO_REPLACE_OBJECTS": "1", "GIT_TERMINAL_PROMPT": "0"}


def version() -> str:
    """The version of git, as `2.39`."""
    said = subprocess.run(["git", "--version"], capture_output=True, text=True, check=False).stdout
    found = re.match(r"git version (\d+\.\d+)", said)
    if found is None:
        raise GitFault(f"git --version: {said.strip()[:80]!r}")
    return found[1]


def untested() -> str | None:
    """What is to be said of the version of git, or none; `GitFault` where it can't merge so."""
    found = version()
    if tuple(map(int, found.split("."))) < LEAST:
        raise GitFault(f"git {found} is too old: it has to be {TESTED[-1]}")
    return None if found in TESTED else (f"git {found} wasn't tested, only {', '.join(TESTED)}: lander and workers have"
                                         " to have the same one")


class Repository:
    """A bare mirror, in a folder of its own, of the repository at an address. Only what is asked for is fetched.

    `more` is what git has in its environment besides.
    """
    patience = float(PATIENCE)

    def __init__(self, address: str, mirror: Path, author: str, more: Mapping[str, str] | None = None) -> None:
        self.address, self.mirror, self.author = address, mirror, author
        self.afar = {**os.environ, "GIT_TERMINAL_PROMPT": "0", "LC_ALL": "C", **(more or {})}
        self.own = {**own_environment(), **(more or {})}

    def unlock(self) -> None:
        """Takes away locks that a killed git has left, and what would turn merges. Nobody else may use the mirror."""
        for lock in [*self.mirror.glob("*.lock"), *self.mirror.glob("refs/**/*.lock"),
                     *self.mirror.glob("worktrees/*/*.lock")]:
            lock.unlink(missing_ok=True)
        if self.mirror.exists():
            self.tidy()

    def tidy(self) -> None:
        """A mirror has no settings, attributes or grafts of its own, as a template or a job may have put there."""
        config = self.mirror / "config"
        if not config.exists() or config.read_bytes() != CONFIG.encode():
            config.write_bytes(CONFIG.encode())
        for it in STRAY:
            (self.mirror / it).unlink(missing_ok=True)

    def git(self, *words: str, given: str | None = None) -> str:
        """What a command of git prints, or `GitFault`."""
        ran = self.run(*words, given=given)
        if ran.returncode != 0:
            raise GitFault(f"git {' '.join(words)}: {ran.stderr.strip() or ran.returncode}")
        return ran.stdout.strip()

    def run(self, *words: str, given: str | None = None, more: Mapping[str, str] | None = None
            ) -> subprocess.CompletedProcess[str]:
        """Runs a command of git: one that talks to a forge by the user's settings, any other by none."""
        self.begin()
        is_afar = words[0] in AFAR
        command = ["git", *([] if is_afar else OWN), "-C", str(self.mirror), *words]
        ran = self.start(command, self.afar if is_afar else {**self.own, **(more or {})},
                         None if given is None else given.encode())
        return subprocess.CompletedProcess(ran.args, ran.returncode, ran.stdout.decode("utf-8", "replace"),
                                           ran.stderr.decode("utf-8", "replace"))

    def start(self, command: list[str], environment: Mapping[str, str], given: bytes | None, folder: Path | None = None
              ) -> subprocess.CompletedProcess[bytes]:
        try:
            return subprocess.run(command, input=given, capture_output=True, env=environment, check=False,
                                  timeout=self.patience, cwd=folder)
        except subprocess.TimeoutExpired as fault:
            words = " ".join(it for it in command[1:] if it not in OWN)
            raise GitFault(f"git {words}: no end within {self.patience:g} seconds") from fault

    def begin(self) -> None:
        """Makes the mirror where there is none."""
        if not self.mirror.exists():
            self.make()

    def make(self) -> None:
        """Makes the mirror under another name first, so that a crash leaves no half of one."""
        new = self.mirror.with_name(f"{self.mirror.name}.new")
        shutil.rmtree(new, ignore_errors=True)
        new.parent.mkdir(parents=True, exist_ok=True)
        ran = self.start(["git", *OWN, "init", "--quiet", "--bare", "--template=", str(new)], self.own, None)
        if ran.returncode != 0:
            raise GitFault(f"git init {new}: {ran.stderr.decode('utf-8', 'replace').strip()}")
        new.rename(self.mirror)
        self.tidy()

    def listed(self, *patterns: str) -> dict[str, str]:
        """The objects of the names there that match these from their beginnings, as `refs/landings/core/*`. They
        needn't be here.

        The server sends all names that it has, whatever is asked for: `ask` and `find` cost the same however many
        there are. It also takes a pattern for the end of a name.
        """
        listed = self.git("ls-remote", "--refs", self.address, *patterns)
        pairs = (line.partition("\t") for line in listed.splitlines())
        return {name: it for it, _, name in pairs
                if any(name == pattern or pattern[-1] == "*" and name.startswith(pattern[:-1]) for pattern in patterns)}

    def ask(self, *names: str, keep: bool = False) -> dict[str, str]:
        """What those of these exact names that are there stand for by now. A branch has to be there.

        Their objects are here then too. Of the names only those of branches stay here, unless all are to be kept.
        """
        branches = [it for it in names if it.startswith("refs/heads/")]
        others = [it for it in names if it not in branches]
        self.git("fetch", "--quiet", "--no-tags", "--prune", self.address, *(f"+{it}:{it}" for it in branches),
                 *(f"+{it}*:{it}*" for it in others))
        found = self.here(*names)
        if not keep:
            self.drop(*(it for it in found if it not in branches))
        return found

    def drop(self, *names: str) -> None:
        """Forgets names here."""
        if names:
            self.git("update-ref", "--stdin", given="".join(f"delete {it}\n" for it in names))

    def set(self, names: Mapping[str, str]) -> None:
        """Sets names here."""
        self.git("update-ref", "--stdin", given="".join(f"update {name} {it}\n" for name, it in names.items()))

    def fetch(self, *names: str) -> None:
        """Fetches names, which have to be there, to the same names here."""
        if names:
            self.git("fetch", "--quiet", "--no-tags", self.address, *(f"+{it}:{it}" for it in names))

    def find(self, *names: str) -> dict[str, str]:
        """Fetches those of these exact names that are there and not here yet, and gives the objects of all now here.

        The names have to stay what they are. A fetch tells the server what it asks for, so it costs the same however
        many names are there; and a pattern that matches nothing is no fault, as a name would be.
        """
        here = self.here(*names)
        lacking = [it for it in names if it not in here]
        if not lacking:
            return here
        self.git("fetch", "--quiet", "--no-tags", self.address, *(f"+{it}*:{it}*" for it in lacking))
        return self.here(*names)

    def here(self, *names: str) -> dict[str, str]:
        """The objects of those of these exact names that are here."""
        listed = self.git("for-each-ref", "--format=%(objectname) %(refname)", *names) if names else ""
        pairs = (line.partition(" ") for line in listed.splitlines())
        return {name: it for it, _, name in pairs if name in names}

    def commit(self, name: str) -> str | None:
        """The commit of a name or an object here, if there is one."""
        ran = self.run("rev-parse", "--quiet", "--verify", f"{name}^{{commit}}")
        return ran.stdout.strip() if ran.returncode == 0 else None

    def names(self, pattern: str) -> dict[str, str]:
        """The names here below a pattern, as `refs/landings/core`, with their objects."""
        listed = self.git("for-each-ref", "--format=%(objectname) %(refname)", pattern)
        return {name: it for it, _, name in (line.partition(" ") for line in listed.splitlines())}

    def content(self, it: str, kind: str = "commit") -> bytes:
        """The content of an object; of a larger one, its first `MOST` bytes."""
        self.begin()
        ran = subprocess.Popen(["git", *OWN, "-C", str(self.mirror), "cat-file", kind, it], env=self.own,
                               stdin=subprocess.DEVNULL, stdout=subprocess.PIPE, stderr=subprocess.PIPE)
        hangs = threading.Timer(PATIENCE, ran.kill)
        hangs.start()
        with ran:
            assert ran.stdout is not None and ran.stderr is not None
            content = ran.stdout.read(MOST)
            # Git ends where nobody reads the rest.
            ran.stdout.close()
            said = ran.stderr.read().decode("utf-8", "replace").strip()
        hangs.cancel()
        if ran.returncode != 0 and len(content) < MOST:
            raise GitFault(f"git cat-file {kind} {it}: {said or ran.returncode}")
        return content

    def kind(self, it: str) -> tuple[str, int]:
        """What kind of an object it is, and of how many bytes."""
        words = self.git("cat-file", "--batch-check", given=f"{it}\n").split()
        if len(words) != 3:
            raise GitFault(f"git cat-file: {' '.join(words)}")
        return words[1], int(words[2])

    def parent(self, commit: str) -> Parent:
        """What a merge reads of a commit, or of the tag at one that is to be squashed. Any other tag stands for its
        commit."""
        if self.kind(commit)[0] != "tag":
            return parent_of(commit, self.content(commit))
        found, peeled = squashed(self.content(commit, "tag")), self.git("rev-parse", f"{commit}^{{commit}}").strip()
        read = parent_of(peeled, self.content(peeled))
        return replace(read, squash=found[1]) if found is not None and found[0] == peeled else read

    def message(self, commit: str) -> str:
        return self.content(commit).partition(b"\n\n")[2].decode("utf-8", "replace")

    def tree(self, commit: str) -> str:
        return self.git("rev-parse", f"{commit}^{{tree}}")

    def line(self, tip: str, *without: str) -> list[Commit]:
        """The commits of a branch by their first parents, the last one first, without those that others have in their
        past: one page of them."""
        ran = self.git("log", "-z", "--first-parent", f"--max-count={PAGE}", "--format=%H%x00%P%x00%B", tip,
                       *(f"^{it}" for it in without), "--")
        words = ran.split("\0")
        return [Commit(words[at], tuple(words[at + 1].split()), words[at + 2]) for at in range(0, len(words) - 2, 3)]

    def merge_trees(self, onto: str, commit: str) -> Merged:
        """The tree of a merge of a commit onto another, or none where they conflict or have no common past."""
        self.begin()
        self.tidy()
        ran = self.run("merge-tree", "--write-tree", "--no-messages", "--name-only", "-z", onto, commit,
                       more=NO_ATTRIBUTES)
        tree, *files = ran.stdout.split("\0")
        # A name that isn't there has the status 1 too, but no tree.
        if ran.returncode == 1 and tree:
            return Merged(None, tuple(dict.fromkeys(it for it in files if it)))
        if "unrelated histories" in ran.stderr:
            return Merged(None)
        if ran.returncode != 0:
            raise GitFault(f"git merge-tree {onto} {commit}: {ran.stderr.strip()}")
        return Merged(tree)

    def merge(self, what: Merge) -> str | None:
        """The landing commit of a merge, or none where it can't be merged."""
        tree = self.merge_trees(what.onto.hash, what.commit.hash).tree
        return None if tree is None else self.write("commit", what.content(tree))

    def write(self, kind: str, content: bytes) -> str:
        """Writes an object, and gives its hash."""
        ran = self.start(["git", *OWN, "-C", str(self.mirror), "hash-object", "-t", kind, "-w", "--stdin"], self.own,
                         content)
        if ran.returncode != 0:
            raise GitFault(f"git hash-object: {ran.stderr.decode('utf-8', 'replace').strip()}")
        return ran.stdout.decode().strip()

    def push(self, updates: Mapping[str, tuple[str | None, str]]) -> bool:
        """Sets names there, all or none: of each what it was, if it was there, and what it becomes.

        False where one of them isn't what it was; `GitFault` where the forge declines them, or it isn't known what came
        of it. They are pushed by a pattern: git takes a name alone for the end of another one that is there too, as
        for that of a tag `refs/landings/core/000002`.
        """
        names = {f"{OUT}{name.removeprefix('refs/')}": name for name in updates}
        self.drop(*self.names(OUT.rstrip("/")))
        self.set({it: updates[name][1] for it, name in names.items()})
        leases = [f"--force-with-lease={name}:{old or ''}" for name, (old, _) in updates.items()]
        is_done = self.pushed(leases, [f"{OUT}*:refs/*"], names)
        self.drop(*names)
        if is_done:
            self.set({name: new for name, (_, new) in updates.items()})
        return is_done

    def take_away(self, name: str, there: str) -> bool:
        """Takes a name away there. False where it isn't what it was."""
        options = ["--prune", f"--force-with-lease={name}:{there}"]
        is_done = self.pushed(options, [f"{OUT}none/{name}*:{name}*"], {})
        self.drop(*(it for it in self.here(name)))
        return is_done

    def remove(self, *names: str) -> None:
        """Takes names away there, whatever they stand for by now; `Declined` where the server refuses that. One that
        isn't there is no fault. They are named by patterns that begin in the last part of a name, since numbers stand
        at its end: 1 begins 12 too."""
        if names:
            parts = (it.rpartition("/") for it in names)
            self.pushed(["--prune"], [f"{OUT}none/*{last}:{folder}/*{last}" for folder, _, last in parts], {})
            self.drop(*self.here(*names))

    def clean(self) -> None:
        """Removes all objects here that no name leads to."""
        self.git("repack", "-a", "-d", "--quiet")
        self.git("prune", "--expire=now")

    def pushed(self, options: list[str], what: list[str], names: Mapping[str, str]) -> bool:
        """Whether a push was done; false where something there isn't what it was."""
        words = ("push", "--quiet", "--porcelain", "--atomic", "--no-follow-tags")
        ran = self.run(*words, *options, self.address, *what)
        if ran.returncode == 0:
            return True
        if any("stale info" in line or "fetch first" in line for line in ran.stdout.splitlines()):
            return False
        said = ran.stdout.strip()
        for it, name in names.items():
            said = said.replace(f"{it}:{name}", name)
        said = f"git push {self.address}: {said} {ran.stderr.strip()}"
        cause = words_of(ran.stdout, ran.stderr)
        raise GitFault(said) if cause is None else Declined(said, cause)
