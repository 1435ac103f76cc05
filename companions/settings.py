"""The settings of the companions, one TOML file: where gate and forge are, and what each companion needs to know.

docs/CONNECTING.md ("The settings of the companions") has its members.
"""
from __future__ import annotations

import re
import tomllib
from dataclasses import dataclass, field
from pathlib import Path

from companions.ci_settings import OWN, Ci, ci_of, status_of
from companions.reader import Reader, SettingsFault
from companions.watch_settings import Hearing, hearing_of

# How old a comparison of the adapter may be, by which something lands, and how often what the forge refuses is tried.
BLIND, TRIES = 900.0, 5
# How long a build may run beyond its limit, and a worker keeps one while its machine is at fault.
GRACE = 300.0
# How long a person reads a commit at least, and for how many days the commits of a closed request are kept.
READING, KEEP = 60.0, 30.0
# The bytes that jobs leave free on a worker's disk, those that one may write, and those of its log.
FREE, SPACE, LOG_LIMIT = 1024 ** 3, 20 * 1024 ** 3, 64 * 1024 ** 2
# The exit statuses of a command by which its build is lost: EX_TEMPFAIL, and those of an end by SIGHUP, SIGINT, SIGKILL
# or SIGTERM, which somebody outside the job sends, as an operator or the kernel that needs memory.
LOST = frozenset({75, 129, 130, 137, 143})


@dataclass(frozen=True)
class Account:
    """A name and a password that the proxy before the gate knows."""
    user: str
    password: str


@dataclass(frozen=True)
class Job:
    """A job of a project: the command that runs it, and how long it may take, in seconds. With a `status` in its place
    a CI runs it, which says by a status of this name how it ended.

    Its sandbox has the folders `read` and `write` of the machine besides, and the machine's network with `network`. Its
    log has `log_limit` bytes. It is lost where the command ends with one of the statuses `lost`.
    """
    name: str
    command: str
    limit: float
    read: tuple[Path, ...] = ()
    write: tuple[Path, ...] = ()
    network: bool = False
    log_limit: int = LOG_LIMIT
    lost: frozenset[int] = LOST
    status: str | None = None


@dataclass(frozen=True)
class Project:
    """A project of the gate's settings: where its repository is, and which branch of it is gated.

    `forge` is the repository's name at the forge, as `owner/name`. Without `evidence` the lander doesn't ask whether
    the workers tested the very commits that it lands. With `squashes` the adapter names revisions so that each lands as
    one commit.
    """
    name: str
    queue: str
    repository: str
    branch: str
    jobs: dict[str, Job] = field(default_factory=dict)
    forge: str = ""
    evidence: bool = True
    squashes: bool = False


@dataclass(frozen=True)
class Adapter:
    """What the adapter needs to know of the forge: its form, the address of its API with a token, what the addresses of
    its requests begin with, the secret of its hooks and where they come in; of the gate's settings, `forge.base`.

    `approvers` are the persons whose approvals count, or none where all do who may write to the repository. People are
    told by a look at the gate every `look`, and of mere progress every `quiet`; `logs` is the address of a build's log,
    with `{build}` in it. Nothing lands by a comparison that is older than `blind`. `copies` is the folder of the copies
    of its tables, and `page` that of what the page for people is told. Whoever approves by a comment that names no
    commit has read what it is for `reading` seconds behind the gate's word of it. The commits of a request that was
    closed without landing are kept for `keep` days. The command `tell` is run for what leaves a queue without landing.
    Approvals are told once the request's own checks of the names `require` have passed.
    """
    form: str
    url: str
    web: str
    token: str
    secret: str
    base: str
    host: str
    port: int
    approvers: frozenset[str] | None
    compare: float
    look: float
    quiet: float
    logs: str | None
    blind: float = BLIND
    copies: Path | None = None
    page: Path | None = None
    reading: float = READING
    keep: float = KEEP
    tell: str | None = None
    require: tuple[str, ...] = ()


@dataclass(frozen=True)
class Settings:
    """All that the file says. Times are in seconds. `figures` is the folder of the watch's figures.

    `has_adapter`: the lander lands only what an adapter has compared. `tries` is how often it tries what is refused.
    `file` is where they were read, which no job may read. Without `sandbox` jobs run as the worker does. A job is
    killed once less than `free` bytes are left, and is at fault where it has written more than `space`. A worker whose
    machine is at fault keeps its build for `patience`. Logs of builds are in `logs`, or with each worker. Files of
    trees are had by these `filters` of git. A watch without `hearing` hears no workers.
    """
    url: str
    accounts: dict[str, Account]
    folder: Path
    projects: dict[str, Project]
    pause: float
    look: float
    grace: float
    stands: float
    author: str
    adapter: Adapter | None = None
    has_adapter: bool = True
    tries: int = TRIES
    figures: Path | None = None
    file: Path = Path("/dev/null")
    sandbox: bool = True
    free: int = FREE
    space: int = SPACE
    patience: float = GRACE
    logs: Path | None = None
    filters: frozenset[str] = frozenset()
    ci: Ci = Ci()
    hearing: Hearing | None = None

    @property
    def blind(self) -> float:
        """How old a comparison may be, also of an adapter that isn't set up here."""
        return self.adapter.blind if self.adapter is not None else BLIND

    def account(self, role: str) -> Account | None:
        """The account of a role, or none where the gate is asked without."""
        return self.accounts.get(role)

    def projects_of(self, queue: str) -> list[Project]:
        """The projects whose changes stand in a queue, in the order of the file."""
        return [it for it in self.projects.values() if it.queue == queue]

    def limit_of(self, queue: str, job: str) -> float | None:
        """The longest that a job of this name may take in a queue, or none where no project of it has the job. A CI has
        to begin one besides."""
        found = [it.jobs[job] for it in self.projects_of(queue) if job in it.jobs]
        return max((it.limit + (self.ci.begins if it.status else 0.0) for it in found), default=None)

    def of_ci(self) -> list[str]:
        """The projects with jobs that a CI runs."""
        return [it.name for it in self.projects.values() if any(job.status for job in it.jobs.values())]

    def lacking(self, queue: str, project: str, job: str) -> str | None:
        """What has to be added so that a build of this queue can be run, or none. Without a project that of its change
        isn't known yet, and without a job its job doesn't matter yet."""
        projects = {it.name: it for it in self.projects_of(queue)}
        if not projects:
            return f"no project of the queue {queue} is in companions.toml: add each by [[project]]"
        if project and project not in projects:
            return (f"the gate has the change in project {project}: add its [[project]] with the queue {queue} to"
                    " companions.toml")
        if job and job not in projects[project].jobs:
            return f"project {project} has no job {job}: add its [[project.job]] to companions.toml"
        if job and projects[project].jobs[job].status:
            return f"job {job} of project {project} is a CI's: companions.ci runs it, and no worker"
        return None


AUTHOR = re.compile(r"[^<>\x00-\x20\x7f](?:[^<>\x00-\x1f\x7f]*[^<>\x00-\x20\x7f])? <[^<>\x00-\x20\x7f]+>")
# A password in an address, or a token in the place of a user's name, by how forges begin tokens or how long they are.
PASSWORD = re.compile(r"[a-z][a-z0-9+.-]*://(?:[^/?#@]*:[^/?#]*"
                      r"|(?:gh[opsur]_|github_pat_|gl[a-z]{2,5}-|[0-9a-f]{40})[^/?#@]*)@", re.IGNORECASE)
FILTERS = frozenset({"lfs"})
ROLES = ("forge", "worker", "people", "standby")
# The forms of forge; forms.py has the client of each.
FORMS = ("gitea", "github", "gitlab")
LANDS = ("merge", "squash")


def read(file: Path) -> Settings:
    """The settings of a file, or `SettingsFault`."""
    try:
        table = tomllib.loads(file.read_text(encoding="utf-8"))
    except OSError as fault:
        raise SettingsFault(f"{file}: can't be read: {fault.strerror}") from fault
    except ValueError as fault:
        raise SettingsFault(f"{file}: no TOML: {fault}") from fault
    top = Reader(file, "", table)
    gate, lander, worker, watch = (top.inner(it) for it in ("gate", "lander", "worker", "watch"))
    grace, look = watch.seconds("grace", GRACE), worker.seconds("look", 10.0)
    adapter = adapter_of(top)
    settings = Settings(
        url=gate.address("url"), accounts=accounts_of(gate), folder=Path(top.text("folder")), projects=projects_of(top),
        pause=gate.seconds("pause", 1.0), look=look, grace=grace,
        stands=watch.seconds("stands", 3600.0), author=author_of(lander),
        adapter=adapter, has_adapter=lander.get("adapter", bool, True), tries=lander.count("tries", TRIES),
        figures=Path(watch.text("figures", str(Path(top.text("folder")) / "watch"))),
        file=file.resolve(), sandbox=worker.get("sandbox", bool, True),
        free=worker.count("free", FREE), space=worker.count("space", SPACE),
        patience=worker.seconds("patience", grace),
        logs=Path(worker.text("logs")) if "logs" in worker.table else None, filters=filters_of(worker),
        ci=ci_of(top, adapter, FORMS), hearing=hearing_of(watch, look))
    keep_secret(top, settings)
    for it in (top, gate, lander, worker, watch):
        it.end()
    return settings


def keep_secret(top: Reader, settings: Settings) -> None:
    """No job is given a folder that has the settings in it, or what the companions keep, or is one of theirs."""
    folders = [it.resolve() for it in (settings.folder, settings.logs) if it is not None]
    above = {*settings.file.parents, *folders, *(above for it in folders for above in it.parents)}
    for project in settings.projects.values():
        for job in project.jobs.values():
            for it in (*job.read, *job.write):
                real = it.resolve()
                if real in above or any(folder in real.parents for folder in folders):
                    raise top.fault("project", f"{project.name}, job {job.name}: {it} has the settings or the folder "
                                               "of the companions in it, or is in that folder: no job may have it")


def filters_of(worker: Reader) -> frozenset[str]:
    """The filters of git by which a tree's files are had."""
    named = worker.names("filters") or frozenset()
    for it in sorted(named - FILTERS):
        raise worker.fault("filters", f"{it} is none of {', '.join(sorted(FILTERS))}")
    return named


def author_of(lander: Reader) -> str:
    """The author of the landing commits, as git writes it."""
    author = lander.text("author", "gate <gate@localhost>")
    if not AUTHOR.fullmatch(author):
        raise lander.fault("author", "isn't NAME <ADDRESS>")
    return author


def adapter_of(top: Reader) -> Adapter | None:
    """What the adapter needs, or none where no adapter is set up."""
    table = top.inner("adapter")
    if not table.table:
        return None
    form = table.text("form")
    if form not in FORMS:
        raise table.fault("form", f"is none of {', '.join(FORMS)}")
    host, port = table.place("listen", "127.0.0.1:8090")
    compare = table.seconds("compare", 300.0)
    adapter = Adapter(form, table.address("url"), table.address("web"), table.text("token"), table.text("secret"),
                      table.text("base"), host, port, table.names("approvers"), compare,
                      table.seconds("look", 5.0), table.seconds("quiet", 60.0),
                      table.address("logs") if "logs" in table.table else None,
                      table.seconds("blind", max(BLIND, 3 * compare)),
                      Path(table.text("copies")) if "copies" in table.table else None,
                      Path(table.text("page")) if "page" in table.table else None,
                      table.seconds("reading", READING), table.seconds("keep", KEEP),
                      table.text("tell") if "tell" in table.table else None,
                      tuple(sorted(table.names("require") or ())))
    if adapter.blind <= compare:
        raise table.fault("blind", "isn't above adapter.compare")
    for it in adapter.require:
        if it == OWN:
            raise table.fault("require", f"{it} is the gate's own status, which waits for the approval")
    if adapter.logs is not None and "{build}" not in adapter.logs:
        raise table.fault("logs", "has no {build}")
    table.end()
    return adapter


def accounts_of(gate: Reader) -> dict[str, Account]:
    accounts = {}
    for role in ROLES:
        account = gate.inner(role)
        if account.table:
            accounts[role] = Account(account.text("user"), account.text("password"))
        account.end()
    return accounts


def projects_of(top: Reader) -> dict[str, Project]:
    projects: dict[str, Project] = {}
    branches: set[tuple[str, str]] = set()
    for it in top.each("project"):
        name = it.text("name")
        project = Project(name, it.text("queue"), repository_of(it), it.text("branch", "main"), jobs_of(it),
                          it.text("forge", name), it.get("evidence", bool, True), squashes(it))
        if project.name in projects:
            raise it.fault("name", f"{project.name} stands twice")
        if (project.repository, project.branch) in branches:
            raise it.fault("branch", f"{project.branch} of {project.repository} is another project's")
        if any((other.forge, other.branch) == (project.forge, project.branch) for other in projects.values()):
            raise it.fault("forge", f"{project.branch} of {project.forge} is another project's")
        # A queue's landings and changes are told from each other by their repository.
        if any(other.queue == project.queue and other.repository == project.repository for other in projects.values()):
            raise it.fault("repository", f"{project.repository} is another project's of the queue {project.queue}")
        it.end()
        projects[project.name] = project
        branches.add((project.repository, project.branch))
    if not projects:
        raise top.fault("project", "is missing")
    return projects


def squashes(project: Reader) -> bool:
    """Whether a project's changes land as one commit each."""
    land = project.text("land", LANDS[0])
    if land not in LANDS:
        raise project.fault("land", f"is none of {', '.join(LANDS)}")
    return land == LANDS[1]


def repository_of(project: Reader) -> str:
    """The address of a project's repository. git prints it where something fails, and shows it to all who list the
    machine's processes, as jobs can."""
    address = project.text("repository")
    if PASSWORD.match(address):
        raise project.fault("repository", "has a password in it, which git prints and other programs see: use SSH with"
                                          " a key, or leave the password to a credential helper of git")
    return address


def jobs_of(project: Reader) -> dict[str, Job]:
    jobs: dict[str, Job] = {}
    for it in project.each("job"):
        status = status_of(it)
        job = Job(it.text("name"), "" if status else it.text("command"), it.seconds("limit", 3600.0),
                  it.folders("read"), it.folders("write"), it.get("network", bool, False),
                  it.count("log_limit", LOG_LIMIT), it.statuses("lost", LOST), status)
        if job.name in jobs:
            raise it.fault("name", f"{job.name} stands twice")
        if status and any(other.status == status for other in jobs.values()):
            raise it.fault("status", f"{status} is another job's")
        it.end()
        jobs[job.name] = job
    return jobs
