"""The settings of the jobs that a CI runs: the table `[ci]`, and the status that stands for a job.

docs/CONNECTING.md ("With the CI that you have") has their meaning.
"""
from __future__ import annotations

from dataclasses import dataclass
from typing import TYPE_CHECKING

from companions.reader import Reader

if TYPE_CHECKING:
    from companions.settings import Adapter

# So many builds are with the CI at once, so many commands are run beside them, and so long a CI may take until a name
# has come.
PARALLEL, COMMANDS, BEGINS = 20, 4, 900.0
# So often a run is asked for, in seconds, where no hook comes.
LOOK = 30.0
# The name of the adapter's own status, which no CI has; and the longest name that forges take.
OWN, LONGEST = "gate", 255
# The App by whose name the workflows of all branches speak at github.com, and so many Apps are asked for; and the
# accounts by which such workflows set statuses.
ACTIONS, APPS = 15368, 10
SHARED = frozenset({"github-actions", "github-actions[bot]", "gitea-actions"})
OF_ALL = "by which the workflows of all branches speak: leave it out, and their jobs count by branch, commit and event"


@dataclass(frozen=True)
class Ci:
    """How `companions.ci` works: `parallel` builds at once, and beside them `commands`; a name has to come within
    `begins` seconds. A status of a commit counts only from the accounts of `trusted`, and a check run only from the
    Apps of these numbers. The forge is the adapter's unless the table names one: its form, the address of its API, and
    a token. Hooks come in at `host` and `port`, signed by `secret`, if a port is named.
    """
    parallel: int = PARALLEL
    commands: int = COMMANDS
    begins: float = BEGINS
    look: float = LOOK
    trusted: frozenset[str] = frozenset()
    form: str = ""
    url: str = ""
    token: str = ""
    secret: str = ""
    host: str = ""
    port: int | None = None
    trusted_apps: frozenset[int] = frozenset()

    @property
    def has_forge(self) -> bool:
        return bool(self.form and self.url and self.token)


def ci_of(top: Reader, adapter: Adapter | None, forms: tuple[str, ...]) -> Ci:
    """The table, with the adapter's forge where it names none."""
    table = top.inner("ci")
    form = own(table, "form", adapter.form if adapter else "")
    if form and form not in forms:
        raise table.fault("form", f"is none of {', '.join(forms)}")
    host, port = listens(table)
    url = own(table, "url", "") and table.address("url") or (adapter.url if adapter else "")
    token, secret = (own(table, it, getattr(adapter, it) if adapter else "") for it in ("token", "secret"))
    if port is not None and not secret:
        raise table.fault("listen", "takes hooks, and neither ci.secret nor adapter.secret says how they are signed")
    given = Ci(table.count("parallel", PARALLEL), table.count("commands", COMMANDS), table.seconds("begins", BEGINS),
               table.seconds("look", LOOK), trusted_of(table), form, url, token, secret, host, port,
               apps_of(table, form))
    table.end()
    return given


def trusted_of(table: Reader) -> frozenset[str]:
    """The logins whose statuses count."""
    named = table.names("trusted") or frozenset()
    for it in sorted(named):
        if it.casefold() in SHARED:
            raise table.fault("trusted", f"{it} is an account {OF_ALL}")
    return named


def apps_of(table: Reader, form: str) -> frozenset[int]:
    """The Apps of GitHub whose check runs count. They are given by their numbers: a name can be given up, and then
    somebody else may take it."""
    given = table.numbers("trusted_apps", "the numbers of Apps, as [12345]")
    if given and form not in ("", "github"):
        raise table.fault("trusted_apps", f"is for the check runs of GitHub's Apps, and {form} has none")
    if ACTIONS in given:
        raise table.fault("trusted_apps", f"{ACTIONS} is the App of Actions, {OF_ALL}")
    if len(given) > APPS:
        raise table.fault("trusted_apps", f"has more than {APPS} Apps")
    return given


def own(table: Reader, member: str, other: str) -> str:
    """A text of the table, or another one where it has none."""
    table.read.add(member)
    return table.text(member) if member in table.table else other


def listens(table: Reader) -> tuple[str, int | None]:
    """Where hooks come in, or no port."""
    table.read.add("listen")
    return table.place("listen", "127.0.0.1:8091") if "listen" in table.table else ("", None)


def status_of(job: Reader) -> str | None:
    """The name of the status that stands for a job; none where it has a command, which a worker runs."""
    status = own(job, "status", "")
    if not status:
        return None
    for it in ("command", "read", "write", "network", "log_limit", "lost"):
        if it in job.table:
            raise job.fault(it, "is of a job that a worker runs: the CI that sends `status` runs this one")
    if len(status) > LONGEST or not status.isprintable() or status != status.strip():
        raise job.fault("status", f"isn't the name of a status: at most {LONGEST} characters that can be printed, "
                                  "without spaces around")
    if status == OWN:
        raise job.fault("status", f"{OWN} is the adapter's own status, which waits for this job")
    return status
