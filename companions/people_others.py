"""What is known of a change beside what the gate says: by the lander, by the settings, and by merges."""
from __future__ import annotations

from collections.abc import Callable, Mapping
from dataclasses import replace
from pathlib import Path

from companions import answers, links
from companions.answers import Said
from companions.failures import Failures
from companions.links import Link
from companions.people_seen import Seen, Subject


class KnownByOthers:
    """What the lander in this folder has answered, which jobs workers know, why a failed change can't be merged, and
    where the logs are of what a CI has run.

    `jobs` are those of a change's project that workers know, if they are known here, and `landing` gives the commit of
    a change at a place of a queue, if that is known.
    """

    def __init__(self, folder: Path, jobs: Callable[[int], frozenset[str] | None], failures: Failures,
                 landing: Callable[[int, str, int], str | None] = lambda change, queue, place: None) -> None:
        self.file, self.jobs, self.failures, self.landing = answers.file_in(folder), jobs, failures, landing
        self.links = links.file_in(folder)

    def __call__(self) -> Callable[[Subject, Seen], Seen]:
        """A look begins, behind the one at the gate: whatever the lander tells the gate it has answered before."""
        said = answers.read(self.file)
        logs = {(it.build, it.change, it.revision, it.job): it for it in links.read(self.links)}
        self.failures.look()
        return lambda subject, seen: self.known(subject, linked(subject, seen, logs), said)

    def known(self, subject: Subject, seen: Seen, said: Said) -> Seen:
        item, report = seen.item, seen.report
        order = item.order if item is not None else report.order if report is not None else None
        cause = self.failures.cause(subject.change, order, seen.builds) if order is not None and seen.builds else None
        landing = None
        if subject.is_squashed and report is not None and report.n is not None:
            landing = self.landing(subject.change, report.queue, report.n)
        return replace(seen, landing=landing, stopped=said.stopped.get(item.queue) if item is not None else None,
                       refused=said.why_refused(subject.change, subject.revision), jobs=self.jobs(subject.change),
                       cause=cause)


def linked(subject: Subject, seen: Seen, logs: Mapping[tuple[int, int, int, str], Link]) -> Seen:
    """What is seen, with the links of those builds that a CI has run: by all that names a build, since a restored gate
    gives its number again."""
    found = {it["build"]: logs.get((it["build"], subject.change, subject.revision, it["job"])) for it in seen.builds}
    if not any(found.values()):
        return seen
    return replace(seen, builds=[{**it, "link": link.link} if (link := found[it["build"]]) else it
                                 for it in seen.builds])
