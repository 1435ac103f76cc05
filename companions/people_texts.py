"""What people are told on a request: a short status of its commit and a comment, from what the gate says of its change.

Nothing here asks anybody. Each text is true of what is given, and says what the author can do where there is anything.
"""
from __future__ import annotations

import re
from collections.abc import Mapping, Sequence
from typing import Any

from companions.conflicts import Cause
from companions.forges import APPROVES, FAILURE, PENDING, SUCCESS
from companions.people_seen import (
    Item, Report, Seen, Subject, Text, Words, cut, failures_of, listed, marked_jobs, plain, short_jobs)
from companions.requests import State

# The kinds of texts behind which nothing more comes, unless the request is opened again.
ENDS = ("landed", "closed")
# And those of a request that waits for an approval.
UNAPPROVED = ("unknown", "unapproved", "withdrawn", "needs", "refused", "failed")

# A link within a comment.
LINK = re.compile(r"\[([^\[\]]*)\]\([^()]*\)")

REFUSALS = {"E13": ("it needs over 32 requests", "Name at most 32 in its `Depends-On` lines."),
            "ahead": ("it is dated more than a day ahead", "Set the clock right, make the commit anew by"
                      " `git commit --amend --no-edit`, and push it."),
            "E7": ("it has no such project", "Tell who runs the gate."),
            "E8": ("it knows the change under another project", "Tell who runs the gate.")}


def text_of(subject: Subject, seen: Seen, words: Words) -> Text | None:
    """The text about the newest commit; none where there is nothing to say, or only the next look can tell."""
    item, known, report = seen.item, seen.known, seen.report
    here = report if report is not None and report.revision == subject.revision else None
    revisions = [it.revision for it in (item, report) if it is not None] + ([known["revision"]] if known else [])
    if max(revisions, default=0) > subject.revision:
        return None
    if report is not None and report.verdict == "landed":
        return landed(subject, report, seen.landing)
    if item is not None and item.revision == subject.revision:
        return queued(item, seen, words)
    if not subject.is_gated:
        return Text("elsewhere", PENDING, "Not for the gate: it lands nothing in this branch",
                    ("**Not for the gate: it lands nothing in this branch.**",
                     "To land it, give it another target branch and have it approved."))
    if subject.refused:
        return refused(subject.refused)
    if item is not None:
        return earlier_stands(item)
    if known is None and here is not None:
        return left(subject, here, seen, words)
    if known is None or known["revision"] < subject.revision:
        return unknown() if subject.state is State.OPEN else None
    if known["approval"] is not None:
        return waiting(subject.change, known, seen.circle, words)
    if known["order"] is not None or known["state"] == "landed":
        return None
    if known["state"] == "closed":
        return closed(subject)
    return left(subject, here, seen, words) if here is not None else unapproved(report)


def comment_of(subject: Subject, text: Text, more: Sequence[str] = ()) -> str:
    """A comment as it is written."""
    return "\n\n".join(parts_of(subject, text, more))


def parts_of(subject: Subject, text: Text, more: Sequence[str] = ()) -> list[str]:
    """The paragraphs of a comment: what the text says and more, why approvals don't count, the message of earlier
    with which it lands, the line that approves its commit whatever was seen before, and the lines that name no request.
    """
    parts = [*text.comment, *more]
    if subject.votes and text.kind not in ENDS:
        parts += ["These votes don't approve it:", block(subject.votes)]
    if subject.earlier and text.kind not in ENDS:
        parts += ["It lands with the title and the text that it had when the gate was told of this commit:",
                  block(subject.earlier), "To have those of now, push once more."]
    if subject.state is State.OPEN and text.kind in UNAPPROVED:
        parts += ["To approve this commit by a comment, write one that is this line alone:",
                  block([f"{APPROVES} {subject.commits[-1]}"])]
    if subject.lines:
        parts += ["These lines of its text name no request that the gate takes, so nothing is waited for:",
                  block(subject.lines), "Mend them in the text of the request."]
    return parts


def unmarked(paragraph: str) -> str:
    """A paragraph of a comment where nobody reads Markdown. Lines of people stay as they are."""
    return "\n".join(line if line.startswith("    ") else LINK.sub(r"\1", line).replace("**", "").replace("`", "")
                     for line in paragraph.splitlines())


def block(lines: Sequence[str], most: int = 10) -> str:
    """Lines of people, shown as they are."""
    more = f"\n\nand {len(lines) - most} more" if len(lines) > most else ""
    return "\n".join(f"    {plain(it)}" for it in lines[:most]) + more


def unknown() -> Text:
    return Text("unknown", PENDING, "The gate doesn't know this commit yet",
                ("**The gate doesn't know this commit yet.**", "It is told of it soon. There is nothing to do."), False)


def refused(code: str) -> Text:
    why, advice = REFUSALS.get(code, (code, "Tell who runs the gate."))
    return Text("refusal", FAILURE, f"The gate didn't take this commit: {why}",
                (f"**The gate didn't take this commit: {why}.**", advice))


def unapproved(report: Report | None) -> Text:
    """Of an open change that doesn't wait; the report, if there is one, is of an earlier revision."""
    if report is None:
        return Text("unapproved", PENDING, "Waits for approval",
                    ("**Waits for approval.**", "Once it is approved, the gate tests it and lands it."), False)
    return Text("unapproved", PENDING, "Waits for a new approval",
                ("**Waits for a new approval.**",
                 "An approval counts for one commit with its `Depends-On` lines, until the request is closed."))


def closed(subject: Subject) -> Text | None:
    """An open request of a closed change is told to the gate soon, at a new revision."""
    if subject.state is State.MERGED:
        return Text("closed", FAILURE, "Merged past the gate, which didn't land it",
                    ("**Merged past the gate, which didn't land it.**",), False)
    if subject.state is State.CLOSED:
        return Text("closed", FAILURE, "Closed without landing",
                    ("**Closed without landing.**", "To land it, open it again and have it approved."), False)
    return None


def landed(subject: Subject, report: Report, landing: str | None) -> Text:
    """The commit of a later revision hasn't landed with that of an earlier one, unless it is the same."""
    commit, said = subject.commits[report.revision - 1], f"Landed in {report.queue} as {report.n}"
    if commit == subject.commits[-1]:
        more = [] if landing is None else [f"Its branch has it as one commit: {landing}"]
        return Text("landed", SUCCESS, said, (f"**Landed in `{report.queue}` as {report.n}.**", *more))
    return Text("landed", FAILURE, f"{said}, without this commit: open a new request",
                (f"**Landed in `{report.queue}` as {report.n}, at its earlier commit {commit[:12]}.**",
                 "What was pushed later came too late. Open a new request for it."), landed=(commit, said))


def waiting(change: int, known: Mapping[str, Any], circle: frozenset[int], words: Words) -> Text:
    """Of an approved change that may not enter its queue."""
    queue = known["queue"]
    lacks = [it for it in known["needs"] if it["state"] != "landed" and it["stands"] != queue]
    head = f"**Approved, and waits to enter `{queue}`.**"
    if not lacks:
        why, advice = (("a place: the queue has 1,000 items", "It enters once some of them have left.")
                       if known["full"] else ("its turn", "It enters soon."))
        return Text("waiting", PENDING, f"Approved, waits for {why}", (head, f"{advice} There is nothing to do."))
    told = [lacking(it, change, circle, words) for it in lacks]
    parts = [head, "\n".join(f"- {advice}" for _, advice in told)]
    if any("`Depends-On`" in advice for _, advice in told):
        parts.append("If you change its `Depends-On` lines, have it approved again.")
    if circle:
        others = listed([words.request(it) for it in sorted(circle) if it != change])
        why = f"it and {others} need each other" if others else "it needs itself"
        parts[0] = f"**Approved, but can't enter `{queue}`: {why}.**"
        return Text("circle", PENDING, f"Can't enter {queue}: {why}", tuple(parts))
    more = f", and for {len(told) - 1} more" if len(told) > 1 else ""
    return Text("waiting", PENDING, f"Approved, waits for {told[0][0]}{more}", tuple(parts))


def lacking(need: Mapping[str, Any], change: int, circle: frozenset[int], words: Words) -> tuple[str, str]:
    """Why a need isn't met: in short, and with what can be done."""
    name, stands = words.request(need["change"]), need["stands"]
    if need["change"] == change:
        return "itself", "It needs itself, so it can't enter: take that `Depends-On` line out."
    if need["change"] in circle:
        return (f"{name}, which needs it too",
                f"{name} needs this one too, so neither can enter: take out one of their `Depends-On` lines.")
    if stands is not None:
        return f"{name} to land in {stands}", f"{name} stands in the queue `{stands}`: wait until it has landed."
    if need["approval"] is not None:
        return f"{name}, which waits too", f"{name} is approved and waits too: see there for what."
    if need["state"] == "open":
        return f"{name}, which isn't approved", f"{name} isn't approved: have it approved."
    if need["state"] == "closed":
        return (f"{name}, which is closed", f"{name} is closed: open it again and have it approved. If it was merged"
                " past the gate or isn't needed, take its `Depends-On` line out.")
    return (f"{name}, which the gate doesn't know",
            f"The gate doesn't know {name}: wait until it is told of it, or take its `Depends-On` line out.")


def earlier_stands(item: Item) -> Text:
    """The gate has an earlier revision in the queue: it takes the new one at once, unless that is being landed."""
    if not item.lands:
        return unknown()
    return Text("late", PENDING, f"An earlier commit is being landed in {item.queue}",
                (f"**An earlier commit of this request is being landed in `{item.queue}`.**",
                 "If it lands, open a new request for what you pushed later. If it doesn't, the gate takes the new"
                 " commit."))


def queued(item: Item, seen: Seen, words: Words) -> Text:
    """Each landing moves all behind it, so its place stands in the status alone: forges bound what may be written."""
    at, where = f"at place {item.place} of {item.items} in", f"`{item.queue}`"
    jobs = f"{marked_jobs(item, seen.voting)}."
    push = "If you push a new commit, it leaves the queue and has to be approved again."
    slots = {slot for _, slot in item.slots}
    if item.how == "blocked":
        return blocked(item, seen, words)
    if item.how == "failing":
        return failing(item, seen, words)
    if item.lands and seen.stopped is not None:
        return Text("stopped", PENDING, f"Tests passed, but nothing lands in {item.queue} for now",
                    (f"**Its tests have passed, but nothing lands in {where} for now.** The lander says:",
                     block(words.plain(seen.stopped).splitlines()),
                     "It lands by itself once that is over. If that takes long, tell who runs the gate."))
    if item.lands:
        return Text("landing", PENDING, f"Tests passed, being landed in {item.queue}",
                    (f"**Its tests have passed, and it is being landed in {where}.**",
                     "A commit that you push now may come too late for it."))
    if not slots & {"running", "waiting"}:
        return Text("tested", PENDING, f"Tests passed, waits for those before it, {at} {item.queue}",
                    (f"**Its tests have passed, and it waits in {where} for those before it.**", jobs,
                     "If one that it was tested on leaves without landing, it is tested anew. " + push))
    if slots != {"waiting"}:
        return Text("testing", PENDING, f"Testing {at} {item.queue}: {short_jobs(item)}",
                    (f"**Being tested in {where}.**", jobs, push))
    if 0 < item.window < item.place:
        tested = f"only the first {item.window} get tests" if item.window > 1 else "only the first gets tests"
        return Text("queued", PENDING, f"Queued {at} {item.queue}, of which {tested} for now",
                    (f"**Queued in {where}.**",
                     "For now only those nearer to the front get tests. There is nothing to do.", push))
    return Text("queued", PENDING, f"Queued {at} {item.queue}, waits for a worker",
                (f"**Queued in {where}.**", "It waits for a worker. There is nothing to do.", push))


def blocked(item: Item, seen: Seen, words: Words) -> Text:
    at = f"at place {item.place} of {item.items} in"
    names = [words.request(it) for it in sorted(seen.failing)]
    names_or_that = listed(names) or "that"
    fails = "fails" if len(names) < 2 else "fail"
    why = f"it needs {listed(names)}, which {fails}" if names else "what it needs fails"
    return Text("blocked", PENDING, f"Blocked {at} {item.queue}: {why}",
                (f"**Blocked in `{item.queue}`: {why}.**",
                 f"It is tested if {names_or_that} can pass after all. If not, it leaves the queue too."))


def failing(item: Item, seen: Seen, words: Words) -> Text:
    at = f"at place {item.place} of {item.items} in"
    failed = [job for job, slot in item.slots if slot == "failure" and (seen.voting is None or job in seen.voting)]
    found = [it for it in failures_of(seen.builds, seen.jobs) if it.job in failed]
    told = "\n".join(f"- {it.line(words)}" for it in found) or f"{marked_jobs(item, seen.voting)}."
    then = ("If one that it was tested on leaves without landing, it is tested anew. Else it leaves the queue."
            if item.ahead is not None else "It leaves the queue once its other jobs have ended.")
    then += " You can mend it and push now: then it has to be approved again."
    if seen.cause is not None:
        why = f"{unmerged(seen.cause, words)}"
        return Text("failing", PENDING, cut(f"Failing {at} {item.queue}: {why}", 120),
                    (f"**Failing in `{item.queue}`: it can't be merged.**", *conflict(seen.cause, words), then))
    return Text("failing", PENDING, f"Failing {at} {item.queue}: {listed(failed)} failed",
                (f"**Failing in `{item.queue}`: {listed([f'`{it}`' for it in failed])} failed.**", told, then))


def unmerged(cause: Cause, words: Words) -> str:
    """Why a change can't be merged, for a status."""
    if not cause.files:
        return "no common past with its branch"
    if cause.stacked:
        return f"has commits of {words.conflict(cause)}, which lands as one: rebase it"
    return f"conflicts with {words.conflict(cause)} in {listed([cut(plain(it), 40) for it in cause.files])}"


def conflict(cause: Cause, words: Words) -> tuple[str, ...]:
    """Why a change can't be merged, for a comment."""
    if not cause.files:
        return ("It has no common past with its branch.",)
    said = f"It conflicts with {words.conflict(cause)} in:", block(cause.files)
    if not cause.stacked:
        return said
    return (*said, f"It was begun from commits of {words.conflict(cause)}, which lands as one: rebase it onto its"
                   " branch without these, once that has landed.")


def left(subject: Subject, report: Report, seen: Seen, words: Words) -> Text | None:
    """Of a change whose last item left without landing, at this revision."""
    head = f"**Left `{report.queue}`"
    if report.verdict == "failed":
        return failed(report, seen, words)
    if report.verdict == "refused":
        return not_landed(head, seen.refused and words.plain(seen.refused))
    if report.verdict == "needs":
        needs = seen.known["needs"] if seen.known is not None else ()
        names = [words.request(it["change"]) for it in needs if it["state"] != "landed"]
        which = f"{listed(names)}, which it needs," if names else "what it needs"
        wait = f"Have it approved again: it then waits for {listed(names)}." if names else "Have it approved again."
        return Text("needs", FAILURE, f"Left {report.queue}: {which} left without landing",
                    (f"{head}: {which} left without landing.**", wait))
    if report.verdict != "withdrawn":
        return closed(subject)
    return Text("withdrawn", PENDING, "Waits for approval: the earlier one was taken back",
                (f"{head}: its approval was taken back.**", "To land it, have it approved again."))


def not_landed(head: str, why: str | None) -> Text:
    """Of a change whose order the lander has refused, which says why where it is one of the companions."""
    said = f"{head}: its tests passed, but it couldn't be landed.**"
    if why is None:
        return Text("refused", FAILURE, "Couldn't be landed. Mend conflicts and push, or have it approved again",
                    (said, "If it conflicts with its branch, mend that, push, and have the new commit approved. If it"
                           " doesn't, have it approved again as it is."))
    return Text("refused", FAILURE, cut(f"Couldn't be landed: {plain(why)}", 120),
                (f"{said} The lander says:", block(why.splitlines()),
                 "If that is the commit's fault, mend it, push, and have the new commit approved. If it isn't, have it"
                 " approved again as it is."))


def failed(report: Report, seen: Seen, words: Words) -> Text:
    """Where it isn't known which jobs vote, all that failed are named."""
    if seen.cause is not None:
        return Text("failed", FAILURE, cut(f"Can't be merged: {unmerged(seen.cause, words)}. Mend it and push", 120),
                    (f"**Left `{report.queue}`: it can't be merged.**", *conflict(seen.cause, words),
                     "Mend that: rebase it, or merge its branch into it once the other one has landed. Then push, and"
                     " have the new commit approved." if seen.cause.files else
                     "Begin it anew from its branch, push, and have the new commit approved."))
    found = [it for it in failures_of(seen.builds, seen.jobs) if seen.voting is None or it.job in seen.voting]
    lacks = [it.job for it in found if it.is_unknown]
    only = f"no worker knows its job {listed([f'`{it}`' for it in lacks])}"
    head = f"**Left `{report.queue}`: {only if lacks and len(lacks) == len(found) else 'its tests failed'}.**"
    parts = [head, *(["\n".join(f"- {it.line(words)}" for it in found)] if found else [])]
    if seen.voting is None and len(found) > 1:
        parts.append("A job that doesn't vote may be among these.")
    said = listed([str(it) for it in found])
    if lacks:
        parts.append("Tell who runs the workers: a job of the gate's settings isn't in theirs.")
    if found and all(it.is_lost for it in found):
        status = f"{said}. {'Tell who runs the workers' if lacks else 'Have it approved again'}"
        parts.append("Have it approved again once they have it." if lacks else
                     "Have it approved again. If that happens again, tell who runs the workers.")
    else:
        status = f"{said or 'Failed'}. Mend it and push, or have it approved again"
        parts.append("Mend it, push, and have the new commit approved. If it failed by chance, have it approved again"
                     " as it is.")
    return Text("failed", FAILURE, status, tuple(parts))
