"""What has to be so at the end of a run, by the gate's own texts; and that evidence which was turned is refused."""
import copy

from gate import parse_history, parse_status
from settings import voting_jobs


class Refused(Exception):
    """The run isn't what a gate may do."""


def say(is_so, fault):
    if not is_so:
        raise Refused(fault)


class Evidence:
    """The histories of all queues and all builds that were given out, as the gate tells them."""

    def __init__(self, settings, stream, gate, builds):
        self.projects, self.stream = settings["projects"], stream
        self.reports = {queue: parse_history(gate.ask(f"/history/{queue}")) for queue in settings["queues"]}
        self.builds = {number: gate.ask_json(f"/builds/{number}") for number in builds}
        queues, self.waiting = parse_status(gate.ask("/status"))
        self.standing = [(item[0], item[1]) for queue in queues.values() for item in queue["items"]]
        for queue, reports in self.reports.items():
            landed = sum(report[3] == "landed" for report in reports)
            say(landed == queues[queue]["landed"], f"{queue}: the status tells of other landings than the history")

    def landings(self, queue):
        return [(change, revision) for _, change, revision, verdict, _ in self.reports[queue] if verdict == "landed"]

    def judge(self):
        """Each landing passed each voting job, once, on exactly what had landed before it, and none fails there; how
        many builds show it."""
        shown = 0
        successes = {}
        for number, build in self.builds.items():
            if build["outcome"] == "success" and build["live"]:
                key = build["queue"], build["change"], build["revision"], build["job"]
                successes.setdefault(key, []).append(number)
        for queue in self.reports:
            landings = self.landings(queue)
            numbers = [report[4] for report in self.reports[queue] if report[3] == "landed"]
            say(numbers == list(range(1, len(landings) + 1)), f"{queue}: landings are numbered {numbers}")
            say(len({change for change, _ in landings}) == len(landings), f"{queue}: a change landed twice")
            before = {}
            for place, (change, revision) in enumerate(landings):
                for job in voting_jobs(self.projects[self.stream.changes[change].project]):
                    builds = successes.get((queue, change, revision, job), [])
                    say(len(builds) == 1, f"{queue}: {job} of {change} has {len(builds)} live successes")
                    say(self.ran_on(builds[0], landings) == landings[: place + 1],
                        f"{queue}: build {builds[0]} of {change} ran on something else than what landed")
                    say(not self.stream.fails(job, {change: revision}, before.get),
                        f"{queue}: {change} landed, though {job} fails on what was ahead of it")
                    shown += 1
                say(not self.stream.truth(change, revision).refused, f"{queue}: {change} landed, and can't be merged")
                before[change] = revision
        return shown

    def ran_on(self, number, landings):
        build = self.builds[number]
        own = (build["change"], build["revision"])
        return landings[: build["after"]] + [tuple(entry) for entry in build["ahead"]] + [own]

    def landing_builds(self):
        """The builds of landings, and where the landing stands."""
        for queue in self.reports:
            places = {entry: place for place, entry in enumerate(self.landings(queue))}
            for number, build in self.builds.items():
                place = places.get((build["change"], build["revision"]))
                voting = voting_jobs(self.projects[self.stream.changes[build["change"]].project])
                if place is not None and build["queue"] == queue and build["live"] and build["job"] in voting:
                    if build["outcome"] == "success":
                        yield queue, place, number


def judge_run(evidence, fleet):
    """The evidence, and that the fleet and the gate tell of the same landings and of each change that came."""
    shown = evidence.judge()
    told = sorted(entry for queue in evidence.reports for entry in evidence.landings(queue))
    say(told == sorted(fleet.landed.items()), "the forge landed others than the history has")
    entries = {entry for reports in evidence.reports.values() for entry in ((r[1], r[2]) for r in reports)}
    lost = set(fleet.approved_at) - entries - set(evidence.standing) - set(evidence.waiting)
    say(not lost, f"approved, and neither left nor there: {sorted(lost)}")
    return shown


def turned(evidence):
    """The same evidence with one thing turned, in each of these ways; none where nothing landed."""
    found = list(evidence.landing_builds())
    if not found:
        return
    queue, place, number = found[len(found) // 2]

    def another(change):
        other = copy.copy(evidence)
        other.builds = dict(evidence.builds)
        other.reports = {name: list(reports) for name, reports in evidence.reports.items()}
        change(other)
        return other

    def turn(**members):
        def change(other):
            other.builds[number] = {**evidence.builds[number], **members}
        return another(change)

    def swap(other):
        rows = [row for row, report in enumerate(other.reports[queue]) if report[3] == "landed"]
        at, to = rows[place], rows[place - 1 if place else 1]
        first, second = other.reports[queue][at], other.reports[queue][to]
        other.reports[queue][at] = second[:4] + first[4:]
        other.reports[queue][to] = first[:4] + second[4:]

    def break_after_all(other):
        change = evidence.builds[number]["change"], evidence.builds[number]["revision"]
        truth = evidence.stream.truth(*change)._replace(breaks=evidence.builds[number]["job"])
        other.stream = copy.copy(evidence.stream)
        other.stream.truths = {**evidence.stream.truths, change: truth}

    def again(other):
        last = max(report[4] or 0 for report in other.reports[queue])
        report = next(report for report in other.reports[queue] if report[4] == place + 1)
        other.reports[queue].append(report[:4] + (last + 1,))

    build = evidence.builds[number]
    yield "its build failed", turn(outcome="failure")
    yield "its build isn't live", turn(live=False)
    yield "its build isn't there", another(lambda other: other.builds.pop(number))
    yield "its build ran on one landing more", turn(after=build["after"] + 1)
    yield "its build ran on a stranger", turn(ahead=build["ahead"] + [[999999999, 1]])
    if len(evidence.landings(queue)) > 1:
        yield "two landings changed places", another(swap)
    yield "it landed twice", another(again)
    yield "it breaks the job after all", another(break_after_all)


def judge_turned(evidence):
    """Each of the turned ones has to be refused; what was said of it."""
    told = []
    for name, other in turned(evidence):
        try:
            other.judge()
        except Refused as fault:
            told.append((name, str(fault)))
        else:
            raise Refused(f"evidence was turned and not refused: {name}")
    return told


def use_of_builds(evidence):
    """How many builds were used, thrown away, lost, and still run."""
    use = dict.fromkeys(("used", "thrown away", "lost", "running"), 0)
    for build in evidence.builds.values():
        if not build["live"]:
            use["thrown away"] += 1
        else:
            use[{"success": "used", "failure": "used"}.get(build["outcome"], build["outcome"])] += 1
    return use


def results_of_failed(evidence):
    """Of the results that the jobs of failed changes could have, how many there aren't; and how many there could be."""
    had = {(b["change"], b["revision"], b["job"]) for b in evidence.builds.values()
           if b["live"] and b["outcome"] != "running"}
    lacking = results = 0
    for reports in evidence.reports.values():
        for _, change, revision, verdict, _ in reports:
            if verdict == "failed":
                jobs = evidence.projects[evidence.stream.changes[change].project]["jobs"]
                results += len(jobs)
                lacking += sum((change, revision, job) not in had for job in jobs)
    return lacking, results
