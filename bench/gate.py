"""What a run of the gate costs: processor seconds by crate and by kind of work, sampled from /proc while it goes on.

gate.py watch RT OUT.json       until the process RT, of rt ci, has ended
gate.py table RUN.json ..       a table of what these runs did; what a later one did again takes the earlier's place
gate.py chain RUN.json ..       the longest chain of crates that stand on each other, by the seconds of their proofs
"""
import collections
import json
import os
import re
import sys
import time

TICKS = os.sysconf('SC_CLK_TCK')
KINDS = ('proof', 'tests', 'program', 'seed', 'edits')


def stat_of(pid: str) -> tuple[str, str, float, float]:
    """A process's parent, its start, what it took, and what its children took that have ended."""
    with open(f'/proc/{pid}/stat') as file:
        fields = file.read().rsplit(')', 1)[1].split()
    return fields[1], fields[19], sum(map(int, fields[11:13])) / TICKS, sum(map(int, fields[13:15])) / TICKS


def work_of(pid: str) -> tuple[str, str] | None:
    """The crate that a process of the toolchain works on, and the kind of its work; a compiler's are its caller's."""
    with open(f'/proc/{pid}/cmdline', 'rb') as file:
        words = file.read().decode(errors='replace').split('\0')
    tool = os.path.basename(words[0])
    if tool.startswith(('clang', 'ld.lld', 'rattle-x64')):
        return work_of(stat_of(pid)[0])
    if tool != 'rattle' or '--crate-name' not in words:
        return None
    crate = words[words.index('--crate-name') + 1]
    over = words[words.index('--incremental') + 1] if '--incremental' in words else ''
    if re.search(r'/rt-edit-', os.readlink(f'/proc/{pid}/cwd')):
        return crate, 'seed' if over.endswith('/seed') else 'edits'
    if '--test' in words:
        return crate, 'tests'
    return crate, 'proof' if '--statements' in words else 'program'


def is_below(pid: str, root: str) -> bool:
    """Whether the process was begun by that one, or by one that it began."""
    while pid not in ('0', root):
        pid = stat_of(pid)[0]
    return pid == root


def seen_now(found: dict[str, list], root: str) -> None:
    """Notes of each process of the toolchain below that one what it has taken so far, and what it holds."""
    for pid in filter(str.isdigit, os.listdir('/proc')):
        try:
            _, start, taken, _ = stat_of(pid)
            key = f'{pid}.{start}'
            work = found[key][:2] if key in found else work_of(pid) if is_below(pid, root) else None
            if work:
                with open(f'/proc/{pid}/statm') as file:
                    held = int(file.read().split()[1]) * os.sysconf('SC_PAGE_SIZE') // 10**6
                found[key] = [*work, taken, max(held, found[key][3] if key in found else 0)]
        except (OSError, ValueError, IndexError):
            continue


def watch(pid: str, out: str) -> None:
    """Looks four times a second; what a process took between the last look and its end is in the sum alone."""
    found: dict[str, list] = {}
    begun, whole, beside = time.time(), 0.0, 0.0
    while os.path.exists(f'/proc/{pid}'):
        seen_now(found, pid)
        try:
            whole = max(whole, stat_of(pid)[3])
        except (OSError, ValueError, IndexError):
            break
        beside = max(beside, os.getloadavg()[0])
        time.sleep(0.25)
    minutes = (time.time() - begun) / 60
    with open(out, 'w') as file:
        json.dump({'minutes': minutes, 'seconds': whole, 'load': beside, 'seen': list(found.values())}, file)


class Costs:
    """What runs cost: of each crate the seconds of each kind, how many edits were tried, and the most that one process
    held, in MB."""

    def __init__(self, files: list[str]) -> None:
        self.seconds: dict[str, dict[str, float]] = {}
        self.edits: dict[str, int] = {}
        self.held: dict[str, int] = {}
        for name in files:
            with open(name) as file:
                self.add(json.load(file))

    def add(self, run: dict) -> None:
        sums, counts = collections.defaultdict(lambda: collections.Counter()), collections.Counter()
        for crate, kind, taken, most in run['seen']:
            sums[crate][kind] += taken
            counts[crate] += kind == 'edits'
            self.held[crate] = max(self.held.get(crate, 0), most)
        for crate, by_kind in sums.items():
            self.seconds.setdefault(crate, {}).update(by_kind)
            self.edits[crate] = counts[crate] or self.edits.get(crate, 0)


def table(costs: Costs) -> None:
    """Prints a line a crate: seconds of each kind, how many edits were tried, and the most that one process held."""
    seconds, edits, held = costs.seconds, costs.edits, costs.held
    print('| crate | ' + ' | '.join(KINDS) + ' | number of edits | an edit | GB held |')
    print('|---' * (len(KINDS) + 4) + '|')
    for crate in sorted(seconds, key=lambda it: -sum(seconds[it].values())):
        by_kind = seconds[crate]
        row = [f'{by_kind[it]:.0f}' if it in by_kind else '' for it in KINDS]
        each = f'{by_kind["edits"] / edits[crate]:.0f}' if edits[crate] else ''
        print(f'| `{crate}` | ' + ' | '.join(row) + f' | {edits[crate] or ""} | {each} | {held[crate] / 1000:.1f} |')
    whole = [sum(it.get(kind, 0) for it in seconds.values()) for kind in KINDS]
    print('| in all | ' + ' | '.join(f'{it:,.0f}' for it in whole) + f' | {sum(edits.values())} | | |')
    print(f'\n{sum(whole):,.0f} seconds of a processor in all.')


def chain(costs: Costs, listed: str) -> None:
    """Prints the crates of the longest chain, lowest first, with their seconds and the sum so far. Each waits for those
    below it, so no number of processors proves all crates sooner. `listed` is the text of crates.txt."""
    lines = (line.partition(':') for line in listed.splitlines() if line and not line.startswith('#'))
    below = {words[0].split()[0]: words[2].split() for words in lines}
    ends: dict[str, tuple[float, list[str]]] = {}

    def end_of(crate: str) -> tuple[float, list[str]]:
        """The longest chain up to this crate."""
        if crate not in ends:
            seconds, crates = max((end_of(it) for it in below[crate] if it in below), default=(0.0, []))
            kinds = costs.seconds.get(crate, {})
            ends[crate] = seconds + kinds.get('proof', 0.0) + kinds.get('program', 0.0), [*crates, crate]
        return ends[crate]

    print('| crate | seconds | so far |\n|---|---|---|')
    before = 0.0
    for crate in max(map(end_of, below))[1]:
        print(f'| `{crate}` | {ends[crate][0] - before:.0f} | {ends[crate][0]:.0f} |')
        before = ends[crate][0]


if __name__ == '__main__':
    if sys.argv[1] == 'watch':
        watch(*sys.argv[2:4])
    elif sys.argv[1] == 'chain':
        with open(os.path.join(os.path.dirname(__file__), '..', 'crates.txt')) as file:
            chain(Costs(sys.argv[2:]), file.read())
    else:
        table(Costs(sys.argv[2:]))
