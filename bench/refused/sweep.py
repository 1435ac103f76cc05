"""Which places of each call are tried, and what came of it.

sweep.py last: which allocation of a run is refused.
sweep.py first FOLDER [CASE..]: two runs a case, that tell how many allocations come before its call, and in it.
sweep.py places FIRST FOLDER MOST: from what these told, a run for each place in each call, and one behind it; of a call
with over MOST places for about as many of them, but of a history for all, since some run of it has to break off.
sweep.py judge FIRST PLACES: what these told. Each place must have been met, and no run gone wrong.

A run is named CASE-PLACE, and its input is the case, how many allocations it makes before the call, and how many at
most behind it. What a folder's runs told is in FOLDER.told, and how they ended in FOLDER.ends.
"""
import os
import sys

LAST = 60_000

KINDS = ["revision", "approved", "withdrawn", "closed", "landed", "refused", "take", "result"]

CALLS = KINDS + ["result, two items leave", "landed, three items leave", "a conversation", "a request", "a history"]
CALLS += ["result, an item is cut", "result, a cut item leaves"]

NAMES = {number: f"{call}, in memory" for number, call in enumerate(CALLS)}
NAMES |= {100 + number: f"{call}, over tables" for number, call in enumerate(CALLS)}
NAMES |= {200: "settings are read", 201: "a file is made", 202: "a file is opened", 203: "a walk visits a row"}
NAMES |= {204: "a file takes other settings", 205: "a file of schema 1 is migrated", 206: "a walk visits a cut row"}


def is_history(case):
    return NAMES[case].startswith("a history")


def write(folder, name, case, wasted, behind):
    with open(f"{folder}/{name}", "w") as kept:
        kept.write(f"{case:03d} {wasted:06d} {behind:06d}\n")


def told(folder):
    """What each run printed."""
    runs = {}
    with open(f"{folder}.told") as lines:
        for line in lines:
            if line.startswith("== "):
                name = line[3:].strip()
                runs[name] = ""
            else:
                runs[name] += line
    return runs


def end_of(folder, name):
    """How a run ended."""
    with open(f"{folder}.ends") as lines:
        return [line.strip() for line in lines if line.startswith(f"case={name} ")]


def first(folder, cases):
    os.mkdir(folder)
    for case in cases or NAMES:
        write(folder, f"{case:03d}-before", case, LAST, 0)
        write(folder, f"{case:03d}-behind", case, 0, LAST)


def number_in(folder, runs, name, word):
    said = runs.get(name, "").split()
    assert len(said) == 2 and said[0] == word, f"{name}: {said}, {end_of(folder, name)}"
    return int(said[1])


def sizes(folder):
    """For each case, how many allocations were left before its call, and how many it makes."""
    runs = told(folder)
    found = {}
    for case in sorted({int(name[:3]) for name in os.listdir(folder)}):
        left = number_in(folder, runs, f"{case:03d}-before", "before")
        found[case] = left, left - number_in(folder, runs, f"{case:03d}-behind", "behind")
    return found


def places(known, folder, most):
    os.mkdir(folder)
    for case, (left, count) in sizes(known).items():
        step = 1 if is_history(case) else -(-count // most)
        for place in [*range(1, count + 1, step), count + 1]:
            write(folder, f"{case:03d}-{place:05d}", case, left - place, 3)


def judge(known, folder):
    runs = told(folder)
    wanted = sorted(os.listdir(folder))
    wrong = [name for name in wanted if not runs.get(name)]
    assert not wrong, f"{len(wrong)} runs went wrong, as {[(name, *end_of(folder, name)) for name in wrong[:5]]}"
    for case, (_, count) in sizes(known).items():
        of_case = {int(name[4:]): runs[name].strip() for name in wanted if name.startswith(f"{case:03d}-")}
        assert of_case.pop(count + 1) == "behind 1", f"{NAMES[case]}: the call has no end"
        said = list(of_case.values())
        counts = [said.count(word) for word in ("refused", "broken off", "nothing")]
        assert sum(counts) == len(said) and sum(counts[:2]) > 0, f"{NAMES[case]}: {set(said)}"
        assert (counts[1] > 0) == is_history(case), f"{NAMES[case]}: {counts[1]} broken off"
        came = "{} refused, {} broken off, {} answered".format(*counts)
        print(f"{NAMES[case]}: {count} places, {len(said)} tried: {came}")
    print("ok")


def main():
    step, *words = sys.argv[1:]
    if step == "last":
        print(LAST)
    elif step == "first":
        first(words[0], [int(case) for case in words[1:]])
    elif step == "places":
        places(words[0], words[1], int(words[2]))
    else:
        judge(*words)


main()
