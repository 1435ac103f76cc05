"""Prints the lines of times in what the program told."""
import sys

told = {
    "head": "a failure at the head",
    "middle": "a failure in the middle",
    "end": "a failure at the end",
    "landing": "a landing",
}
for line in open(sys.argv[1], encoding="utf-8"):
    words = line.split()
    if len(words) == 5 and words[0] in told:
        count, visited, turns, nanos = map(int, words[1:])
        print(f"{count} items, {told[words[0]]}: {visited} rows visited, {nanos / turns / 1000:.2f} us a walk")
