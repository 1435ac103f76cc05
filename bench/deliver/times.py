"""Times `gated deliver` over a new file and the C program over another, and sees that both hold the same rows.

times.py PROGRAM SETTINGS FOLDER: the folder holds `lines`, `edits`, `replies`, `written`, and the files `ours` and
`theirs`, which `gated init` made.
"""
import sqlite3
import subprocess
import sys
import time

TABLES = ["meta", "counter", "queue", "change", "need", "item", "build", "landing", "report", "delivery",
          "item_job", "item_fast"]


def rows(path):
    file = sqlite3.connect(path)
    assert file.execute("PRAGMA integrity_check").fetchone() == ("ok",), path
    return {table: sorted(file.execute(f"SELECT * FROM {table}"), key=repr) for table in TABLES}


def main():
    program, settings, folder = sys.argv[1:]
    with open(f"{folder}/lines", "rb") as lines:
        start = time.monotonic()
        said = subprocess.run([program, "deliver", settings, f"{folder}/ours"], stdin=lines, stdout=subprocess.PIPE, check=True)
        ours = time.monotonic() - start
    with open(f"{folder}/replies", "rb") as replies:
        assert said.stdout == replies.read(), "a reply differs from that over memory"
    with open(f"{folder}/edits", "rb") as edits:
        written = subprocess.run([f"{folder}/written", f"{folder}/theirs"], stdin=edits, stdout=subprocess.PIPE, check=True)
    commits, theirs = written.stdout.split()
    assert rows(f"{folder}/ours") == rows(f"{folder}/theirs"), "the rows differ"
    count = said.stdout.count(b"\n")
    theirs = float(theirs)
    print(f"{count} lines, {int(commits)} commits: gated {ours:.2f} s, C {theirs:.2f} s, ratio {ours / theirs:.2f}")


main()
