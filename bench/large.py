"""Makes the file and the repository of a gate that has landed very often, and times what an operator does with them.

large.py PROGRAM SETTINGS FOLDER LANDINGS: prints a line for each step, with its seconds and the most memory. The rows
of the file are written at once, as the program writes them: that is compared for the first ones.
"""
import json
import os
import shutil
import sqlite3
import subprocess
import sys
import time

QUEUE, DAY = "core", "20260101"
# So many landings are also made by the program, and how large the window may be (docs/RULES.md).
COMPARED, WINDOW = 200, 1000


def deliveries(landings):
    """The lines of so many changes, one behind another: each comes, is approved, built and landed."""
    sent = 0
    for number in range(1, landings + 1):
        for said in ({"kind": "revision", "change": number, "project": "lib", "revision": 1, "message": ""},
                     {"kind": "approved", "change": number, "revision": 1}, {"kind": "take", "worker": "w"},
                     {"kind": "result", "build": number, "outcome": "success"}, {"kind": "landed", "order": number}):
            sent += 1
            yield json.dumps({"id": f"00000000-0000-4000-8000-{sent:012}", **said}) + "\n"


def replies(number):
    """The program's answers to the deliveries of one change."""
    return ('{"reply":"recorded"}', f'{{"order":{number},"reply":"queued"}}',
            f'{{"after":{number - 1},"ahead":[],"build":{number},"change":{number},"job":"unit","queue":"{QUEUE}",'
            '"reply":"build","revision":1}', '{"reply":"noted"}', f'{{"n":{number},"reply":"landed"}}')


def write_rows(file, landings):
    """Writes the rows of so many landings into a new gate's file."""
    book = sqlite3.connect(file)
    numbers = range(1, landings + 1)
    for name in ("approval", "build", "order"):
        book.execute("INSERT INTO counter VALUES (?, ?) ON CONFLICT(name) DO UPDATE SET drawn = excluded.drawn",
                     (name, landings))
    book.execute("UPDATE queue SET win = min(win + ?, ?)", (landings, WINDOW))
    for rows, values in (
            ("change", ((it, "lib", 1, "landed", None) for it in numbers)),
            ("build", ((it, QUEUE, it, it, 1, "unit", it - 1, "[]", "success", 1) for it in numbers)),
            ("landing", ((QUEUE, it, it, it, 1) for it in numbers)),
            ("report", ((QUEUE, it, it, it, 1, "landed", it) for it in numbers)),
            ("item_job", ((it, 0, "unit", 1) for it in numbers))):
        many(book, rows, values)
    told = (reply for number in numbers for reply in replies(number))
    said = (json.loads(line) for line in deliveries(landings))
    many(book, "delivery", ((bytes.fromhex(it.pop("id").replace("-", "")),
                             json.dumps(it, sort_keys=True, separators=(",", ":")), reply)
                            for it, reply in zip(said, told)))
    book.commit()
    book.close()


def many(book, table, rows):
    width = len(book.execute(f"PRAGMA table_info({table})").fetchall())
    book.executemany(f"INSERT INTO {table} VALUES ({', '.join('?' * width)})", rows)


def tables(file):
    """All rows of a file, by their tables."""
    with sqlite3.connect(file) as book:
        names = [it[0] for it in book.execute("SELECT name FROM sqlite_master WHERE type = 'table' ORDER BY name")]
        return {it: sorted(book.execute(f"SELECT * FROM {it}").fetchall(), key=repr) for it in names}


def compare(program, settings, folder):
    """Ends unless the rows are those of the program."""
    made, written = os.path.join(folder, "made.db"), os.path.join(folder, "written.db")
    for it in (made, written):
        subprocess.run([program, "init", settings, it], check=True)
    subprocess.run([program, "deliver", settings, made], input="".join(deliveries(COMPARED)).encode(), check=True,
                   stdout=subprocess.DEVNULL)
    write_rows(written, COMPARED)
    assert tables(made) == tables(written)


def make_repository(folder, landings):
    """A bare repository with one commit, and with the note of each landing, a tag of its own."""
    subprocess.run(["git", "init", "--quiet", "--bare", "--initial-branch=main", folder], check=True)
    importing = subprocess.Popen(["git", "-C", folder, "fast-import", "--quiet"], stdin=subprocess.PIPE, text=True)
    importing.stdin.write("commit refs/heads/main\nmark :1\ncommitter gate <gate@localhost> 0 +0000\ndata 1\n.\n")
    for place in range(1, landings + 1):
        text = f"{QUEUE} {place}"
        importing.stdin.write(f"tag {QUEUE}/{place:06d}\nfrom :1\ntagger gate <gate@localhost> 0 +0000\n"
                              f"data {len(text)}\n{text}\n")
    importing.stdin.close()
    assert importing.wait() == 0
    packed = os.path.join(folder, "packed-refs")
    subprocess.run(["git", "-C", folder, "pack-refs", "--all", "--prune"], check=True)
    with open(packed, encoding="ascii") as file:
        text = file.read().replace(" refs/tags/", " refs/landings/")
    # The names have to be in their order.
    head, *rest = text.splitlines()
    entries = "\n".join(rest).replace("\n^", " ^").splitlines()
    entries.sort(key=lambda it: it.split()[1])
    with open(packed, "w", encoding="ascii") as file:
        file.write("\n".join([head, *(it.replace(" ^", "\n^") for it in entries)]) + "\n")


def timed(name, words, given=None):
    """Runs a step, and prints the seconds of the clock and of processors, and the most memory in MB."""
    begun = time.monotonic()
    process = subprocess.Popen(words, stdin=subprocess.DEVNULL if given is None else given, stdout=subprocess.DEVNULL)
    _, status, usage = os.wait4(process.pid, 0)
    print(f"{name:32} {time.monotonic() - begun:8.1f} s {usage.ru_utime + usage.ru_stime:8.1f} s of a processor "
          f"{usage.ru_maxrss / 1024:6.0f} MB", flush=True)
    assert status == 0, status


def rename_notes(notes, repository):
    """The commands of OPERATING that put the notes aside."""
    return ["bash", "-euc", f"""
        git init --quiet --bare {notes}
        git -C {notes} fetch --quiet {repository} 'refs/landings/*:refs/landings/*'
        git -C {notes} push --quiet --atomic {repository} 'refs/landings/*:refs/landings-before/{DAY}/*'
        git -C {notes} push --quiet --atomic --prune {repository} 'refs/none/*:refs/landings/*'"""]


def main(program, settings, folder, count):
    landings, file = int(count), os.path.join(folder, "gate.db")
    repository = os.path.join(folder, "lib.git")
    compare(program, settings, folder)
    subprocess.run([program, "init", settings, file], check=True)
    write_rows(file, landings)
    print(f"the file: {os.path.getsize(file) / 1e6:.0f} MB", flush=True)
    for _ in range(3):
        timed("opening the file", [program, "status", settings, file])
    make_repository(repository, landings)
    timed("putting the notes aside", rename_notes(os.path.join(folder, "notes"), repository))
    shutil.rmtree(os.path.join(folder, "notes"))
    new = os.path.join(folder, "new.db")
    timed("the new file", [program, "init", settings, new])
    timed("opening the new file", [program, "status", settings, new])


main(*sys.argv[1:])
