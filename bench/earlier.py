"""Migrates a copy of the gate's file that an earlier program made, asks it, tells it again, and goes on with it.

earlier.py PROGRAM EARLIER FOLDER: EARLIER has the file, its settings, what its gate was told, and what it said.
"""
import shutil
import sys

from starving import Files, Program

# The jobs of what has landed and of what is queued, each as in the settings: serial, place, name, and whether it votes.
JOBS = [(1, 0, "unit", 1), (1, 1, "docs", 0), (3, 0, "unit", 1)]
JOBS += [(6, 0, "unit", 1), (7, 0, "unit", 1), (7, 1, "docs", 0)]

# What is told then, and the answers that the rules give: 104 lands, and 105 behind it, which had failed, leaves with
# its last build. It enters again, is built on what has landed, and lands. Then 199 lands in `web`, for which 106 has
# waited.
FURTHER = [
    ('"kind":"landed","order":6', '{"n":3,"reply":"landed"}'),
    ('"kind":"take","worker":"w1"', '{"code":"E12","error":"idle"}'),
    ('"kind":"result","build":9,"outcome":"success"', '{"reply":"noted"}'),
    ('"kind":"approved","change":105,"revision":1', '{"order":8,"reply":"queued"}'),
    (
        '"kind":"take","worker":"w1"',
        '{"after":3,"ahead":[],"build":10,"change":105,"job":"unit","queue":"core","reply":"build","revision":1}',
    ),
    (
        '"kind":"take","worker":"w2"',
        '{"after":3,"ahead":[],"build":11,"change":105,"job":"docs","queue":"core","reply":"build","revision":1}',
    ),
    ('"kind":"result","build":10,"outcome":"success"', '{"reply":"noted"}'),
    ('"kind":"result","build":11,"outcome":"failure"', '{"reply":"noted"}'),
    ('"kind":"landed","order":8', '{"n":4,"reply":"landed"}'),
    ('"kind":"revision","change":199,"project":"site","revision":1,"message":""', '{"reply":"recorded"}'),
    ('"kind":"approved","change":199,"revision":1', '{"order":9,"reply":"queued"}'),
    (
        '"kind":"take","worker":"w1"',
        '{"after":0,"ahead":[],"build":12,"change":199,"job":"unit","queue":"web","reply":"build","revision":1}',
    ),
    ('"kind":"result","build":12,"outcome":"success"', '{"reply":"noted"}'),
    ('"kind":"landed","order":9', '{"n":1,"reply":"landed"}'),
]

THEN = {
    "status": """queue core window 3 landed 4
    10       106    1      - ok      unit=waiting
queue web window 2 landed 1
end
""",
    "history_core": """history core
     1      1       101    1 landed          1
     2      2       102    1 failed          -
     3      3       103    1 landed          2
     4      6       104    1 landed          3
     5      7       105    1 failed          -
     6      8       105    1 landed          4
end 6
""",
    "history_web": """history web
     1      4       201    1 refused         -
     2      5       201    2 withdrawn       -
     3      9       199    1 landed          1
end 3
""",
    "orders": "[]",
}


class Gate:
    """The program over a copy of the file."""

    def __init__(self, program, earlier, folder):
        self.program = Program(program, None)
        self.earlier = earlier
        self.settings = f"{earlier}/settings.toml"
        self.file = f"{folder}/gate.db"
        shutil.copyfile(f"{earlier}/gate.db", self.file)

    def kept(self, name):
        with open(f"{self.earlier}/{name}", "rb") as kept:
            return kept.read()

    def is_untouched(self):
        with open(self.file, "rb") as file:
            return file.read() == self.kept("gate.db")

    def run(self, command, *more, given=b""):
        return self.program.run([command, self.settings, self.file, *more], given)

    def prints(self, output, command, *more, given=b""):
        done = self.run(command, *more, given=given)
        assert done.is_done(output), f"{command}: {done}"

    def is_refused(self, fault, command, *more, given=b""):
        done = self.run(command, *more, given=given)
        assert (done.status, done.output, done.errors) == (1, b"", fault), f"{command}: {done}"
        assert self.is_untouched(), f"{command} has changed the file"

    def shows(self, texts):
        """Each of these texts, by its name."""
        self.prints(texts("status"), "status")
        self.prints(texts("history_core"), "history", "core")
        self.prints(texts("history_web"), "history", "web")
        asked = self.program.serve(self.settings, self.file, b"GET /orders HTTP/1.1\r\nHost: gate\r\n\r\n")
        head, _, orders = asked.answer.partition(b"\r\n\r\n")
        assert head.startswith(b"HTTP/1.1 200 OK\r\n") and orders == texts("orders"), f"orders: {asked}"

    def rows(self):
        return Files().rows(self.file)


def main():
    gate = Gate(*sys.argv[1:])
    told, replies = gate.kept("deliveries.jsonl"), gate.kept("replies.jsonl")
    assert told.count(b"\n") == replies.count(b"\n") == 40

    gate.is_refused(b"gated: O2 other-schema\n", "status")
    gate.is_refused(b"gated: O2 other-schema\n", "deliver", given=told)
    gate.prints(b"migrated 1 2\n", "migrate")
    gate.prints(b"schema 2\n", "migrate")
    print("migrated once")

    rows = gate.rows()
    assert sorted(rows["item_job"]) == JOBS and rows["item_fast"] == [], rows["item_job"]
    gate.shows(gate.kept)
    print("shows what it showed")

    # What was accepted gets its kept reply. What was refused is judged anew, and could be answered otherwise where the
    # gate has gone on; but a project that the settings lack stays unknown, and a spent id stays spent.
    gate.prints(replies, "deliver", given=told)
    assert gate.rows() == rows, "a repeat has changed a row"
    gate.shows(gate.kept)
    print("answers what it answered")

    further = [f'{{"id":"0f000000-0000-4000-8000-{at:012}",{said}}}\n' for at, (said, _) in enumerate(FURTHER, 1)]
    answers = [f"{answer}\n" for _, answer in FURTHER]
    gate.prints("".join(answers).encode(), "deliver", given="".join(further).encode())
    gate.shows(lambda name: THEN[name].encode())
    gate.prints(replies, "deliver", given=told)
    print("ok")


main()
