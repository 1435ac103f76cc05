"""A delivery of each kind that changes an item or a record, two with which more items leave, and what comes before."""
from talk import line_of


def lines_of(*members):
    """Lines of deliveries, with ids by their places."""
    return [line_of({"id": f"0a000000-0000-4000-8000-{at:012}", **said}) for at, said in enumerate(members, 1)]


def known(change, project, message=""):
    return {"kind": "revision", "change": change, "project": project, "revision": 1, "message": message}


def approved(change):
    return {"kind": "approved", "change": change, "revision": 1}


def closed(change):
    return {"kind": "closed", "change": change, "revision": 1}


def took(count):
    return [{"kind": "take", "worker": "w1"}] * count


def ended(build, outcome):
    return {"kind": "result", "build": build, "outcome": outcome}


def needs(change):
    return f"Depends-On: https://forge/c/{change}"


WAITING = [known(101, "lib"), known(102, "app", needs(101)), approved(102)]
QUEUED = [known(101, "lib"), known(102, "app"), known(103, "lib"), *map(approved, (101, 102, 103)), *took(3)]
SHOWN = [known(101, "lib"), known(102, "app"), *map(approved, (101, 102)), *took(3)]
SHOWN += [ended(1, "success"), ended(2, "success")]
TWO = [known(101, "lib"), known(102, "app", needs(101)), *map(approved, (101, 102)), *took(3)]
THREE = [known(101, "lib"), known(102, "app"), known(103, "lib"), known(104, "app", needs(102))]
THREE += [*map(approved, (101, 102, 103, 104)), *took(6), ended(3, "failure"), *took(2)]
THREE += [ended(1, "success"), ended(2, "success")]

BUILD = (
    b'{"after":0,"ahead":[[101,1],[102,1]],"build":4,'
    b'"change":103,"job":"unit","queue":"core","reply":"build","revision":1}'
)

QUEUED_FIRST = b'{"order":1,"reply":"queued"}'

# what was told before, the delivery, and its answer
DELIVERIES = {
    "revision": (QUEUED, {**known(101, "lib", needs(103)), "revision": 2}, b'{"reply":"recorded"}'),
    "approved": (WAITING, approved(101), QUEUED_FIRST),
    "withdrawn": (QUEUED, {"kind": "withdrawn", "change": 101, "revision": 1}, b'{"reply":"removed"}'),
    "closed": (QUEUED, closed(101), b'{"reply":"removed"}'),
    "landed": (SHOWN, {"kind": "landed", "order": 1}, b'{"n":1,"reply":"landed"}'),
    "refused": (SHOWN, {"kind": "refused", "order": 1}, b'{"reply":"removed"}'),
    "take": (QUEUED, {"kind": "take", "worker": "w2"}, BUILD),
    "result": (QUEUED, ended(1, "failure"), b'{"reply":"noted"}'),
    "result, two items leave": (TWO, ended(1, "failure"), b'{"reply":"noted"}'),
    "landed, three items leave": (THREE, {"kind": "landed", "order": 1}, b'{"n":1,"reply":"landed"}'),
}

ENTERING = lines_of(*WAITING, approved(101))

ENTERED = [b'{"reply":"recorded"}', b'{"reply":"recorded"}', b'{"reply":"waiting"}', QUEUED_FIRST]

REPORTS = 300

LEAVING = [(known(change, "lib"), approved(change), closed(change)) for change in range(1, REPORTS + 1)]
LEAVING = lines_of(*(said for change in LEAVING for said in change))

HISTORY = "history core\n"
HISTORY += "".join(f"{at:6} {at:6} {at:9} {1:4} {'closed':10} {'-':>6}\n" for at in range(1, REPORTS + 1))
HISTORY = (HISTORY + f"end {REPORTS}\n").encode()


def told(name):
    """What is told before the delivery of this name, the delivery's line, and its answer."""
    before, said, answer = DELIVERIES[name]
    return lines_of(*before), line_of({"id": "0b000000-0000-4000-8000-000000000001", **said}), answer
