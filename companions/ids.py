"""Ids that several parts derive, each from all that its delivery stands for. docs/CONNECTING.md ("Ids") has them."""
from __future__ import annotations

import json
import uuid
from collections.abc import Iterable

# The name space of successes. It is no gate's file: a success is of a commit, which has its whole past in it.
SUCCESSES = uuid.UUID("757f6bf2-2c57-4caa-9f0e-dcf347458c9a")


def id_of(first: str, *stands_for: object) -> str:
    """The id of what is told once: by all that it stands for, and by the gate's first accepted delivery.

    Without the latter a kept reply of another file could be taken for an act.
    """
    return str(uuid.uuid5(uuid.UUID(first), json.dumps([str(it) for it in stands_for])))


def revision_id(first: str, change: int, revision: int, commit: str, needs: Iterable[int]) -> str:
    """The id of a revision, by its commit's hash and the changes that it needs, in their order."""
    return id_of(first, "revision", change, revision, commit, *needs)


def success_id(build: int, queue: str, change: int, revision: int, job: str, commit: str) -> str:
    """The id of a build's success, by the hash of the landing commit that was tested: of no other one it is a success.

    Neither take nor file are in it, so whoever has a commit can tell by the gate's log whether it was tested.
    """
    return id_of(str(SUCCESSES), "success", build, queue, change, revision, job, commit)
