"""Whether this machine has sandboxes for jobs: a kernel may refuse them, as in some containers."""
from __future__ import annotations

import functools
import sys

from companions import sandbox


@functools.cache
def boxed() -> bool:
    """Whether jobs can have sandboxes here. Why not is printed."""
    refused = sandbox.refused()
    if refused is not None:
        print(f"jobs run without sandboxes: {refused}", file=sys.__stderr__)
    return refused is None
