"""What builds leave on disk is removed. What can't be removed is set aside, so that it holds up no other build."""
from __future__ import annotations

import os
import subprocess
from pathlib import Path

# How long a removal may take, in seconds.
PATIENCE = 900


def clear(folder: Path, aside: Path) -> list[str]:
    """Removes all that is in a folder, and gives what to say of what can't be removed: that is moved aside."""
    if not folder.exists():
        return []
    os.chmod(folder, 0o700)
    said = []
    for place in sorted(folder.iterdir()):
        why = removed(place)
        if why is not None:
            said.append(set_aside(place, aside, why))
    return said


def removed(place: Path) -> str | None:
    """Removes a folder, also where a job took the right to do so away; or why that can't be done.

    The machine's programs go as deep as folders do, and by names of any length.
    """
    remove, grant = ["rm", "-rf", "--one-file-system"], ["chmod", "-R", "u+rwx"]
    for words in (remove, grant, remove):
        try:
            ran = subprocess.run([*words, "--", str(place)], stdin=subprocess.DEVNULL, capture_output=True, check=False,
                                 timeout=PATIENCE, env={**os.environ, "LC_ALL": "C"})
        except subprocess.TimeoutExpired:
            return f"{words[0]} doesn't end within {PATIENCE} seconds"
        if not os.path.lexists(place):
            return None
    line = ran.stderr.decode("utf-8", "replace").partition("\n")[0]
    return "".join(it if it.isprintable() else " " for it in line)[:300]


def set_aside(place: Path, aside: Path, why: str) -> str:
    """Moves a folder aside, under a name that is free there."""
    try:
        aside.mkdir(exist_ok=True)
        number = 1
        while os.path.lexists(aside / f"{place.name}-{number}"):
            number += 1
        place.rename(aside / f"{place.name}-{number}")
    except OSError as fault:
        return f"{place} can be neither removed nor set aside: {why}; {fault}"
    return f"{place} can't be removed, and is set aside as {aside / place.name}-{number}: {why}"


def clear_aside(aside: Path) -> list[str]:
    """Tries again to remove what was set aside, and gives what to say of what stays."""
    left = [it for it in sorted(aside.iterdir()) if removed(it) is not None] if aside.exists() else []
    return [f"{len(left)} folders in {aside} can't be removed: remove them as root"] if left else []
