"""Where the hooks of a CI come in: of statuses, checks, workflow runs and pipelines. A hook says only at which commit
to look, and nothing else of it is believed. One that is lost is found by asking."""
from __future__ import annotations

import re
import threading
from collections.abc import Callable
from pathlib import Path
from typing import Any

from companions.forges import Forge, Headers, as_hook, check_seal
from companions.gate import say
from companions.hooks import Hooks, NotTaken, serve
from companions.settings import Settings

COMMIT = re.compile(r"[0-9a-f]{40}|[0-9a-f]{64}")


class CiHooks(Hooks):
    """The adapter's server, with its bounds, whose hooks are about commits. `look_at` is called with each."""

    def __init__(self, address: tuple[str, int], forge: Forge, look_at: Callable[[str], None], part: str, folder: Path
                 ) -> None:
        # It notes no hints: its `take` is another one.
        super().__init__(address, None, forge, {}, threading.Event(), folder)  # type: ignore[arg-type]
        self.look_at, self.not_taken = look_at, NotTaken(part=part)

    def take(self, headers: Headers, body: bytes) -> tuple[int, str]:
        """The answer to a hook."""
        try:
            check_seal(self.forge.seal_of(headers), body)
        except PermissionError as fault:
            return self.refused(fault)
        commits = commits_of(as_hook(body))
        for commit in commits:
            self.look_at(commit)
        return 200, "noted" if commits else "this hook is about no commit"


def commits_of(said: dict[str, Any]) -> set[str]:
    """The commits that a hook may be about: of a status, a check, a workflow run or job, a pipeline or a build."""
    places = [said, *(said.get(it) for it in ("check_run", "workflow_run", "workflow_job", "commit",
                                              "object_attributes"))]
    found = [place.get(it) for place in places if isinstance(place, dict) for it in ("sha", "head_sha", "id")]
    return {it for it in found if isinstance(it, str) and COMMIT.fullmatch(it)}


def serve_hooks(known: Settings, forge: Forge, look_at: Callable[[str], None], part: str, folder: Path
                ) -> Callable[[], None] | None:
    """Serves hooks, if the settings say where; what is given back ends that. `OSError` where nothing can listen."""
    if known.ci.port is None:
        return None
    hooks = CiHooks((known.ci.host, known.ci.port), forge, look_at, part, folder)
    end = serve(hooks)
    say(part, f"hooks come in at http://{known.ci.host}:{hooks.server_port}/hook")
    return end
