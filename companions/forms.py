"""The client of each form of forge; `settings.FORMS` has their names, and `tests/test_forms.py` what else each has."""
from __future__ import annotations

from collections.abc import Callable

from companions.forges import Forge
from companions.github import Gitea, GitHub
from companions.gitlab import GitLab

# Each is made of a URL, a token and a secret; the stand-in's tests add a time limit.
CLIENTS: dict[str, Callable[..., Forge]] = {"gitea": Gitea, "github": GitHub, "gitlab": GitLab}
