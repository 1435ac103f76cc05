"""Looks at the forge by its API: whether the token is right and what it may, when it ends, whether the branches are
protected, and whether hooks come. What the account may not see is said, and isn't counted. Nothing is changed."""
from __future__ import annotations

import http.client
import json
import time
import urllib.parse
from collections.abc import Iterator
from datetime import datetime, timezone
from typing import Any

from companions.api import content_of
from companions.connections import within
from companions.settings import Adapter, Project, Settings
from companions.tokens import HEADER

DAYS, SECONDS = 14, 30.0
# The least level of a member at GitLab that may set statuses and push to what is protected for maintainers.
MAINTAINER = 40


class Unseen(str):
    """What couldn't be looked at: no fault by itself."""


class Forge:
    """One question after another, with the adapter's token. The answer is none where the status isn't 2xx."""

    def __init__(self, adapter: Adapter) -> None:
        self.adapter, self.url = adapter, urllib.parse.urlsplit(adapter.url)
        kind = {"github": ("Authorization", "Bearer "), "gitea": ("Authorization", "token "),
                "gitlab": ("PRIVATE-TOKEN", "")}[adapter.form]
        self.headers = {kind[0]: kind[1] + adapter.token, "Accept": "application/json", "User-Agent": "gated-check"}
        self.ends = ""

    def ask(self, path: str) -> tuple[int, Any]:
        """The status, and what was answered; `OSError` or the like where nothing came."""
        with within(self.url, SECONDS) as connection:
            connection.request("GET", self.url.path + path, headers=self.headers)
            response = connection.getresponse()
            content, self.ends = content_of(response), response.getheader(HEADER, "") or self.ends
        try:
            return response.status, json.loads(content) if response.status // 100 == 2 else None
        except (ValueError, RecursionError):
            return 0, None

    def path_of(self, project: Project) -> str:
        if self.adapter.form == "gitlab":
            return f"/projects/{urllib.parse.quote(project.forge, safe='')}"
        return f"/repos/{project.forge}"


def look(settings: Settings | None, now: float | None = None) -> Iterator[str]:
    """What lacks at the forge, by the file that has the adapter's table."""
    if settings is None or settings.adapter is None:
        return
    forge, where = Forge(settings.adapter), f"{settings.file}: adapter"
    try:
        status, user = forge.ask("/user")
        if status in (401, 403):
            yield f"{where}.token: the forge refuses it (status {status}): make a new one"
            return
        if status // 100 != 2 or not isinstance(user, dict) or "id" not in user:
            yield (f"{where}.url: {settings.adapter.url} isn't the API of {settings.adapter.form}: /user has status"
                   f" {status}")
            return
        yield from of_end(forge, where, time.time() if now is None else now)
        for project in settings.projects.values():
            yield from of_project(forge, settings, project)
    except (OSError, http.client.HTTPException, ValueError) as fault:
        yield f"{where}.url: {settings.adapter.url} doesn't answer: {fault or type(fault).__name__}"


def of_end(forge: Forge, where: str, now: float) -> Iterator[str]:
    """When the token ends: GitHub says it with each answer, and GitLab where it is asked."""
    ends = forge.ends.replace("UTC", "+0000")
    if forge.adapter.form == "gitlab":
        said = forge.ask("/personal_access_tokens/self")[1]
        ends = f"{said['expires_at']} 00:00:00 +0000" if isinstance(said, dict) and said.get("expires_at") else ""
    try:
        at = datetime.strptime(ends, "%Y-%m-%d %H:%M:%S %z")
    except ValueError:
        yield Unseen(f"{where}.token: the forge doesn't say when it ends")
        return
    if at.timestamp() - now < DAYS * 86400:
        yield f"{where}.token ends on {at.astimezone(timezone.utc):%Y-%m-%d}: make a new one"


def of_project(forge: Forge, settings: Settings, project: Project) -> Iterator[str]:
    """The account's rights, the branch's protection, and the hooks of a project."""
    where, path = f"{settings.file}: project {project.name}", forge.path_of(project)
    status, said = forge.ask(path)
    if not isinstance(said, dict):
        yield (f"{where}: the forge shows the gate's account no repository {project.forge} (status {status}): correct"
               " project.forge, or make the account a member")
        return
    yield from of_rights(forge, where, said)
    yield from of_branch(forge, where, project, path)
    yield from of_hooks(forge, where, path)


def of_rights(forge: Forge, where: str, said: dict[str, Any]) -> Iterator[str]:
    rights = said.get("permissions")
    if not isinstance(rights, dict):
        yield Unseen(f"{where}: the forge doesn't say what the account may")
    elif forge.adapter.form == "gitlab":
        levels = [it.get("access_level", 0) for it in rights.values() if isinstance(it, dict)]
        if max(levels, default=0) < MAINTAINER:
            yield f"{where}: the gate's account isn't a maintainer: give it this role"
    elif rights.get("push") is not True:
        yield f"{where}: the gate's account may not write: give it the role Write"
    elif forge.adapter.form == "gitea" and forge.adapter.approvers is None and rights.get("admin") is not True:
        yield (f"{where}: without adapter.approvers the account has to be an administrator at Gitea: make it one, or"
               " name the approvers")


def of_branch(forge: Forge, where: str, project: Project, path: str) -> Iterator[str]:
    branch = urllib.parse.quote(project.branch, safe="")
    part = "/repository/branches/" if forge.adapter.form == "gitlab" else "/branches/"
    status, said = forge.ask(f"{path}{part}{branch}")
    if not isinstance(said, dict):
        yield f"{where}: the forge shows no branch {project.branch} (status {status})"
    elif said.get("protected") is not True:
        yield f"{where}: the branch {project.branch} isn't protected: let only the gate's account push to it"
    elif said.get("developers_can_push") is True or said.get("developers_can_merge") is True:
        yield f"{where}: developers may push or merge to {project.branch}: let only the gate's account do so"
    else:
        yield Unseen(f"{where}: {project.branch} is protected; that only the gate's account may push isn't shown")


def of_hooks(forge: Forge, where: str, path: str) -> Iterator[str]:
    """Whether a webhook leads to the adapter. Only administrators see the list."""
    status, said = forge.ask(f"{path}/hooks")
    if not isinstance(said, list):
        yield Unseen(f"{where}: the account may not see the webhooks (status {status})")
        return
    mine = [it for it in said if isinstance(it, dict) and address_of(it).rstrip("/").endswith("/hook")]
    if not mine:
        yield (f"{where}: no webhook has an address that ends with /hook: add it, or news takes"
               f" {forge.adapter.compare:g} seconds")
    elif all(it.get("active") is False or it.get("disabled_until") for it in mine):
        yield f"{where}: the webhook to {address_of(mine[0])} is switched off: switch it on"


def address_of(hook: dict[str, Any]) -> str:
    config = hook.get("config")
    return str(hook.get("url") if not isinstance(config, dict) or "url" not in config else config["url"])
