"""Looks whether the gate answers, whether its proxy knows each account and lets it do what it has to, and whether the
watch hears workers. It only asks."""
from __future__ import annotations

import json
from collections.abc import Iterator

from companions.beats import PATH
from companions.check_files import Files
from companions.gate import Gate, NoAnswer
from companions.settings import Settings

Needs = dict[str, tuple[tuple[str, str], ...]]
# What each role has to be answered, and what it is for.
NEEDS: Needs = {
    "forge": (("/orders", "adapter and lander"), ("/deliveries", "adapter and lander")),
    "people": (("/status", "the watch"), ("/running", "the watch")),
    "standby": (("/deliveries", "the watch"),), "worker": (("/builds/1", "the watch"), ("/changes/1", "workers"))}
# Of a worker's file only that account counts.
OF_WORKERS: Needs = {"worker": (("/builds/1", "workers"), ("/changes/1", "workers"))}
SECONDS = 20.0


def look(files: Files) -> Iterator[str]:
    """What lacks, by each file."""
    for settings in files.all:
        yield from of_file(settings, NEEDS if settings is files.companions else OF_WORKERS)
    if files.gate is not None and files.companions is not None:
        yield from of_queues(files.companions, files.gate.queues)


def of_file(settings: Settings, needs: Needs) -> Iterator[str]:
    is_heard = False
    for role, paths in needs.items():
        gate = Gate(settings.url, settings.account(role), SECONDS)
        for path, who in paths:
            try:
                status, _ = gate.request("GET", path)
            except NoAnswer as fault:
                yield f"{settings.file}: no gate answers at gate.url, {settings.url}: {fault}"
                return
            said = wrong(settings, role, path, who, status)
            if said is not None:
                yield said
                break
        is_heard = is_heard or role == "worker"
    if is_heard:
        yield from of_beats(settings)


def wrong(settings: Settings, role: str, path: str, who: str, status: int) -> str | None:
    account = settings.account(role)
    name = f"gate.{role}" + (f" ({account.user})" if account else ", which isn't there,")
    if status == 401:
        return (f"{settings.file}: the proxy doesn't know the account {name}: its password isn't the one in"
                " /etc/nginx/gate.passwords")
    if status == 403:
        return f"{settings.file}: the proxy doesn't let {name} ask for {path}, as {who} do: give it an account that may"
    if status in (200, 404):
        return None
    return f"{settings.file}: gate.url, {settings.url}: {path} is answered with the status {status}: is the gate up?"


def of_beats(settings: Settings) -> Iterator[str]:
    """A question at the beats' address is answered by the watch, with a text of its own."""
    try:
        status, content = Gate(settings.url, settings.account("worker"), SECONDS).request("GET", PATH)
    except NoAnswer:
        return
    if status == 404 and b"beats are posted" in content:
        return
    if status == 502:
        yield f"{settings.file}: the proxy reaches no watch at {PATH}: start it, or correct watch.listen or gate.conf"
    elif status == 404 and settings.account("worker") is not None:
        yield (f"{settings.file}: the proxy doesn't pass {PATH} on, so a dead worker is only noticed at its job's"
               " limit: install the gate.conf of this version")


def of_queues(settings: Settings, queues: tuple[str, ...]) -> Iterator[str]:
    """The queues of the gate that runs, and of its settings' file."""
    try:
        shown = [it.name for it in Gate(settings.url, settings.account("people"), SECONDS).status().queues]
    except (NoAnswer, json.JSONDecodeError):
        return
    for it in queues:
        if it not in shown:
            yield f"the gate that runs has no queue {it}: restart it with these settings"
    for it in shown:
        if it not in queues:
            yield f"the gate that runs has the queue {it}, and its settings don't: it won't start with them"
