"""The members of the companions' settings: the page has of each the kind, the bound and the default that are read."""
from __future__ import annotations

import copy
import re
import tomllib
import unittest
from collections.abc import Callable, Iterator
from contextlib import ExitStack
from dataclasses import MISSING, fields
from pathlib import Path
from typing import Any
from unittest import mock

from companions.reader import Reader, SettingsFault
from companions.settings import ROLES, Settings, read

PAGE = Path(__file__).resolve().parents[2] / "docs" / "CONNECTING.md"
MUST = "must be there"
Table = dict[str, Any]

# What has to be there, and then all members, of which some are read only where they are there.
LEAST: Table = {
    "folder": "/srv/gated", "gate": {"url": "http://gate"},
    "adapter": {"form": "github", "url": "https://forge/api", "web": "https://forge/", "token": "t", "secret": "s",
                "base": "https://gate/c/"},
    "project": [{"name": "lib", "queue": "core", "repository": "/srv/lib",
                 "job": [{"name": "unit", "command": "true"}]}]}
# Defaults that the page tells in words, as they are with these members.
IN_WORDS = {"`project.name`": "lib", "`watch` in `folder`": "/srv/gated/watch"}
MORE = f"""
[gate]
pause = 2
{"".join(f'{it} = {{ user = "a", password = "b" }}' + chr(10) for it in ROLES)}
[lander]
author = "a <a@b>"
adapter = false
tries = 2
[adapter]
listen = "h:1"
approvers = ["ada"]
reading = 2
keep = 2
compare = 2
look = 2
blind = 900
quiet = 2
logs = "https://logs/{{build}}"
require = ["lint"]
tell = "true"
copies = "/srv/copies"
page = "/srv/page"
[worker]
look = 2
sandbox = false
free = 2
space = 2
patience = 2
logs = "/srv/logs"
filters = ["lfs"]
[watch]
grace = 2
listen = "h:2"
silent = 60
held = 2
figures = "/srv/figures"
stands = 2
[ci]
parallel = 2
commands = 2
begins = 2
look = 2
trusted = ["ci"]
trusted_apps = [12345]
form = "github"
url = "https://ci"
token = "t"
secret = "s"
listen = "h:3"
[[project]]
branch = "next"
forge = "acme/lib"
evidence = false
land = "squash"
[[project.job]]
limit = 2
log_limit = 2
lost = [7]
read = ["/opt"]
write = ["/opt"]
network = true
"""
# By the method that reads a member what the page calls its kind, and values that aren't of it, with the fault of each.
KINDS: dict[str, tuple[str, tuple[tuple[Any, str], ...]]] = {
    "text": ("text", ((7, "isn't a text"), ("", "is empty"))),
    "address": ("address", ((7, "isn't a text"), ("ftp://a", "begins neither with"))),
    "place": ("host and port", ((7, "isn't a text"), ("8090", "isn't a host and a port"),
                                ("h:65536", "isn't a host and a port"))),
    "names": ("array of texts", (("a", "isn't an array of texts"), (["a", 7], "isn't an array"), ([""], "isn't an"))),
    "folders": ("array of folders", (([7], "isn't an array of texts"), (["opt"], "isn't the whole name of a folder"),
                                     (["/"], "isn't the whole name of a folder below /"))),
    "seconds": ("number above 0", (("7", "isn't a number"), (True, "isn't a number"), (0, "isn't above 0"),
                                   (float("inf"), "isn't above 0"))),
    "count": ("whole number above 0", ((7.5, "isn't a whole number"), (True, "isn't a whole"), (0, "isn't above 0"))),
    "statuses": ("array of whole numbers from 1 to 255", (([0], "isn't an array of exit"), ([256], "isn't an array of"),
                                                          (7, "isn't an array of exit statuses from 1 to 255"))),
    "numbers": ("array of whole numbers above 0", (([0], "isn't an array of the numbers of Apps"),
                                                   (7, "isn't an array"), ([True], "isn't an array"))),
    "get": ("true or false", ((1, "isn't true or false"), ("true", "isn't true or false"))),
    "inner": ("table", ((7, "isn't a table"),)),
    "each": ("array of tables", ((7, "isn't an array of tables"), ([7], "isn't an array of tables")))}


def rows() -> Iterator[tuple[str, str, str]]:
    """The page's members, each with its kind and its default."""
    page = PAGE.read_text(encoding="utf-8").split("\n## The settings of the companions\n")[1].split("\n###")[0]
    for names, kind, default in re.findall(r"^\| (`.*?) \| (.*?) \| .* \| (.*?) \|$", page, re.MULTILINE):
        for name in re.findall(r"`([^`]+)`", names):
            yield name, kind, default


def joined(least: Any, more: Any) -> Any:
    """Two tables as one. Those of an array are joined with their first one."""
    if isinstance(least, dict):
        return {**more, **{name: joined(it, more.get(name)) for name, it in least.items()}}
    if isinstance(least, list) and isinstance(more, list):
        return [joined(least[0], more[0])]
    return least


def whole() -> Table:
    """All members; the last job is a CI's."""
    found: Table = joined(LEAST, tomllib.loads(MORE))
    found["project"][0]["job"].append({"name": "docs", "status": "ci/docs"})
    return found


def settings_of(table: Table) -> Settings:
    with mock.patch("companions.settings.tomllib.loads", lambda text: table):
        return read(Path("/dev/null"))


def members_of(table: Table) -> dict[str, tuple[str, Any]]:
    """The whole name of each member that is read of a table, with the method that reads it, and what it gives."""
    found: dict[str, tuple[str, Any]] = {}
    inside: list[str] = []

    def seen(kind: str, real: Callable[..., Any]) -> Callable[..., Any]:
        def method(reader: Reader, member: str, *more: Any) -> Any:
            inside.append(kind)
            try:
                value = real(reader, member, *more)
            finally:
                inside.pop()
            if not inside:
                found[re.sub(r"\[\d+\]", "", reader.where) + member] = kind, value
            return value
        return method

    with ExitStack() as patches:
        for kind in KINDS:
            patches.enter_context(mock.patch.object(Reader, kind, seen(kind, getattr(Reader, kind))))
        settings_of(table)
    return found


def changed(name: str, *value: Any) -> Table:
    """All members but this one, or with another value of it. A job's status stands in the last job."""
    table = whole()
    *above, last = name.split(".")
    at: Any = table
    for it in above:
        at = at[it]
        at = (at[-1] if last == "status" else at[0]) if isinstance(at, list) else at
    del at[last]
    if value:
        at[last] = copy.deepcopy(value[0])
    return table


class Members(unittest.TestCase):
    # Tables of which the page says nothing but by their members, and what each account has.
    UNSAID = {"gate", "lander", "worker", "watch", "ci", *(f"gate.{it}.{of}" for it in ROLES for of in
                                                           ("user", "password"))}

    def test_each_has_its_kind_on_the_page(self) -> None:
        read_as = {name: KINDS[kind][0] for name, (kind, _) in members_of(whole()).items()}
        self.assertEqual({name: kind for name, kind, _ in rows()},
                         {name: kind for name, kind in read_as.items() if name not in self.UNSAID})

    def test_what_is_not_of_the_kind_is_refused(self) -> None:
        """Each member by its whole name, also within the bounds that the page doesn't tell of a kind."""
        for name, (kind, _) in members_of(whole()).items():
            for value, fault in KINDS[kind][1]:
                with self.subTest(name, value=value), self.assertRaisesRegex(
                        SettingsFault, re.sub(r"\.", r"(?:\\[\\d+\\])?\\.", name) + f": .*{fault}"):
                    settings_of(changed(name, value))

    def test_what_must_be_there_is_missed_and_nothing_else(self) -> None:
        settings_of(whole())
        for name, _, default in rows():
            with self.subTest(name):
                if default.startswith(MUST):
                    with self.assertRaisesRegex(SettingsFault, "is missing"):
                        settings_of(changed(name))
                elif name != "project.job.status":
                    settings_of(changed(name))

    def test_the_defaults_are_those_of_the_page(self) -> None:
        """A number, a text or a truth value by its value, another member by its own default, and else in words."""
        found, least = members_of(LEAST), given(LEAST) | {"project"}
        for name, kind, default in rows():
            value = found[name][1] if name in found and name not in least else None
            if isinstance(value, Reader) or kind == "array of tables":
                value = None
            with self.subTest(name):
                self.assertEqual(default.startswith(MUST), name in least)
                if kind.endswith("number above 0"):
                    number, other = re.match(r"\d+", default), re.match(r"`([a-z.]+)`", default)
                    self.assertEqual(float(number[0]) if number else other and found[other[1]][1], value)
                elif kind == "true or false":
                    self.assertEqual(default, f"`{str(value).lower()}`")
                elif kind == "array of whole numbers from 1 to 255":
                    self.assertEqual(default, f"`{sorted(value or ())}`")
                elif kind == "host and port" and value is not None:
                    self.assertEqual(default, f"`{value[0]}:{value[1]}`")
                elif kind == "text" and value is not None:
                    self.assertEqual(IN_WORDS.get(default, default.strip('`"')), value)
                else:
                    self.assertFalse(value)
                    self.assertNotRegex(default, r"^\d|^`[^a-z]|^`(true|false)`")

    def test_a_default_is_the_same_for_who_makes_settings_without_a_file(self) -> None:
        settings = settings_of(LEAST)
        project = settings.projects["lib"]
        assert settings.adapter is not None and settings.hearing is not None
        apart = {"adapter", "file", "figures", "hearing", "ci", "jobs", "forge"}
        for made in (settings, settings.adapter, settings.hearing, project, project.jobs["unit"]):
            for it in fields(made):
                if it.default is not MISSING and it.name not in apart:
                    with self.subTest(type(made).__name__, field=it.name):
                        self.assertEqual(getattr(made, it.name), it.default)
        own = {"form", "url", "token", "secret"}
        self.assertEqual({it.name for it in fields(settings.ci) if getattr(settings.ci, it.name) != it.default}, own)


def given(table: Table) -> set[str]:
    """The whole names of the members of a table that aren't tables."""
    found = set()
    for name, it in table.items():
        if isinstance(it, dict):
            found |= {f"{name}.{more}" for more in given(it)}
        elif isinstance(it, list) and isinstance(it[0], dict):
            found |= {f"{name}.{more}" for more in given(it[0])}
        else:
            found.add(name)
    return found


if __name__ == "__main__":
    unittest.main()
