"""Reads what the sources have recorded, each in its own way."""
from __future__ import annotations

import ast
import functools
import json
import re
from dataclasses import dataclass
from typing import Any

from companions.tests.recorded.replay import Answer
from companions.tests.recorded.sources import files

# An answer that a test of Go's libraries gives: its path, its method, and JSON in a text.
GO_ANSWER = re.compile(r'HandleFunc\("(/[^"]+)", func(?:(?!HandleFunc).)*?testMethod\(t, r, (?:http\.Method|")(\w+)'
                       r'(?:(?!HandleFunc).)*?Fprintf?\(w, `([^`]*)`', re.DOTALL)
# A member of a structure of Go, by the name that it has in JSON.
GO_STRUCT = r"type {} struct \{{\n(.*?)\n\}}"
GO_MEMBER = re.compile(r'`json:"([a-z_A-Z]+)[,"]')
# The lines of an exchange that PyGithub has recorded, the blank one behind it aside.
LINES = 10


@dataclass(frozen=True)
class Hook:
    """A recorded hook: from which file it is, its name there, and what was sent."""
    file: str
    name: str
    content: str


@functools.cache
def github_answers() -> list[Answer]:
    """What api.github.com answered PyGithub: ten lines each, of which the content is one. Where it isn't, as of files
    that were downloaded, the rest of the recording is left out."""
    found = []
    for name, text in files("pygithub", r"tests/ReplayData/[^/]*\.txt").items():
        lines, at = text.split("\n"), 0
        while at + LINES <= len(lines) and lines[at] in ("http", "https"):
            _, method, _, _, path, _, _, status, headers, content = lines[at:at + LINES]
            found.append(Answer(name.rpartition("/")[2].removesuffix(".txt"), method, path, int(status), content,
                                dict(ast.literal_eval(headers))))
            at += LINES
            while at < len(lines) and not lines[at]:
                at += 1
    return found


@functools.cache
def gitlab_hooks() -> list[Hook]:
    """The hooks of projects and of the whole forge that two Go libraries have recorded of GitLab."""
    return [Hook(f"{package} {name}", "", text) for package in ("golang-github-xanzy-go-gitlab",
                                                                "golang-gitlab-gitlab-org-api-client-go")
            for name, text in files(package, r"testdata/(?:webhooks|systemhooks)/.*\.json").items()]


@functools.cache
def buildbot_hooks(form: str) -> list[Hook]:
    """The hooks of a form that buildbot has recorded: texts of a Python module that are whole JSON."""
    found = []
    for name, text in files("buildbot", rf"master/buildbot/test/unit/www/test_hooks_{form}\.py").items():
        for it in ast.parse(text).body:
            if not isinstance(it, ast.Assign) or not isinstance(it.value, ast.Constant):
                continue
            value = it.value.value
            if isinstance(value, bytes) and value.strip()[:1] == b"{" and is_json(value.decode()):
                found.append(Hook(name, ast.unparse(it.targets[0]), value.decode()))
    return found


def go_answers(package: str) -> list[Answer]:
    """What the tests of a Go library let a forge answer, copied from its documentation and from real answers."""
    return [Answer(name, found[2].upper(), found[1], 200, found[3])
            for name, text in files(package, r"(?:[a-z]+/)?[^/]*_test\.go").items()
            for found in GO_ANSWER.finditer(text) if is_json(found[3])]


def go_members(package: str, file: str, structure: str) -> set[str]:
    """The names in JSON of what a structure of a Go library has."""
    [text] = files(package, re.escape(file)).values()
    found = re.search(GO_STRUCT.format(structure), text, re.DOTALL)
    assert found is not None, structure
    return set(GO_MEMBER.findall(found[1]))


def gitlab_requests() -> list[tuple[str, dict[str, Any]]]:
    """The merge requests that are recorded, each with its file."""
    texts = {f"{package} {name}": text for package, pattern in (
        ("golang-github-xanzy-go-gitlab", r"testdata/get_merge_requests?\.json"),
        ("golang-gitlab-gitlab-org-api-client-go", r"testdata/get_merge_requests?\.json"),
        ("glab", r"commands/mr/(?:list|merge)/testdata/.*\.json")) for name, text in files(package, pattern).items()}
    found = []
    for name, text in texts.items():
        said = json.loads(text)
        found += [(name, it) for it in (said if isinstance(said, list) else [said])]
    return found


def is_json(text: str) -> bool:
    try:
        json.loads(text)
    except ValueError:
        return False
    return True
