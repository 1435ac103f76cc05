"""Which requests the text of a request names as needed.

    Depends-On: ADDRESS

ADDRESS is the forge's own address of a request, `owner/name#12` or `owner/name!12`, or within the repository `#12` or
`!12`. A line that can't be read is a need that nobody would see: it is given back, to be told to the author.
"""
from __future__ import annotations

import re
from collections.abc import Callable, Mapping
from dataclasses import dataclass

from companions.forges import Place
from companions.requests import Request, State

LINE = re.compile(r"^[ \t]*(?:[-*+][ \t]+)?depends-on:(.*)", re.IGNORECASE | re.ASCII)
REPOSITORY = r"[\w.-]+(?:/[\w.-]+)+"
SHORT = re.compile(rf"({REPOSITORY})?[#!]([1-9][0-9]{{0,8}})", re.ASCII)
# Behind the number of an address may stand a page of the request, as /files, a query or a place on the page.
LONG = re.compile(rf"/({REPOSITORY}?)/(?:pulls?|(?:-/)?merge_requests)/([1-9][0-9]{{0,8}})(?:[/?#]\S*)?", re.ASCII)

# The gate refuses a message that names more changes than 32 (E13), so it is enough that it sees the next one. The forge
# is asked for no more requests either: anybody's text would use up what it answers in an hour.
MOST = 33

# So many lines about what is named in vain are kept: as many as people are shown, with the one that counts the others.
REMARKS = 9


@dataclass(frozen=True)
class Known:
    """What is asked of a request that a text names: its target branch, and how it is."""
    target: str
    state: State


@dataclass(frozen=True)
class Needs:
    """The changes that a request needs, and the lines about those that it names in vain. What it needs may change with
    the `places` that it names in gated repositories."""
    changes: tuple[int, ...]
    remarks: tuple[str, ...]
    places: tuple[Place, ...] = ()


def clean(text: str, most: int = 200) -> str:
    """A text of a person as a part of one line: without what no text may hold, and cut."""
    line = "".join(it if it.isprintable() else " " for it in text[:most])
    return line.encode("utf-8", "replace").decode().strip()


def named(text: str, repository: str, web: str) -> list[tuple[str, Place | None]]:
    """What stands behind `Depends-On:` in each such line of a text, with the request that it names, if it does."""
    matches = (LINE.match(line) for line in re.split(r"\r\n|\r|\n", text))
    lines = [match[1].strip(" \t") for match in matches if match]
    return [(said, place_of(said, repository, web)) for said in lines]


def place_of(said: str, repository: str, web: str) -> Place | None:
    """The request that an address names."""
    match, web = SHORT.fullmatch(said), web.rstrip("/")
    if match is None and said.startswith(web):
        match = LONG.fullmatch(said[len(web):])
    return Place(match[1] or repository, int(match[2])) if match else None


def needs_of(so: Request, web: str, names: Mapping[str, str], ask: Callable[[Place], Known | None],
             change_of: Callable[[Place, str], tuple[int, bool] | None]) -> Needs:
    """The needs of a request.

    `names` has the gated repositories' names, each by itself in small letters: the token needn't see others. `ask` asks
    how a request is, which is done once for each. `change_of` gives the number of its change at its target branch, and
    whether that can land for the gate, or has; none where its branch isn't gated. A request that was merged without the
    gate, or past it, stands in the branch and never lands for the gate: it is left out.
    """
    changes: dict[int, None] = {}
    remarks: dict[str, None] = {}
    own = Place(so.repository, so.number)
    asked: dict[Place, Known | None] = {own: None}
    more = 0
    for said, named_place in named(so.text, so.repository, web):
        place = in_letters(named_place, names)
        if place is not None and place not in asked and len(asked) <= MOST:
            asked[place] = ask(place) if place.repository.casefold() in names else None
        found = asked.get(place) if place is not None else None
        change = change_of(place, found.target) if place is not None and found is not None else None
        if change is not None and found is not None:
            if change[1] or found.state is not State.MERGED:
                changes[change[0]] = None
            continue
        remark = f"Depends-On: {clean(said)}: {trouble(so, place, found, place in asked)}"
        if len(remarks) < REMARKS:
            remarks[remark] = None
        else:
            more += remark not in remarks
    counted = [f"and {more} more line{'s' if more > 1 else ''}"] if more else []
    places = tuple(it for it in asked if it != own and it.repository.casefold() in names)
    return Needs(tuple(changes), (*remarks, *counted), places)


def in_letters(place: Place | None, names: Mapping[str, str]) -> Place | None:
    """A place with its repository's name in the letters that the settings have: forges don't tell letters' case."""
    return place and Place(names.get(place.repository.casefold(), place.repository), place.number)


def trouble(so: Request, place: Place | None, found: Known | None, is_asked: bool) -> str:
    """Why a line names no change."""
    if place is None:
        return "names no request of this forge"
    if place == Place(so.repository, so.number):
        return "names this request itself"
    if not is_asked:
        return f"isn't looked up, since {MOST} others stand before it"
    if found is None:
        return "there is no such request"
    return f"its branch, {clean(found.target)}, isn't gated"


def message(so: Request, needs: tuple[int, ...], base: str) -> str:
    """The message that the gate is told of a revision: whose it is, and the needs by their numbers.

    It begins with the repository, so that no title is taken for a need.
    """
    return "\n".join([f"{so.repository} {so.number}: {clean(so.title)}", "", *need_lines(needs, base)])


def need_lines(needs: tuple[int, ...], base: str) -> list[str]:
    """The lines by which a message names these needs."""
    return [f"Depends-On: {base}{it}" for it in needs]
