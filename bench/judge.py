"""What the bytes of a delivery are, read by other means than the gate: the refusals that come before any rule."""
import json
import re
import sys

from talk import KINDS, refusal

sys.setrecursionlimit(100_000)

NAME = re.compile(r"[A-Za-z0-9][A-Za-z0-9._/-]{0,63}\Z")

HEX = "[0-9a-fA-F]"

PARTED = f"{HEX}{{8}}-{HEX}{{4}}-{HEX}{{4}}-{HEX}{{4}}-{HEX}{{12}}"

ID = re.compile(rf"({HEX}{{32}}|{PARTED}|\{{{PARTED}\}}|[uU][rR][nN]:[uU][uU][iI][dD]:{PARTED})\Z")

# the least number that rounds to no float
PAST_FLOATS = 2**1024 - 2**970

MOST_DEEP = 127


class NoJson(Exception):
    pass


def whole(digits):
    if len(digits) > 310 or abs(int(digits)) >= PAST_FLOATS:
        raise NoJson
    # what is no u64 and no i64 is read as a float, and so is -0
    number = int(digits)
    return float(number) if digits == "-0" or not -(2**63) <= number < 2**64 else number


def fraction(digits):
    number = float(digits)
    if number in (float("inf"), float("-inf")):
        raise NoJson
    return number


def no_constant(_):
    raise NoJson


def depth(text):
    """How deep brackets nest, outside of texts."""
    most = now = 0
    is_text = is_escaped = False
    for char in text:
        if is_text:
            if is_escaped:
                is_escaped = False
            elif char == "\\":
                is_escaped = True
            elif char == '"':
                is_text = False
        elif char == '"':
            is_text = True
        elif char in "[{":
            now += 1
            most = max(most, now)
        elif char in "]}":
            now -= 1
    return most


def has_half_pairs(value):
    """Whether a text somewhere has half a surrogate pair, or two halves that weren't written together."""
    if isinstance(value, str):
        return any(0xD800 <= ord(char) <= 0xDFFF for char in value)
    if isinstance(value, list):
        return any(has_half_pairs(inner) for inner in value)
    return isinstance(value, Members) and any(has_half_pairs(inner) for pair in value.pairs for inner in pair)


class Members:
    """An object, with all members: of double ones the last counts, but each must be JSON."""

    def __init__(self, pairs):
        self.pairs = pairs
        self.last = dict(pairs)


def read(line):
    try:
        text = line.decode()
        if depth(text) > MOST_DEEP:
            raise NoJson
        value = json.loads(
            text, parse_int=whole, parse_float=fraction, parse_constant=no_constant, object_pairs_hook=Members
        )
    except (ValueError, RecursionError):
        raise NoJson from None
    if has_half_pairs(value):
        raise NoJson
    return value


def is_number(most):
    return lambda value: type(value) is int and 1 <= value <= most


def is_path_name(value):
    return isinstance(value, str) and bool(NAME.match(value))


MEMBERS = {
    "change": is_number(999_999_999),
    "revision": is_number(9_999),
    "project": is_path_name,
    "message": lambda value: isinstance(value, str) and len(value.encode()) <= 16_384,
    "order": is_number(10**15),
    "worker": is_path_name,
    "build": is_number(10**15),
    "outcome": lambda value: value in ("success", "failure", "lost"),
}

OF_KIND = {
    "revision": ["change", "project", "revision", "message"],
    "approved": ["change", "revision"],
    "withdrawn": ["change", "revision"],
    "closed": ["change", "revision"],
    "landed": ["order"],
    "refused": ["order"],
    "take": ["worker"],
    "result": ["build", "outcome"],
}


def refused(line, door=None):
    """What a line is refused with before any rule; None for a delivery. A door is `forge` or `worker`."""
    try:
        value = read(line)
    except NoJson:
        return refusal("E1")
    if not isinstance(value, Members):
        return refusal("E2")
    said = value.last
    kind = said.get("kind")
    if not isinstance(said.get("id"), str) or not ID.match(said["id"]):
        return refusal("E2")
    if not isinstance(kind, str) or kind not in KINDS:
        return refusal("E2")
    if door is not None and (door == "worker") != (kind in ("take", "result")):
        return refusal("E3")
    is_good = all(name in said and MEMBERS[name](said[name]) for name in OF_KIND[kind])
    return None if is_good else refusal("E2")
