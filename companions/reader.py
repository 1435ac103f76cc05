"""Reads the tables of a settings file, and tells each fault by the file and the member's whole name."""
from __future__ import annotations

import os
from pathlib import Path
from typing import Any, TypeVar

KINDS = {str: "a text", bool: "true or false", int: "a whole number", float: "a number", dict: "a table",
         list: "an array of tables"}
T = TypeVar("T")


class SettingsFault(Exception):
    """A fault of the settings, told with the file and the member that has it."""


class Reader:
    """Reads a table, and tells what is wrong with it by the file and the member's whole name."""

    def __init__(self, file: Path, where: str, table: dict[str, Any]) -> None:
        self.file, self.where, self.table, self.read = file, where, table, set[str]()

    def fault(self, member: str, what: str) -> SettingsFault:
        return SettingsFault(f"{self.file}: {self.where}{member}: {what}")

    def get(self, member: str, kind: type[T], default: T | None = None) -> T:
        """A member, which has to be there where there is no default."""
        self.read.add(member)
        if member not in self.table:
            if default is None:
                raise self.fault(member, "is missing")
            return default
        value: object = self.table[member]
        if kind is float and type(value) is int:
            value = float(value)
        # A truth value isn't a number, although its class says so.
        if not isinstance(value, kind) or type(value) is not kind or (
                isinstance(value, list) and not all(type(it) is dict for it in value)):
            raise self.fault(member, f"isn't {KINDS[kind]}")
        return value

    def text(self, member: str, default: str | None = None) -> str:
        value = self.get(member, str, default)
        if not value:
            raise self.fault(member, "is empty")
        return value

    def address(self, member: str) -> str:
        """An address over HTTP, without a slash at its end."""
        value = self.text(member).rstrip("/")
        if not value.startswith(("http://", "https://")):
            raise self.fault(member, "begins neither with http:// nor with https://")
        return value

    def place(self, member: str, default: str) -> tuple[str, int]:
        """A host and a port."""
        host, _, port = self.text(member, default).rpartition(":")
        if not host or not (port.isascii() and port.isdigit()) or int(port) > 65535:
            raise self.fault(member, f"isn't a host and a port, as {default}")
        return host, int(port)

    def names(self, member: str) -> frozenset[str] | None:
        """An array of texts, or none where it isn't there."""
        self.read.add(member)
        value = self.table.get(member)
        if value is None:
            return None
        if type(value) is not list or not all(type(it) is str and it for it in value):
            raise self.fault(member, "isn't an array of texts")
        return frozenset(value)

    def folders(self, member: str) -> tuple[Path, ...]:
        """An array of folders by their whole names, in the order of the names."""
        named = sorted(self.names(member) or ())
        for it in named:
            if not it.startswith("/") or os.path.realpath(it) == "/":
                raise self.fault(member, f"{it} isn't the whole name of a folder below /")
        return tuple(Path(it) for it in named)

    def seconds(self, member: str, default: float | None = None) -> float:
        value = self.get(member, float, default)
        if not 0 < value < float("inf"):
            raise self.fault(member, "isn't above 0")
        return value

    def statuses(self, member: str, default: frozenset[int]) -> frozenset[int]:
        """An array of exit statuses of a command that doesn't succeed."""
        self.read.add(member)
        value = self.table.get(member)
        if value is None:
            return default
        if type(value) is not list or not all(type(it) is int and 1 <= it <= 255 for it in value):
            raise self.fault(member, "isn't an array of exit statuses from 1 to 255")
        return frozenset(value)

    def numbers(self, member: str, what: str) -> frozenset[int]:
        """An array of numbers, none where it isn't there."""
        self.read.add(member)
        value = self.table.get(member, [])
        if type(value) is not list or not all(type(it) is int and 0 < it < 10 ** 18 for it in value):
            raise self.fault(member, f"isn't an array of {what}")
        return frozenset(value)

    def count(self, member: str, default: int) -> int:
        value: int = self.get(member, int, default)
        if value < 1:
            raise self.fault(member, "isn't above 0")
        return value

    def inner(self, member: str) -> Reader:
        return Reader(self.file, f"{self.where}{member}.", self.get(member, dict, {}))

    def each(self, member: str) -> list[Reader]:
        rows = self.get(member, list, [])
        return [Reader(self.file, f"{self.where}{member}[{at}].", row) for at, row in enumerate(rows)]

    def end(self) -> None:
        """Nothing stands in the table that nobody reads, as a mistyped member."""
        for member in self.table:
            if member not in self.read:
                raise self.fault(member, "isn't known")
