"""Folders for tests of the scripts: each has files of a test's own, and is gone behind it."""
from __future__ import annotations

import tempfile
import unittest
from collections.abc import Mapping
from pathlib import Path


def written(test: unittest.TestCase, files: Mapping[str, str]) -> Path:
    """A new folder with these files, by their paths."""
    folder = tempfile.TemporaryDirectory()
    test.addCleanup(folder.cleanup)
    for path, text in files.items():
        put(Path(folder.name) / path, text)
    return Path(folder.name)


def put(file: Path, text: str) -> None:
    """Writes a file, with the folders above it."""
    file.parent.mkdir(parents=True, exist_ok=True)
    file.write_text(text, encoding="utf-8")
