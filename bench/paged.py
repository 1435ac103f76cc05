"""Gates' files with pages of PAGE bytes, an environment variable; without it, with those that the program makes."""
import os
import sqlite3
import subprocess
from contextlib import closing

PAGE = int(os.environ.get("PAGE") or 0)


def paged(file: str) -> None:
    """Gives a database pages of PAGE bytes. A file that isn't there becomes an empty one. Without PAGE nothing is
    done."""
    if not PAGE:
        return
    with closing(sqlite3.connect(file, isolation_level=None)) as database:
        # Over a log the size stays.
        database.execute("PRAGMA journal_mode = DELETE")
        database.execute(f"PRAGMA page_size = {PAGE}")
        database.execute("VACUUM")
    assert page_of(file) == PAGE, f"pages of {page_of(file)} bytes"


def page_in(database: bytes) -> int:
    """The bytes of a page, as the head of a database has them."""
    size = int.from_bytes(database[16:18], "big")
    return 65_536 if size == 1 else size


def page_of(file: str) -> int:
    with open(file, "rb") as database:
        return page_in(database.read(18))


def made(program: str, settings: str, file: str) -> None:
    """Makes a gate's new file by `gated init`."""
    paged(file)
    subprocess.run([program, "init", settings, file], check=True, capture_output=True)
    assert PAGE in (0, page_of(file)), f"pages of {page_of(file)} bytes"
