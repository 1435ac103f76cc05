"""Tries the wrong bodies that no contract refuses: each has to fail the test that its file in bench/bodies names.

tested.py [CRATE..]: tries those of these crates, or all. Such a file has a line `test: CRATE MODULE::NAME`. Its edit is
made in a copy of the repository in which that crate has no other test, and `rt try` runs it: that proves nothing.
PATIENCE is how many seconds the test may take, by default 600, since `rt try` doesn't optimise. Prints a line for each
body, and fails unless each test was run and failed.
"""
import os
import re
import shutil
import subprocess
import sys
import tempfile
from pathlib import Path

TOP = Path(__file__).resolve().parent.parent
TEST = re.compile(r"(?:///[^\n]*\n)*#\[test\]\nfn (\w+)\(.*?\n\}\n", re.S)


def body_of(path):
    """The file that a body edits, its pairs of old and new text, and the crate and the name of its test, if any."""
    said = [line.split(": ", 1) for line in path.read_text().splitlines() if ": " in line]
    of = {word: [text.strip() for name, text in said if name == word] for word in ("file", "old", "new", "test")}
    test = of["test"][0].split() if of["test"] else None
    return of["file"][0], list(zip(of["old"], of["new"], strict=True)), test


def copy(folder):
    """The repository without what was built of it."""
    for it in ("crates.txt", "HANDLES"):
        shutil.copy(TOP / it, folder)
    shutil.copytree(TOP / "crates", folder / "crates", ignore=shutil.ignore_patterns("out", "must-fail"))
    subprocess.run(["git", "init", "--quiet", folder], check=True)


def make(file, pairs):
    text = file.read_text()
    for old, new in pairs:
        assert text.count(old) == 1, f"{file.name} has it {text.count(old)} times: {old}"
        text = text.replace(old, new)
    file.write_text(text)


def keep(folder, test):
    """Takes all tests of a crate out but one."""
    kept = 0
    for file in (folder / "src").rglob("*.rt"):
        module = "::".join(file.relative_to(folder / "src").with_suffix("").parts)
        names = [it[1] for it in TEST.finditer(file.read_text())]
        kept += test in [f"{module}::{name}" for name in names]
        file.write_text(TEST.sub(lambda it: it[0] if f"{module}::{it[1]}" == test else "", file.read_text()))
    assert kept == 1, f"no test is {test}"


def fails(crate, file, pairs, test):
    """How the test of a body ends."""
    with tempfile.TemporaryDirectory() as name:
        folder = Path(name)
        copy(folder)
        make(folder / "crates" / crate / file, pairs)
        keep(folder / "crates" / test[0], test[1])
        words = ["rt", "try", "--test", "--seconds", os.environ.get("PATIENCE", "600")]
        ran = subprocess.run(words, cwd=folder / "crates" / test[0], capture_output=True, text=True, check=False)
        said = ran.stdout + ran.stderr
        if f"test {test[1]} ... FAILED" in said and "no-answer" not in said:
            return True
        print(said[-2000:])
        return False


def main(crates):
    tried = failed = 0
    for path in sorted((TOP / "bench/bodies").glob("*/*.edit")):
        file, pairs, test = body_of(path)
        if test and (not crates or path.parent.name in crates):
            tried += 1
            ended = fails(path.parent.name, file, pairs, test)
            failed += ended
            word = "fails" if ended else "DOES NOT FAIL"
            print(f"{path.parent.name} {path.stem}: {word} {' '.join(test)}", flush=True)
    print(f"{failed} of {tried} wrong bodies failed their tests")
    return failed == tried


sys.exit(not main(sys.argv[1:]))
