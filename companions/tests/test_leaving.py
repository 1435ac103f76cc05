"""The command that is run for each change that leaves its queue without landing."""
from __future__ import annotations

import re
import threading
import time
import tomllib
import unittest
from dataclasses import replace
from pathlib import Path
from typing import Any
from unittest import mock

from companions import leaving
from companions.requests import State
from companions.tests.adapter_case import Case

PAGE = Path(__file__).resolve().parents[2] / "docs" / "OPERATING.md"
SAYS = 'd=$(mktemp -d -p "$OUT"); env | grep ^GATED_ | sort > "$d/env"; cat > "$d/words"; mv "$d" "$d.done"'


class LeavingTest(Case):
    """The first request has change 1, and so on. How each leaves is told by a test."""

    def setUp(self) -> None:
        super().setUp()
        self.out = self.folder / "out"
        self.out.mkdir()
        self.enterContext(mock.patch.dict("os.environ", {"OUT": str(self.out)}))
        self.tell_by(SAYS)

    def tell_by(self, command: str | None, patience: float = 60.0) -> None:
        self.settings = replace(self.settings, adapter=replace(self.settings.adapter, tell=command))
        self.start()
        self.adapter.leaving.patience = patience

    def leaves(self, change: int, verdict: str = "failed") -> None:
        """It stood in its queue, and has left: its order is its number."""
        self.gate.reports.append(f"{change} {change} 1 {verdict} -")
        self.gate.changes[change] |= {"order": None}

    def settle(self) -> None:
        """Waits until no command runs."""
        until = time.monotonic() + 60
        while self.adapter.leaving.running and time.monotonic() < until:
            time.sleep(0.01)
        self.assertEqual(self.adapter.leaving.running, set())

    def told(self) -> list[tuple[str, str]]:
        """What the commands were given, by their changes."""
        self.settle()
        found = [((it / "env").read_text(), (it / "words").read_text()) for it in self.out.glob("*.done")]
        return sorted(found, key=lambda it: it[0])

    def test_who_has_failed_is_told_once(self) -> None:
        place = self.be(12, 0, self.approve(1), title="Add $(touch hers) `it`", author="eve")
        self.tell(place)
        self.assertEqual(self.told(), [])
        self.leaves(1)
        self.gate.built = [{"build": 7, "job": "unit", "live": True, "outcome": "failure"}]
        self.tell()
        [(around, words)] = self.told()
        self.assertEqual(around, "GATED_AUTHOR=eve\nGATED_CHANGE=1\nGATED_QUEUE=core\n"
                                 "GATED_REQUEST=https://forge.example/acme/lib/pulls/12\n"
                                 "GATED_TITLE=Add $(touch hers) `it`\nGATED_VERDICT=failed\n")
        [(_, comment)] = self.forge.comments.values()
        self.assertEqual(words.splitlines()[0], comment.splitlines()[0].replace("**", "").replace("`", ""))
        self.assertIn("- unit failed: build 7\n", words)
        self.tell()
        self.start()
        self.tell()
        self.assertEqual(len(self.told()), 1)

    def test_each_verdict_but_a_landing(self) -> None:
        for at, verdict in enumerate(("refused", "withdrawn", "landed")):
            self.tell(self.be(12 + at, at, self.approve(at + 1, at)))
            self.gate.reports.append(f"{at + 1} {at + 1} 1 {verdict} {'1' if verdict == 'landed' else '-'}")
            self.gate.changes[at + 1] |= {"order": None, "state": "landed" if verdict == "landed" else "open"}
        place = self.be(15, 3, self.approve(4, 3))
        self.tell(place)
        self.be(15, 3, state=State.CLOSED)
        self.leaves(4, "closed")
        self.tell(place)
        verdicts = [re.findall("GATED_VERDICT=(.*)", it[0])[0] for it in self.told()]
        self.assertEqual(verdicts, ["refused", "withdrawn", "closed"])

    def test_one_that_leaves_twice_is_told_twice(self) -> None:
        self.tell(self.be(12, 0, self.approve(1)))
        for order in (1, 2):
            self.gate.reports.append(f"{order} 1 1 refused -")
            self.gate.changes[1]["order"] = None
            self.tell()
            self.assertEqual(len(self.told()), order)

    def test_one_that_was_approved_again_meanwhile_is_not_told(self) -> None:
        self.tell(self.be(12, 0, self.approve(1)))
        self.gate.reports = ["1 1 1 withdrawn -"]
        self.gate.items = ["2 1 1 - ok unit=running"]
        self.tell()
        self.assertEqual(self.told(), [])

    def test_what_has_left_before_is_not_told(self) -> None:
        self.tell_by(None)
        self.tell(self.be(12, 0, self.approve(1)))
        self.leaves(1, "refused")
        self.tell()
        self.tell_by(SAYS)
        self.tell()
        self.assertEqual(self.told(), [])
        self.tell(self.be(13, 1, self.approve(2, 1)))
        self.leaves(2, "refused")
        self.tell()
        self.assertEqual([re.findall("GATED_CHANGE=(.*)", it[0]) for it in self.told()], [["2"]])

    def leave(self, count: int) -> float:
        """So many leave at once: how long the look takes in which that is told."""
        for at in range(count):
            self.tell(self.be(12 + at, at % 4, self.approve(at + 1, at % 4)))
        for at in range(count):
            self.leaves(at + 1, "refused")
        begin = time.monotonic()
        self.tell()
        return time.monotonic() - begin

    def test_a_command_that_hangs_holds_nothing_up(self) -> None:
        self.tell_by("sleep 1000 & sleep 1000; true", patience=2.0)
        self.leave(1)
        # People are told meanwhile, and the adapter goes on.
        self.assertEqual(len(self.adapter.leaving.running), 1)
        self.assertIn("refused", self.adapter.people.kinds.values())
        self.settle()
        self.assertIn("adapter: adapter.tell was killed, since it took more than 2 seconds (change 1)", self.lines())
        self.tell()
        self.assertEqual(self.adapter.leaving.running, set())

    def test_one_that_fails_is_said_once_and_not_tried_again(self) -> None:
        self.tell_by('echo "no mail for $GATED_CHANGE" >&2; echo told >> "$OUT/tried"; exit 3')
        self.leave(2)
        self.settle()
        self.tell()
        self.settle()
        self.assertEqual((self.out / "tried").read_text(), "told\ntold\n")
        said = [it for it in self.lines() if "adapter.tell" in it]
        self.assertEqual(sorted(said), [f"adapter: adapter.tell ended with 3: no mail for {it} (change {it})"
                                        for it in (1, 2)])

    def test_one_that_reads_nothing(self) -> None:
        self.tell_by('echo told >> "$OUT/tried"')
        with mock.patch.object(leaving, "unmarked", lambda it: "x" * 10 ** 6):
            self.leave(1)
        self.settle()
        self.assertEqual((self.out / "tried").read_text(), "told\n")

    def test_a_few_at_a_time(self) -> None:
        gate = threading.Event()
        with mock.patch.object(leaving.Leaving, "ended", lambda it, around, text: gate.wait(60) and ""):
            self.leave(6)
            self.assertEqual(len(self.adapter.leaving.running), 4)
            self.tell()
            self.assertEqual(len(self.adapter.leaving.running), 4)
            gate.set()
            self.settle()
        self.tell()
        self.assertEqual(len(self.told()), 2)

    def test_the_examples_of_the_page(self) -> None:
        """Run with a sendmail and a curl that only keep what they are given."""
        commands = [tomllib.loads(it)["tell"] for it in
                    re.findall(r"```toml\n(tell = .*?)```", PAGE.read_text(encoding="utf-8"), re.DOTALL)]
        self.assertEqual(len(commands), 2)
        (self.folder / "curl").write_text('#!/bin/sh\ncat > "$OUT/kept"\n')
        (self.folder / "sendmail").write_text('#!/bin/sh\ncat > "$OUT/kept"\n')
        for it in ("curl", "sendmail"):
            (self.folder / it).chmod(0o755)
        around: dict[str, Any] = {"GATED_VERDICT": "failed", "GATED_TITLE": 'A "title"', "GATED_REQUEST": "https://r/1"}
        mail = 'Subject: failed: A "title"\nTo: team@git.example\n\nhttps://r/1\n\nWords\n'
        for command, wanted in zip(commands, (mail, '{"text": "https://r/1\\nWords\\n"}\n')):
            tell = leaving.Leaving(command.replace("/usr/sbin/sendmail", "sendmail"), self.adapter.people.notes,
                                   self.adapter.subjects, str, lambda: "file")
            around |= {"PATH": f"{self.folder}:/usr/local/bin:/usr/bin:/bin", "OUT": str(self.out)}
            self.assertEqual(tell.ended(around, "Words\n"), "")
            self.assertEqual((self.out / "kept").read_text(), wanted)
            (self.out / "kept").unlink()
            self.assertEqual(tell.ended({**around, "GATED_VERDICT": "closed"}, ""), "")
            self.assertFalse((self.out / "kept").exists())


if __name__ == "__main__":
    unittest.main()
