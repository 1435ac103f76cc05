"""How an operator asks: the files that ask, and the command that writes them."""
from __future__ import annotations

import contextlib
import io
import json
import tempfile
import unittest
from pathlib import Path
from unittest import mock

from companions import held, operator
from companions.held import Hold
from companions.tests.adapter_case import SETTINGS
from companions.tests.operating_case import Operating


class Asking(Operating):
    def test_files_that_ask_for_nothing(self) -> None:
        place = held.make(self.settings.folder)
        good = {"id": "0" * 32, "do": "promote", "change": 1, "by": "root"}
        wrong = ["{", "[]", "x" * 5000, "[" * 4000, *(json.dumps({**good, name: value}) for name, value in (
            ("id", "../x"), ("do", "land"), ("change", "1"), ("change", True), ("by", 1), ("more", 1)))]
        for at, text in enumerate(wrong):
            (place / f"asked-{at}.json").write_text(text)
        self.round()
        self.assertEqual(len(list(place.glob("wrong-asked-*.json"))), len(wrong))
        self.assertEqual([it for it in self.lines() if "asks for nothing" in it][0],
                         f"adapter: {place}/asked-0.json asks for nothing that is known: it is put aside")

    def test_the_command(self) -> None:
        """It shows what it will do, asks, and says what was done."""
        self.stand(3)
        self.assertEqual(self.command("promote", "acme/lib#13", given="n\n"), (1, (
            "change 3, revision 1, stands at place 3 of 3 in core\n"
            "change 3 goes first in core, behind what it needs of it\n"
            "these follow, in this order, and lose their builds: 1, 2\n"
            "Do it? [y/N] operator: nothing is done\n")))
        status, said = self.command("promote", "3", "--yes")
        self.assertEqual((status, self.queue()), (0, [3, 1, 2]))
        self.assertRegex(said.splitlines()[-1], r"^\S+ \S+: promote 3: change 3 goes first in core; change 1 follows;"
                                                r" change 2 follows$")
        status, said = self.command("dequeue", "3", given="y\n")
        self.assertEqual((status, self.queue()), (0, [1, 2]))
        self.assertIn("it leaves core, and needs a new approval\nDo it? [y/N] ", said)
        status, said = self.command("log")
        self.assertEqual(len(said.splitlines()), 2)

    def command(self, *words: str, given: str = "", wait: str = "20") -> tuple[int, str]:
        """A command's status and its words. The adapter runs beside it."""
        sleep = operator.time.sleep

        def beside(seconds: float) -> None:
            self.round()
            sleep(0.01)

        with (contextlib.redirect_stdout(io.StringIO()) as out, mock.patch("sys.stdin", io.StringIO(given)),
              mock.patch.object(operator.time, "sleep", beside)):
            status = operator.main([str(self.file), *words, "--wait", wait])
        return status, out.getvalue()

    def test_an_adapter_that_does_not_run(self) -> None:
        self.stand(2)
        for _ in range(2):
            with mock.patch.object(type(self), "round", lambda it: None):
                self.assertEqual(self.command("promote", "2", "--yes", wait="0")[0], 3)
        self.assertEqual(len(list(held.folder_in(self.settings.folder).glob("asked-*"))), 1)
        self.round()
        self.assertEqual(self.queue(), [2, 1])

    def test_hold_and_resume(self) -> None:
        status, said = self.command("hold", "core", "--because", "a freeze", "--yes")
        self.assertEqual(status, 0)
        self.assertEqual(said.splitlines()[0], "core: no approval is told and nothing lands until 'resume core'")
        self.assertEqual(held.read(self.settings.folder)["core"].why, "a freeze")
        self.assertRegex(self.command("hold", "core", "--yes")[1], r"^core is held already: an operator holds it since "
                                                                   r"\S+ \S+ UTC: a freeze\n$")
        self.assertEqual(self.command("resume", "core", given="\n"), (1, (
            "core: approvals are told and changes land again\nDo it? [y/N] operator: nothing is done\n")))
        self.assertEqual(self.command("resume", "core", "--yes")[0], 0)
        self.assertEqual(held.read(self.settings.folder), {})
        self.assertEqual(self.command("resume", "core", "--yes"), (0, "core is not held\n"))
        self.assertEqual(len(self.command("log")[1].splitlines()), 2)

    def test_wrong_calls(self) -> None:
        for words, said in ((["promote"], "see 'python3"), (["land", "1"], "see 'python3"),
                            (["hold", "none"], "no project"), (["promote", "x"], "neither"),
                            (["promote", "acme/lib#99"], "no change of acme/lib#99"),
                            (["hold", "core", "--because", "x" * 201], "--because wants"),
                            (["--no"], "--no isn't known"), (["promote", "99"], "the gate doesn't know change 99")):
            self.said.truncate(0)
            self.assertEqual(self.command(*words)[0], 2, words)
            self.assertIn(said, self.said.getvalue())
        with contextlib.redirect_stdout(io.StringIO()) as out:
            self.assertEqual(operator.main(["--help"]), 0)
        self.assertIn("promote: the change goes to the front of its queue", out.getvalue())


class Holding(unittest.TestCase):
    """Holds, for which neither a gate nor an adapter is asked."""

    def setUp(self) -> None:
        room = tempfile.TemporaryDirectory()
        self.addCleanup(room.cleanup)
        self.folder, self.file = Path(room.name) / "companions", Path(room.name) / "companions.toml"
        self.folder.mkdir()
        self.file.write_text(SETTINGS.format(folder=room.name, gate="http://127.0.0.1:9"))

    def command(self, *words: str) -> tuple[str, str]:
        """What is printed, and the complaints, of a command that ends well."""
        with contextlib.redirect_stdout(io.StringIO()) as out, contextlib.redirect_stderr(io.StringIO()) as said:
            self.assertEqual(operator.main([str(self.file), *words, "--yes"]), 0)
        return out.getvalue(), said.getvalue()

    def acts(self) -> list[tuple[str, str, list[str]]]:
        return [(it["do"], it["queue"], it["said"]) for it in operator.done(self.folder)]

    def test_one_that_is_killed_before_its_line_is_noted_by_the_next(self) -> None:
        done = [("hold", "core", ["a freeze"]), ("resume", "core", [])]
        cases: list[tuple[str, tuple[str, ...], str]] = [
            ("hold", ("--because", "a freeze"), "core is held already: an operator holds it since "),
            ("resume", (), "core is not held\n")]
        for what, more, said in cases:
            with mock.patch.object(operator, "note", side_effect=KeyboardInterrupt):
                self.assertRaises(KeyboardInterrupt, self.command, what, "core", *more)
            self.assertEqual("core" in held.read(self.folder), what == "hold")
            before = self.acts()
            for _ in range(2):
                self.assertTrue(self.command(what, "core")[0].startswith(said))
            self.assertEqual(self.acts(), [*before, done[len(before)]])
        self.assertEqual(self.acts(), done)

    def test_a_file_that_cannot_be_read_holds_what_is_said_from_then_on(self) -> None:
        for what, left in (("hold", ["core"]), ("resume", [])):
            held.write(self.folder, {"web": Hold("then")})
            (held.folder_in(self.folder) / "held.json").write_text("{")
            said = self.command(what, "core")[1]
            self.assertRegex(said, "^operator: .*held.json can't be read: .*: it is written anew, and then holds no"
                                   " other queue\n$")
            self.assertEqual(list(held.read(self.folder)), left)


if __name__ == "__main__":
    unittest.main()
