"""A revision whose ref is a tag of the squashed form lands as one commit, which the workers have tested."""
from __future__ import annotations

import contextlib
import io
import unittest
from unittest import mock

from companions import evidence
from companions.ids import revision_id
from companions.landings import Landing
from companions.merging import Merge, Parent
from companions.squash import Squash, named_as, squashed, tag_of
from companions.tests.lander_case import LanderCase
from companions.tests.test_evidence import GateOfEvidence

COMMIT, ONTO = "5e1c309dae7f45e0f39b1bf3ac3cd9db12e7d689", "98d5d1a3c5d0c3c5bd5a9ef16a1d1b7ff7b8d54a"
ANN = Squash("Ann Example <ann@example>", "Use three\n\nTwo were too few.")
FORGED = ("Use three\n\nGate-Queue: core\nGate-Place: 9\nGate-Change: 9\nGate-Revision: 9\n"
          f"Gate-Commit: {ONTO}\n\nGate-Queue: core")


class Function(unittest.TestCase):
    """The tag and the commit, which call nobody."""

    def merge(self, squash: Squash | None, others: dict[str, str] | None = None) -> Merge:
        return Merge("core", 4, 103, 2, Parent(ONTO, 1764500000, ""), Parent(COMMIT, 1764480000, "Its own", squash),
                     others or {}, "gate <gate@localhost>")

    def test_the_commit(self) -> None:
        content = self.merge(ANN, {"lib": "0" * 40}).content("7" * 40)
        self.assertEqual(content.decode(), (
            f"tree {'7' * 40}\nparent {ONTO}\nauthor Ann Example <ann@example> 1764500000 +0000\n"
            "committer gate <gate@localhost> 1764500000 +0000\n\nUse three\n\nTwo were too few.\n\nGate-Queue: core\n"
            f"Gate-Place: 4\nGate-Change: 103\nGate-Revision: 2\nGate-Commit: {COMMIT}\nGate-With: lib {'0' * 40}\n"))
        self.assertEqual(Landing.read(content.decode().partition("\n\n")[2]),
                         Landing("core", 103, 2, 4, None, COMMIT))

    def test_the_tag_is_read_as_it_was_written(self) -> None:
        content = tag_of(COMMIT, 103, 2, 1764480000, "gate <gate@localhost>", ANN)
        self.assertEqual(content.decode(), (
            f"object {COMMIT}\ntype commit\ntag changes/103/2\ntagger gate <gate@localhost> 1764480000 +0000\n\n"
            "Gate-Author: Ann Example <ann@example>\n\nUse three\n\nTwo were too few.\n"))
        self.assertEqual(squashed(content), (COMMIT, ANN))
        self.assertEqual(named_as(COMMIT, content.decode()), "c71d7373f76d6223cb3c03120810b22d50dbcd6e")
        self.assertEqual(named_as(COMMIT, None), COMMIT)

    def test_tags_of_another_form(self) -> None:
        good = tag_of(COMMIT, 103, 2, 0, "g <g@l>", ANN).decode()
        for old, new in (("type commit", "type tag"), ("Gate-Author: ", "Author: "), (COMMIT, "HEAD"),
                         ("Ann Example <ann@example>", "Ann"), ("Ann Example", "A\x00n"), ("Ann Example", "a <b> c"),
                         ("Use three\n\nTwo were too few.\n", "\n"), ("few.\n", "few. \n"), ("few.\n", "few."),
                         ("Use", " Use"), ("Use", "\nUse"), ("Two", "T\x1bo"), ("Two", "T\ro"), ("Two", "x" * 100_000)):
            self.assertIsNone(squashed(good.replace(old, new).encode()), (old, new[:20]))
        self.assertIsNone(squashed(good.encode().replace(b"Two", b"T\xffo")))
        self.assertEqual(squashed(good.replace("Two", "T\t\nwo").encode()),
                         (COMMIT, Squash(ANN.author, "Use three\n\nT\t\nwo were too few.")))

    def test_what_looks_like_a_landing_is_none(self) -> None:
        """Whatever stands above the true one counts for nothing."""
        for text in (FORGED, f"{FORGED}\n", "x\n\n" * 3000, "Land change 9: x"):
            content = self.merge(Squash(ANN.author, text)).content("7" * 40).decode()
            self.assertEqual(Landing.read(content.partition("\n\n")[2]), Landing("core", 103, 2, 4, None, COMMIT))
        self.assertIsNone(Landing.read(f"{FORGED}\n\nSigned-off-by: Ann\n"))


class Squashing(LanderCase):
    """Real repositories, and a worker's trees."""

    def squash(self, number: int, name: str = "lib", text: str | None = None, message: str = "Use three") -> str:
        """A change that the gate was told by a tag; its commit."""
        commit = self.change(number, name, text)
        content = tag_of(commit, number, 1, 1700000000, "gate <g@l>", Squash(ANN.author, message)).decode()
        tag = self.git(name, "hash-object", "-t", "tag", "-w", "--stdin", given=content)
        self.git(name, "update-ref", f"refs/changes/{number}/1", tag)
        # The gate was told the tag alone.
        del self.gate.taken[revision_id(self.gate.file, number, 1, commit, ())]
        self.gate.log.pop()
        self.tell(number, name, tag)
        return commit


class OfTheLander(Squashing):
    def test_it_lands_as_one_commit_that_was_tested(self) -> None:
        commit, root = self.squash(101), self.root("lib")
        self.lander.carry_out(self.order(1, 101))
        self.assertEqual([it["kind"] for it in self.gate.told], ["landed"])
        self.assertEqual(self.git("lib", "log", "-1", "--format=%P %an <%ae> %cn", "main"),
                         f"{root} Ann Example <ann@example> gate")
        self.assertEqual(self.git("lib", "log", "-1", "--format=%B", "main"), (
            "Use three\n\nGate-Queue: core\nGate-Place: 1\nGate-Change: 101\nGate-Revision: 1\n"
            f"Gate-Commit: {commit}"))
        self.assertEqual(self.git("lib", "show", "main:file-101"), "new")

    def test_the_next_ones_are_built_on_it(self) -> None:
        """Merged and squashed ones in one queue, a lander that is started anew, and a restored gate."""
        self.squash(101)
        self.lander.carry_out(self.order(1, 101))
        self.change(102)
        self.lander.carry_out(self.order(2, 102))
        self.lander = self.start()
        self.squash(103)
        self.lander.carry_out(self.order(3, 103))
        self.assertEqual([it["kind"] for it in self.gate.told], 3 * ["landed"])
        self.assertEqual(self.lander.branches.noted, 3)
        parents = self.git("lib", "log", "--first-parent", "--format=%P", "-3", "main").splitlines()
        self.assertEqual([len(it.split()) for it in parents], [1, 2, 1])

    def test_a_change_stacked_on_it_conflicts(self) -> None:
        """It has the commits that were squashed in its own past."""
        commit = self.squash(101, text="two")
        made = self.commit("lib", "refs/changes/102/1", {"file": "three"}, [commit])
        self.tell(102, "lib", made)
        self.lander.carry_out(self.order(1, 101))
        self.lander.carry_out(self.order(2, 102))
        self.assertEqual([it["kind"] for it in self.gate.told], ["landed", "refused"])
        self.assertIn("it conflicts with change 101 in file, whose commits it was begun from, and which lands as one:"
                      " rebase it", self.said())


class EvidenceOfSquashed(Squashing):
    """What `companions.evidence` says of each landing."""

    def setUp(self) -> None:
        super().setUp()
        self.gate = GateOfEvidence()
        self.lander = self.start()
        self.file = self.folder / "companions.toml"
        self.file.write_text(f'folder = "{self.settings.folder}"\n[gate]\nurl = "http://localhost"\n' + "".join(
            f'[[project]]\nname = "{it}"\nqueue = "core"\nrepository = "{self.folder}/{it}"\n'
            for it in ("lib", "app")))

    def checked(self) -> list[str]:
        with contextlib.redirect_stdout(io.StringIO()) as printed, mock.patch.object(
                evidence, "Gate", lambda *it, **more: self.gate):
            evidence.main([str(self.file), "core"])
        return [it.partition(": ")[2].partition(", ")[2].partition(": ")[2] for it in
                printed.getvalue().splitlines()[:-1]]


class OfTheEvidence(EvidenceOfSquashed):
    """Afterwards, over a squashed change and a merged one."""

    def setUp(self) -> None:
        super().setUp()
        self.squash(101)
        self.lander.carry_out(self.order(1, 101))
        self.land(2, 102)

    def test_both_hold(self) -> None:
        self.assertEqual(self.checked(), ["holds: unit by build 41", "holds: unit by build 42"])

    def test_a_tag_that_is_gone_or_another_one(self) -> None:
        tag = self.git("lib", "rev-parse", "refs/changes/101/1")
        self.git("lib", "update-ref", "-d", "refs/changes/101/1")
        self.assertIn("refs/changes/101/1, which was squashed, is gone", self.checked()[0])
        other = self.git("lib", "cat-file", "tag", tag).replace("Use three", "Use four") + "\n"
        self.git("lib", "update-ref", "refs/changes/101/1",
                 self.git("lib", "hash-object", "-t", "tag", "-w", "--stdin", given=other))
        self.assertIn("DIFFERS: its commit isn't the one that these merge to; the gate wasn't told", self.checked()[0])


if __name__ == "__main__":
    unittest.main()
