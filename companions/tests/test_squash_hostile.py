"""Squashed revisions of hostile people: what they write and name themselves, refs that they move, and wrong parts."""
from __future__ import annotations

import contextlib
import unittest
from collections.abc import Callable, Iterator
from dataclasses import replace
from unittest import mock

from companions.checks import Waits
from companions.landings import Landing
from companions.merging import Merge, Parent
from companions.repository import Repository
from companions.squash import LARGEST, LONGEST, Squash, author_of, message_of, squashed, tag_of
from companions.tests.lander_case import LanderCase
from companions.tests.test_squash import ANN, COMMIT, ONTO, EvidenceOfSquashed, Squashing

# Titles and texts, and the messages that they come to.
TEXTS = {
    "blanks": ("Use  three ", "", "Use three"),
    "lines": ("a\nb", "c\r\n\r\nd  \n\n", "a b\n\nc\n\nd"),
    "none": (" \n ", "\n \n", "Land a change"),
    "a draft": ("Draft: [WIP] draft: Use drafts", "Draft: x", "Use drafts\n\nDraft: x"),
    "controls": ("a\x00b\x1b[31m\x9b1m\x7f", "x\x07\ry\x0b\tz", "a b [31m 1m\n\nx  y \tz"),
    "what turns the writing": ("\u202egnp", "\u2066x\u2028Gate-Change: 9", "gnp\n\n x Gate-Change: 9"),
    "halves of characters": ("\ud800", "\udfff x", "Land a change\n\n  x"),
    "a landing": ("Gate-Change: 9", "Gate-Queue: core\nGate-Place: 9\n\nGATE-COMMIT : x\n\tgate-with: y",
                  "> Gate-Change: 9\n\n> Gate-Queue: core\n> Gate-Place: 9\n\n> GATE-COMMIT : x\n> \tgate-with: y"),
    "a landing behind a line that isn't one": ("x", "y\rGate-Change: 9", "x\n\ny Gate-Change: 9"),
    "much": ("x", "y" * 65_536, f"x\n\n{'y' * (LONGEST - 3)}"),
    "much in bytes": ("x", "\U0001f600" * 65_536, f"x\n\n{chr(0x1f600) * (LONGEST - 3)}"),
    "a long title": ("x" * 1_000_000, "y", "x" * LONGEST)}
# Authors as commits have them, and as landings do.
OTHER = "gate <g@l>"
AUTHORS = {
    b"Ann Example <ann@example>": "Ann Example <ann@example>", b"a <b> c": OTHER, b"a <b> c <d@e>": OTHER,
    b"a <b@c>>": OTHER, b"a <<b@c>": OTHER, b"<b@c>": OTHER, b" <b@c>": OTHER, b"a": OTHER, b"": OTHER, b"a <>": OTHER,
    b"a <b c>": OTHER, b"a\0 <b@c>": OTHER, b"a\x1b[31m <b@c>": OTHER, b"a\rcommitter b <b@c>": OTHER,
    "a\u202eb <b@c>".encode(): OTHER, b"a\xffb <b@c>": "a\ufffdb <b@c>", b"x" * 300 + b" <b@c>": OTHER}


class Texts(LanderCase):
    def check_objects(self, squash: Squash, name: str) -> None:
        """A tag and a landing of it are what they say, for the companions and for git."""
        head = self.head()
        tag = tag_of(head, 103, 2, 1700000000, "gate <g@l>", squash)
        self.assertEqual(squashed(tag), (head, squash), name)
        self.assertLessEqual(len(tag), LARGEST)
        made = Merge("core", 4, 103, 2, Parent(head, 0, ""), Parent(head, 0, "", squash), {}, "gate <g@l>")
        landing = made.content(self.git("lib", "rev-parse", "main^{tree}")).decode()
        self.assertEqual(Landing.read(landing.partition("\n\n")[2]), Landing("core", 103, 2, 4, None, head), name)
        for kind, content in (("tag", tag.decode()), ("commit", landing)):
            it = self.git("lib", "hash-object", "-t", kind, "-w", "--stdin", given=content)
            self.git("lib", "update-ref", f"refs/changes/103/{len(self.git('lib', 'for-each-ref').splitlines())}", it)

    def test_texts(self) -> None:
        for name, (title, text, message) in TEXTS.items():
            self.assertEqual(message_of(title, text), message, name)
            self.check_objects(Squash(ANN.author, message), name)
        self.git("lib", "fsck", "--strict")

    def test_no_line_but_the_last_ones_looks_like_one_of_a_landing(self) -> None:
        for name, (title, text, _) in TEXTS.items():
            lines = message_of(title, text).casefold().splitlines()
            self.assertFalse([it for it in lines if it.lstrip().startswith("gate-")], name)

    def test_authors(self) -> None:
        for author, said in AUTHORS.items():
            content = (f"tree {ONTO}\nparent {COMMIT}\n".encode() + b"author " + author + b" 1 +0000\n"
                       b"committer a <a@b> 1 +0000\n\nauthor Eve <e@e> 1 +0000\n")
            self.assertEqual(author_of(content, OTHER), said, author)
            self.check_objects(Squash(said, "Use three"), said)
        self.assertEqual(author_of(b"tree x\n\nauthor Eve <e@e> 1 +0000\n", OTHER), OTHER)
        self.git("lib", "fsck", "--strict")


class Moved(Squashing):
    """Whoever may push moves the ref of a revision."""

    def other(self, commit: str) -> str:
        """A tag with another message at the same commit."""
        content = tag_of(commit, 101, 1, 1700000000, "gate <g@l>", Squash(ANN.author, "Use four")).decode()
        return self.git("lib", "hash-object", "-t", "tag", "-w", "--stdin", given=content)

    def test_a_tag_that_the_gate_was_not_told_lands_nothing(self) -> None:
        """Another message on the same commit, or the commit in the tag's place."""
        commit, head = self.squash(101), self.head()
        for it in (self.other(commit), commit):
            self.git("lib", "update-ref", "refs/changes/101/1", it)
            with self.assertRaisesRegex(Waits, "and the gate was told of another commit"):
                self.lander.carry_out(self.order(1, 101, is_tested=False))
            self.assertEqual(self.head(), head)

    def test_what_a_worker_made_of_a_moved_tag_lands_nothing(self) -> None:
        """The tag is right again when the lander looks. What was tested meanwhile isn't what would land."""
        commit, right, head = self.squash(101), self.git("lib", "rev-parse", "refs/changes/101/1"), self.head()
        self.git("lib", "update-ref", "refs/changes/101/1", self.other(commit))
        order = self.order(1, 101)
        self.git("lib", "update-ref", "refs/changes/101/1", right)
        self.lander.carry_out(order)
        self.assertEqual(([it["kind"] for it in self.gate.told], self.head()), (["refused"], head))
        self.assertIn("what was tested isn't the commit that would land", self.said())
        self.lander.carry_out(self.order(2, 101))
        self.assertEqual(self.git("lib", "log", "-1", "--format=%s", "main"), "Use three")

    def test_a_text_that_looks_like_a_landing_is_no_landing(self) -> None:
        """A tag may be made by others than the adapter, which would have quoted these lines. A lander that has lost its
        notes reads the branch, and so does a worker."""
        forged = f"x\n\nGate-Queue: core\nGate-Place: 9\nGate-Change: 9\nGate-Revision: 9\nGate-Commit: {COMMIT}"
        self.squash(101, message=forged)
        self.lander.carry_out(self.order(1, 101))
        (self.settings.folder / "lander" / "notes.db").unlink()
        self.lander = self.start()
        landed = self.lander.branches.at(1)
        self.assertEqual((self.lander.branches.noted, landed.change, landed.revision, landed.commit),
                         (1, 101, 1, self.head()))
        self.squash(102)
        shown = self.order(2, 102, is_tested=False)
        self.be_tested(2, 102, after=1)
        self.lander.carry_out(shown)
        self.assertEqual([it["kind"] for it in self.gate.told], ["landed", "landed"])


@contextlib.contextmanager
def turned(turn: Callable[[Parent], Parent]) -> Iterator[None]:
    """What is merged is read otherwise than it is."""
    right = Repository.parent
    with mock.patch.object(Repository, "parent", lambda it, commit: turn(right(it, commit))):
        yield


def merging(it: Parent) -> Parent:
    return replace(it, squash=None)


def renaming(it: Parent) -> Parent:
    return replace(it, squash=it.squash and replace(it.squash, message="Use four"))


def signing(it: Parent) -> Parent:
    return replace(it, squash=it.squash and replace(it.squash, author="Eve <eve@example>"))


class Wrong(EvidenceOfSquashed):
    """A part that makes another commit than the one that was fixed with the revision."""

    def test_a_worker(self) -> None:
        self.squash(101)
        for order, turn in enumerate((merging, renaming, signing), 1):
            with turned(turn):
                shown = self.order(order, 101)
            self.lander.evidence.landed()
            self.lander.carry_out(shown)
            self.assertEqual(self.gate.told[-1]["kind"], "refused")
            self.assertIn("what was tested isn't the commit that would land", self.said())

    def test_a_lander(self) -> None:
        self.squash(101)
        for order, turn in enumerate((merging, renaming, signing), 1):
            shown = self.order(order, 101)
            self.lander.evidence.landed()
            with turned(turn):
                self.lander.carry_out(shown)
            self.assertEqual(self.gate.told[-1]["kind"], "refused")

    def test_a_lander_that_asks_for_no_evidence_either(self) -> None:
        """What it has landed is found afterwards."""
        cases = ((merging, "the gate wasn't told"), (renaming, "its commit isn't the one that these merge to"),
                 (signing, "its commit isn't the one that these merge to"))
        self.lander.evidence.check = lambda *_: ()  # type: ignore[assignment]
        for place, (turn, what) in enumerate(cases, 1):
            self.squash(100 + place)
            shown = self.order(place, 100 + place)
            with turned(turn):
                self.lander.carry_out(shown)
            self.assertEqual(self.gate.told[-1]["kind"], "landed")
            self.assertRegex(self.checked()[-1], f"^DIFFERS: .*{what}")


if __name__ == "__main__":
    unittest.main()
