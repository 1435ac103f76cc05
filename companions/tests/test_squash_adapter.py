"""The adapter names the revisions of a project with `land = "squash"` by tags, and closes their requests."""
from __future__ import annotations

import json
import unittest
from dataclasses import replace
from unittest import mock

from companions.answers import Wrong
from companions.forges import Place
from companions.ids import revision_id
from companions.landed_as import KEPT, LandedAs
from companions.merging import Merge, Parent
from companions.reader import SettingsFault
from companions.settings import read
from companions.tests.adapter_case import SETTINGS, Case
from companions.tests.test_squash import ANN
from companions.tests.test_squash_hostile import AUTHORS, OTHER, TEXTS


class SquashingCase(Case):
    def setUp(self) -> None:
        super().setUp()
        projects = {**self.settings.projects, "lib": replace(self.settings.projects["lib"], squashes=True)}
        assert self.settings.adapter is not None
        self.page = self.folder / "page"
        self.page.mkdir()
        self.settings = replace(self.settings, projects=projects, author=OTHER,
                                adapter=replace(self.settings.adapter, page=self.page))
        self.start()
        self.origin.git("config", "receive.fsckObjects", "true")

    def tag(self, change: int, revision: int) -> str:
        return self.origin.git("cat-file", "tag", f"refs/changes/{change}/{revision}")

    def is_told(self, change: int, revision: int) -> bool:
        """Whether the gate was told what stands at the name of a revision."""
        there, first = self.origin.git("rev-parse", f"refs/changes/{change}/{revision}"), next(iter(self.gate.accepted))
        return revision_id(first, change, revision, there, ()) in self.gate.accepted

    def landing(self, change: int, commit: str) -> str:
        """A commit that lands a squashed change as the first one of `core`, on no branch by now."""
        message = Merge("core", 1, change, 1, Parent(self.base, 0, ""), Parent(commit, 0, "", ANN), {}, OTHER).message
        return self.origin.git("commit-tree", self.origin.tree(commit), "-p", self.base, "-m", message)


class Revisions(SquashingCase):
    def test_a_revision_is_told_and_named_by_its_tag(self) -> None:
        place = self.be(12, 0, title="Use  three", text="Two were too few.")
        self.look(place)
        # What the title is by now was fixed with the revision.
        self.be(12, 0, self.approve(1), title="Use four")
        self.assertEqual(self.look(place), ["approved 1 1"])
        self.assertEqual(self.tag(1, 1).splitlines()[0], f"object {self.commits[0]}")
        self.assertEqual(self.tag(1, 1).partition("\n\n")[2], (
            "Gate-Author: test <test@localhost>\n\nUse three\n\nTwo were too few."))
        self.assertTrue(self.is_told(1, 1))
        self.assertEqual(self.look(place), [])
        self.start()
        self.assertEqual(self.look(place), [])
        self.be(12, 1, self.approve(2, 1), title="Use four")
        self.assertEqual(self.look(place), ["revision 1 2", "approved 1 2"])
        self.assertIn("\n\nUse four", self.tag(1, 2))

    def test_the_first_revision_of_a_file_is_told_once_more(self) -> None:
        self.gate.accepted.clear()
        place = self.be(12, 0, self.approve(1))
        self.assertEqual((self.look(place), self.look(place)), (["revision 1 1"], ["revision 1 2", "approved 1 2"]))
        self.assertTrue(self.is_told(1, 2))
        self.assertEqual(self.look(place), [])

    def test_a_title_that_is_edited_while_the_adapter_dies(self) -> None:
        """The name was set to a tag that was never told: it is set to the one that is."""
        place = self.be(12, 0, self.approve(1), title="Use three")
        with mock.patch.object(self.adapter.looks, "write", side_effect=KeyboardInterrupt):
            self.assertRaises(KeyboardInterrupt, self.look, place)
        self.assertIn("\n\nUse three", self.tag(1, 1))
        self.start()
        self.be(12, 0, self.approve(1), title="Use four")
        self.assertEqual(self.look(place), ["revision 1 1", "approved 1 1"])
        self.assertIn("\n\nUse four", self.tag(1, 1))
        self.assertTrue(self.is_told(1, 1))

    def test_a_ref_that_was_moved_is_set_right_to_the_tag(self) -> None:
        place = self.be(12, 0, self.approve(1))
        self.look(place)
        there = self.origin.git("rev-parse", "refs/changes/1/1")
        for it in (self.commits[0], self.commits[1]):
            self.origin.revision(1, 1, it)
            self.adapter.looks.set_right(Wrong(1, 1, "lib"))
            self.assertEqual(self.origin.git("rev-parse", "refs/changes/1/1"), there)
        self.assertIn(f"was {self.commits[0]}: set right to {there}, which was told", self.said.getvalue())

    def test_another_setting_counts_from_the_next_revision_on(self) -> None:
        place = self.be(12, 0)
        self.look(place)
        self.settings = replace(self.settings, projects={
            **self.settings.projects, "lib": replace(self.settings.projects["lib"], squashes=False)})
        self.start()
        self.be(12, 0, self.approve(1))
        self.assertEqual(self.look(place), ["approved 1 1"])
        self.assertEqual((self.tag(1, 1).splitlines()[0], self.is_told(1, 1)), (f"object {self.commits[0]}", True))
        self.be(12, 1, self.approve(2, 1))
        self.assertEqual(self.look(place), ["revision 1 2", "approved 1 2"])
        self.assertEqual(self.origin.git("rev-parse", "refs/changes/1/2"), self.commits[1])

    def test_who_approves_is_told_the_message_of_earlier(self) -> None:
        """Who wrote it has given the request another title or text since the gate was told of the commit."""
        said = ("It lands with the title and the text that it had when the gate was told of this commit:\n\n"
                "    Use three\n    Two were too few.\n\nTo have those of now, push once more.")
        place = self.be(12, 0, title="Use three", text="Two were too few.")
        self.tell(place)
        self.assertEqual(self.forge.comments, {})
        self.adapter.people.manner = replace(self.adapter.people.manner, quiet=0.0)
        for title, text, is_other in (("Draft: Use three", "Two were too few.\r\n", False), ("Use four", "", True),
                                      ("Use three", "Two were too few.", False), ("Use three", "They were.", True)):
            self.be(12, 0, title=title, text=text)
            self.tell(place)
            self.assertEqual(said in "".join(it for _, it in self.forge.comments.values()), is_other, (title, text))
        self.be(12, 1)
        self.tell(place)
        self.assertNotIn(said, self.forge.comments[1][1])
        self.assertIn("\n\nUse three\n\nThey were.\n", self.adapter.changes.tag(1, 2) or "")

    def test_only_tags_that_may_be_needed_are_kept(self) -> None:
        """Those of the newest revision and of approved ones, until the commits of a closed request are dropped."""
        place = self.be(12, 0)
        for head in (0, 1, 2):
            self.be(12, head)
            self.look(place)
        self.be(12, 2, self.approve(1, 2))
        self.look(place)
        self.be(12, 3)
        self.look(place)
        self.assertEqual([it for it in range(1, 5) if self.adapter.changes.tag(1, it)], [3, 4])
        self.adapter.changes.dropped(1)
        self.assertEqual([it for it in range(1, 5) if self.adapter.changes.tag(1, it)], [])

    def told(self, places: list[Place]) -> None:
        """They are the first changes, and are told and approved in one look."""
        said = [[f"revision {it} 1", f"approved {it} 1"] for it in range(1, len(places) + 1)]
        self.assertEqual(sorted(self.look(*places)), sorted(sum(said, [])))

    def test_whatever_people_write(self) -> None:
        """Their forge checks what is pushed, and takes each tag."""
        self.told([self.be(at, 0, self.approve(at), title=title, text=text)
                   for at, (title, text, _) in enumerate(TEXTS.values(), 12)])
        for change, (name, (_, _, message)) in enumerate(TEXTS.items(), 1):
            self.assertEqual(self.tag(change, 1).split("\n\n", 2)[2], message, name)
            self.assertTrue(self.is_told(change, 1), name)

    def test_whatever_they_call_themselves(self) -> None:
        names = {it: AUTHORS[it] for it in (b"a <b> c <d@e>", b"a\0 <b@c>", b"a\xffb <b@c>")}
        places, file = [], self.folder / "commit"
        for at, name in enumerate(names, 12):
            file.write_bytes(f"tree {self.origin.tree(self.base)}\nparent {self.base}\nauthor ".encode() + name
                             + b" 1 +0000\ncommitter a <a@b> 1 +0000\n\nUse three\n")
            commit = self.origin.git("hash-object", "-t", "commit", "-w", "--literally", str(file))
            places.append(self.be(at, commit, replace(self.approve(at), commit=commit)))
        self.told(places)
        for change, (name, author) in enumerate(names.items(), 1):
            self.assertIn(f"\n\nGate-Author: {author}\n\nTitle", self.tag(change, 1), name)

    def test_the_settings(self) -> None:
        file, text = self.folder / "it.toml", SETTINGS.format(folder=self.folder, gate="http://localhost")
        for land, squashes in (("", False), ('land = "merge"', False), ('land = "squash"', True)):
            file.write_text(text.replace('queue = "core"', f'queue = "core"\n{land}'))
            self.assertEqual(read(file).projects["lib"].squashes, squashes)
        file.write_text(text.replace('queue = "core"', 'queue = "core"\nland = "rebase"'))
        with self.assertRaisesRegex(SettingsFault, r"project\[0\].land: is none of merge, squash"):
            read(file)


class Landed(SquashingCase):
    """What its request says of a change that has landed."""

    def setUp(self) -> None:
        super().setUp()
        self.adapter.people.manner = replace(self.adapter.people.manner, quiet=0.0)
        self.place = self.be(12, 0, self.approve(1), title="Use three")
        self.tell(self.place)
        self.gate.reports = ["1 1 1 landed 1"]
        self.gate.land(1)
        self.landed = self.landing(1, self.commits[0])

    def tell_later(self) -> list[str]:
        """What is written once what couldn't be found has rested."""
        self.adapter.people.others.landing.rests.end_all()  # type: ignore[attr-defined]
        return self.tell()

    def test_it_is_closed_once_its_comment_names_the_commit(self) -> None:
        self.assertEqual(self.tell(self.place), [f"acme/lib {self.commits[0]}: success: Landed in core as 1",
                                                 "acme/lib 12, comment 1: **Landed in `core` as 1.**"])
        self.assertEqual(self.tell_later(), [])
        self.origin.name("refs/heads/main", self.landed)
        self.origin.landing("core", 1, self.landed)
        self.tell_later()
        self.assertIn(f"\n\nIts branch has it as one commit: {self.landed}", self.forge.comments[1][1])
        said = self.forge.news() + self.tell() + self.tell()
        self.assertIn(f"acme/lib 12: closed at {self.commits[0].lstrip('0')}", said)
        self.assertTrue(self.forge.comments[1][1].endswith(
            "The gate has closed it, since the forge doesn't show one that landed as one commit as merged."))

    def test_a_note_that_names_no_landing_of_the_branch(self) -> None:
        """Whoever may push a note has it name a commit that says the same and isn't on the branch, one of the branch
        that says nothing or lands another change, or one that is in its past and no landing of it."""
        tree, other = self.origin.tree(self.base), self.landing(2, self.commits[0])
        merged = self.origin.git("commit-tree", tree, "-p", self.base, "-p", self.landed, "-m", "x")
        for head, noted in ((self.base, self.landed), (self.base, self.base), (other, other), (merged, self.landed)):
            self.origin.name("refs/heads/main", head)
            self.origin.landing("core", 1, noted)
            self.tell_later()
            self.assertNotIn("as one commit", self.forge.comments[1][1])

    def test_a_landing_that_is_not_found_is_looked_for_now_and_then(self) -> None:
        with mock.patch.object(LandedAs, "find", return_value=None) as found:
            for _ in range(3):
                self.tell(self.place)
            self.assertEqual(found.call_count, 1)
            self.tell_later()
            self.assertEqual(found.call_count, 2)

    def test_of_many_landings_the_last_ones_are_remembered(self) -> None:
        with mock.patch.object(LandedAs, "find", return_value=self.landed) as found:
            landed_as = LandedAs({}, self.adapter.looks.project_of)
            for place in [*range(1, KEPT + 2), KEPT + 1, 1]:
                self.assertEqual(landed_as(1, "core", place), self.landed)
        self.assertEqual((len(landed_as.known), found.call_count), (KEPT, KEPT + 2))


class Stacked(SquashingCase):
    def test_one_that_was_begun_from_a_squashed_one_is_told_to_rebase(self) -> None:
        self.origin.first("core", self.base)
        self.be(12, 0, self.approve(1))
        stacked = self.origin.commit({"a": "9"}, self.commits[0])
        self.be(13, stacked, replace(self.approve(2), commit=stacked))
        self.look()
        landed = self.landing(1, self.commits[0])
        self.origin.name("refs/heads/main", landed)
        self.origin.landing("core", 1, landed)
        self.gate.reports = ["1 1 1 landed 1", "2 2 1 failed -"]
        self.gate.land(1)
        self.gate.changes[2]["order"] = None
        self.gate.built = [{"build": 5, "job": "unit", "live": True, "outcome": "failure"}]
        self.gate.builds[5] = {"build": 5, "queue": "core", "change": 2, "revision": 1, "job": "unit", "after": 1,
                               "ahead": [], "live": True, "outcome": "failure"}
        self.tell()
        self.assertEqual(self.forge.statuses[stacked][1],
                         "Can't be merged: has commits of #12, which lands as one: rebase it. Mend it and push")
        said = ("It was begun from commits of #12, which lands as one: rebase it onto its branch without these, once"
                " that has landed.")
        comment = next(text for place, text in self.forge.comments.values() if place.number == 13)
        self.assertIn(f"\n\n{said}\n\n", comment)
        self.tell()
        shown = json.loads((self.page / "requests.json").read_text("ascii"))["requests"]
        self.assertIn(said, next(it for it in shown if it["number"] == 13)["advice"])


if __name__ == "__main__":
    unittest.main()
