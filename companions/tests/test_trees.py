from __future__ import annotations

import tempfile
import unittest
from pathlib import Path
from unittest import mock

from companions import landings, repository, trees
from companions.conflicts import Conflict
from companions.landings import first_text, tag
from companions.merging import Merge
from companions.outbox import Notes
from companions.reader import SettingsFault
from companions.repository import GitFault, Repository
from companions.settings import Project, Settings
from companions.tests.forge import Origin, earlier_message
from companions.trees import Build, Made, Trees, UnknownChange, Unreadable, Unset

MARK = "GATED_WORKER=test"


def settings_of(folder: Path, projects: list[Project]) -> Settings:
    return Settings(url="http://localhost", accounts={}, folder=folder, projects={it.name: it for it in projects},
                    pause=0.01, look=0.01, grace=1.0, stands=1.0, author="gate <gate@localhost>")


def build(change: int, after: int, ahead: list[tuple[int, int]] | None = None, queue: str = "core") -> Build:
    return Build(7, queue, change, 1, "unit", after, ahead or [])


class Waited(Exception):
    """Something is waited for."""


def no_wait(what: str) -> None:
    raise Waited(what)


class TreesCase(unittest.TestCase):
    """Two projects of one queue, and one of another, with a first head each."""

    def setUp(self) -> None:
        temporary = tempfile.TemporaryDirectory()
        self.addCleanup(temporary.cleanup)
        self.folder = Path(temporary.name)
        self.origins = {it: Origin(self.folder / f"{it}.git") for it in ("lib", "app", "site")}
        self.heads = {name: it.commit({"name": name, "text": "0\n"}) for name, it in self.origins.items()}
        self.homes: dict[int, str | None] = {}
        for name, origin in self.origins.items():
            origin.name("refs/heads/main", self.heads[name])
            origin.first("web" if name == "site" else "core", self.heads[name])
        self.projects = [Project(it, "web" if it == "site" else "core", str(self.folder / f"{it}.git"), "main")
                         for it in ("lib", "app", "site")]
        self.trees = self.start()

    def start(self) -> Trees:
        """A worker's trees, as after a start."""
        folder = self.folder / "worker"
        notes = Notes(folder / "notes.db")
        self.addCleanup(notes.tables.close)
        return Trees(settings_of(self.folder, self.projects), folder, notes, MARK, lambda it: self.homes.get(it))

    def change(self, project: str, number: int, files: dict[str, str], onto: str | None = None) -> str:
        commit = self.origins[project].commit(files, onto or self.heads[project])
        self.origins[project].revision(number, 1, commit)
        self.homes[number] = project
        return commit

    def land(self, project: str, place: int, files: dict[str, str]) -> str:
        """A landing on the project's head, which is then its head."""
        self.heads[project] = self.origins[project].land("core", place, files)
        return self.heads[project]

    def make(self, what: Build) -> Made:
        self.trees.remove()
        return self.trees.make(what, "tree", no_wait, 0.0)

    def texts(self, made: Made, project: str) -> dict[str, str]:
        return {it.name: it.read_text() for it in (made.folder / project).iterdir() if it.name != ".git"}


class Making(TreesCase):
    def test_trees_are_those_of_all_projects_with_what_is_ahead(self) -> None:
        self.change("lib", 104, {"ahead": "1"})
        self.change("lib", 103, {"own": "1"})
        self.change("app", 102, {"other": "1"})
        made = self.make(build(103, 0, [(104, 1), (102, 1)]))
        self.assertEqual(made.project, "lib")
        self.assertEqual(self.texts(made, "lib"), {"name": "lib", "text": "0\n", "ahead": "1", "own": "1"})
        self.assertEqual(self.texts(made, "app"), {"name": "app", "text": "0\n", "other": "1"})
        self.assertEqual(set(made.trees), {"lib", "app"})

    def test_a_tree_is_that_of_the_same_merge_by_the_lander(self) -> None:
        own = self.change("lib", 103, {"own": "1"})
        self.land("lib", 1, {"landed": "1"})
        made = self.make(build(103, 1))
        landed = self.origins["lib"].git("merge-tree", "--write-tree", self.heads["lib"], own)
        self.assertEqual(made.trees, {"lib": landed, "app": self.origins["app"].tree(self.heads["app"])})
        lander = Repository(str(self.origins["lib"].folder), self.folder / "lander", "gate <gate@localhost>")
        lander.fetch("refs/heads/main", "refs/changes/103/1")
        what = Merge("core", 2, 103, 1, lander.parent(self.heads["lib"]), lander.parent(own), {},
                     "gate <gate@localhost>")
        self.assertEqual(made.commit, lander.merge(what))

    def test_a_commit_behind_a_change_of_another_project_is_another_one(self) -> None:
        """Else a success of `app` alone would stand for one behind a change of `lib`."""
        self.change("lib", 104, {"ahead": "1"})
        self.change("app", 103, {"own": "1"})
        alone = self.make(build(103, 1)) if self.land("lib", 1, {"text": "1\n"}) else None
        behind = self.make(build(103, 0, [(104, 1)]))
        assert alone is not None
        self.assertEqual(alone.trees["app"], behind.trees["app"])
        self.assertNotEqual(alone.commit, behind.commit)
        message = self.trees.repositories["app"].message(behind.commit)
        self.assertEqual(message.splitlines()[2:], [
            "Gate-Queue: core", "Gate-Place: 2", "Gate-Change: 103", "Gate-Revision: 1",
            f"Gate-With: lib {behind.commits['lib']}"])

    def test_each_project_begins_at_its_last_landing_up_to_after(self) -> None:
        self.change("lib", 103, {"own": "1"})
        self.land("lib", 1, {"text": "1\n"})
        self.land("app", 2, {"text": "2\n"})
        self.land("app", 3, {"text": "3\n"})
        self.land("lib", 4, {"text": "4\n"})
        for after, lib, app in ((0, "0\n", "0\n"), (1, "1\n", "0\n"), (3, "1\n", "3\n"), (4, "4\n", "3\n"),
                                (2, "1\n", "2\n")):
            with self.subTest(after):
                made = self.make(build(103, after))
                self.assertEqual((self.texts(made, "lib")["text"], self.texts(made, "app")["text"]), (lib, app))

    def test_a_conflict_is_told_with_whose_it_is(self) -> None:
        self.change("lib", 104, {"text": "104\n"})
        self.change("lib", 103, {"text": "103\n"})
        self.change("app", 102, {"own": "1"})
        for told, made in (("change 103, revision 1 (its own)", build(103, 0, [(104, 1)])),
                           ("change 103, revision 1 (ahead)", build(102, 0, [(104, 1), (103, 1)]))):
            with self.assertRaises(Conflict) as raised:
                self.make(made)
            self.assertEqual(str(raised.exception),
                             f"{told} can't be merged into lib: it conflicts with change 104 in text")

    def test_a_conflict_names_the_files_and_the_change_that_touched_them_last(self) -> None:
        files = [f"text {it}" for it in range(5)]
        self.change("lib", 103, {it: "103\n" for it in files})
        self.change("lib", 104, {files[4]: "104\n"})
        self.change("lib", 105, {"elsewhere": "105\n"})
        self.change("lib", 106, {"elsewhere": "106\n"})
        self.land("lib", 1, {it: "1\n" for it in files[:4]})
        cases: list[tuple[list[tuple[int, int]], int, str]] = [
            ([(104, 1), (105, 1)], 104, "text 0, text 1, text 2 and 2 more"),
            ([(105, 1)], 901, "text 0, text 1, text 2 and 1 more"), ([], 901, "text 0, text 1, text 2 and 1 more")]
        for ahead, other, named in cases:
            with self.subTest(ahead), self.assertRaises(Conflict) as raised:
                self.make(build(103, 1, ahead))
            self.assertEqual(str(raised.exception), f"change 103, revision 1 (its own) can't be merged into lib: it"
                                                    f" conflicts with change {other} in {named}")

    def test_a_change_without_a_common_past_is_a_conflict(self) -> None:
        self.origins["lib"].revision(103, 1, self.origins["lib"].commit({"own": "1"}))
        self.homes[103] = "lib"
        with self.assertRaisesRegex(Conflict, "into lib: it has no common past with the branch$"):
            self.make(build(103, 0))

    def test_what_conflicts_with_no_change_conflicts_with_the_branch(self) -> None:
        """As with what was there before the gate."""
        origin = self.origins["lib"]
        self.change("lib", 103, {"text": "103\n"})
        past = origin.commit({"text": "past\n"}, origin.git("rev-parse", "main"))
        origin.name("refs/heads/main", past)
        origin.first("core", past)
        with self.assertRaisesRegex(Conflict, "into lib: it conflicts with the branch in text$"):
            self.make(build(103, 0))

    def test_a_path_name_has_a_folder_of_its_own(self) -> None:
        self.projects = [Project("acme/lib", "core", str(self.folder / "lib.git"), "main"),
                         Project("acme", "web", str(self.folder / "site.git"), "main")]
        self.trees = self.start()
        self.change("lib", 103, {"own": "1"})
        self.change("site", 104, {"own": "2"})
        self.homes.update({103: "acme/lib", 104: "acme"})
        self.assertEqual(self.texts(self.make(build(103, 0)), "acme/lib")["own"], "1")
        self.assertEqual(self.texts(self.make(build(104, 0, queue="web")), "acme")["own"], "2")

    def test_a_tree_may_not_stand_in_another(self) -> None:
        self.projects = [Project("acme/lib", "core", "a", "main"), Project("acme", "core", "b", "main")]
        with self.assertRaisesRegex(SettingsFault, "acme/lib"):
            self.start()


class Waiting(TreesCase):
    def test_it_waits_for_all_notes_up_to_after(self) -> None:
        self.change("lib", 103, {"own": "1"})
        self.land("app", 1, {"text": "1\n"})
        waited: list[str] = []

        def wait(what: str) -> None:
            waited.append(what)
            self.assertLess(len(waited), 3)
            if len(waited) == 1:
                self.land("lib", 3, {"text": "3\n"})
            else:
                self.land("app", 2, {"text": "2\n"})

        made = self.trees.make(build(103, 3), "tree", wait, 0.0)
        self.assertEqual(waited, [
            "waits: no branch of the queue core has its landing 2, no branch of the queue core has its landing 3",
            "waits: no branch of the queue core has its landing 2"])
        self.assertEqual((self.texts(made, "lib")["text"], self.texts(made, "app")["text"]), ("3\n", "2\n"))

    def test_it_waits_for_a_projects_first_head(self) -> None:
        self.change("lib", 103, {"own": "1"})
        self.origins["app"].git("update-ref", "-d", "refs/landings/core/000000")
        said = "waits: the branch of app isn't at its first note, refs/landings/core/000000"
        with self.assertRaisesRegex(Waited, said):
            self.make(build(103, 0))
        self.origins["app"].first("core", self.origins["app"].commit({"of": "somebody"}))
        with self.assertRaisesRegex(Waited, said):
            self.make(build(103, 0))
        self.origins["app"].first("core", self.heads["app"])
        self.assertEqual(self.texts(self.make(build(103, 0)), "app")["name"], "app")

    def test_a_projects_first_landing_tells_what_it_was_before(self) -> None:
        """A build that was given out before it is looked at behind it, and whatever the first note is by then."""
        self.change("lib", 103, {"own": "1"})
        self.land("app", 1, {"text": "1\n"})
        self.origins["app"].git("update-ref", "-d", "refs/landings/core/000000")
        self.assertEqual(self.texts(self.make(build(103, 0)), "app")["text"], "0\n")

    def test_another_author_is_waited_for(self) -> None:
        self.change("lib", 103, {"own": "1"})
        for author, is_right in (("other <other@localhost>", False), ("gate <gate@localhost>", True)):
            content = tag(self.heads["lib"], "core/000000", "g <g@l>", 0, first_text(author, "2.39")).decode()
            note = self.origins["lib"].git("hash-object", "-t", "tag", "-w", "--stdin", given=content)
            self.origins["lib"].first("core", note)
            said = ("lander.author is gate <gate@localhost> here, and other <other@localhost> where the lander runs:"
                    " make them the same")
            self.assertEqual(self.trees.other_author(), None if is_right else said)
            if is_right:
                self.make(build(103, 0))
                with mock.patch.object(landings, "NOTE", 10):
                    self.assertIsNone(self.trees.other_author())
            else:
                with self.assertRaisesRegex(Waited, said):
                    self.make(build(103, 0))

    def test_a_change_is_unknown_after_a_while(self) -> None:
        for project, said in ((None, "the gate doesn't know change 103"), ("lib", "lib.git has no refs/changes/103/1")):
            self.homes[103] = project
            self.trees = self.start()
            with self.assertRaisesRegex(UnknownChange, said):
                self.trees.make(build(103, 0), "tree", no_wait, 0.0)
            with self.assertRaisesRegex(Waited, f"waits: .*{said}"):
                self.trees.make(build(103, 0), "tree", no_wait, 60.0)

    def test_a_project_that_the_settings_lack_is_told_at_once(self) -> None:
        self.homes[103] = "site"
        with self.assertRaisesRegex(Unset, "the gate has the change in project site: add its .* with the queue core"):
            self.trees.make(build(103, 0), "tree", no_wait, 60.0)

    def test_a_revision_is_of_the_project_that_the_gate_names(self) -> None:
        """The same name is pushed in another project, before the worker looks and behind it."""
        self.change("lib", 103, {"own": "1"})
        self.origins["app"].revision(103, 1, self.origins["app"].commit({"own": "2"}, self.heads["app"]))
        made = self.make(build(103, 0))
        self.assertEqual((made.project, self.texts(made, "lib")["own"]), ("lib", "1"))
        self.assertNotIn("own", self.texts(made, "app"))

    def test_a_revision_that_was_moved_is_fetched_anew(self) -> None:
        own = self.change("lib", 103, {"own": "1"})
        self.change("lib", 103, {"own": "of somebody"})
        self.assertEqual(self.texts(self.make(build(103, 0)), "lib")["own"], "of somebody")
        self.origins["lib"].revision(103, 1, own)
        self.assertEqual(self.texts(self.make(build(103, 0)), "lib")["own"], "1")

    def test_a_queue_without_a_project_is_told(self) -> None:
        with self.assertRaisesRegex(Unset, "no project of the queue docs is in companions.toml"):
            self.make(build(103, 0, queue="docs"))

    def test_a_repository_that_is_away_is_told_by_its_project(self) -> None:
        self.change("lib", 103, {"own": "1"})
        away = self.folder / "away.git"
        (self.folder / "lib.git").rename(away)
        with self.assertRaises(Unreadable) as raised:
            self.make(build(103, 0))
        self.assertEqual(raised.exception.project, "lib")
        away.rename(self.folder / "lib.git")
        self.assertEqual(self.make(build(103, 0)).project, "lib")


class Past(TreesCase):
    """What is asked for doesn't grow with what has landed."""

    def test_landings_are_listed_once(self) -> None:
        self.change("lib", 103, {"own": "1"})
        self.land("lib", 1, {"text": "1\n"})
        self.make(build(103, 1))
        with mock.patch.object(Repository, "listed", side_effect=AssertionError("lists")):
            self.land("app", 2, {"text": "2\n"})
            self.assertEqual(self.texts(self.make(build(103, 2)), "app")["text"], "2\n")
            self.trees = self.start()
            self.land("lib", 3, {"text": "3\n"})
            self.assertEqual(self.texts(self.make(build(103, 3)), "lib")["text"], "3\n")

    def test_only_revisions_are_asked_for_where_the_landings_are_here(self) -> None:
        self.change("lib", 103, {"own": "1"})
        self.change("lib", 104, {"another": "1"})
        self.make(build(103, 0, [(104, 1)]))
        self.origins["app"].folder.rename(self.origins["app"].folder.with_suffix(".away"))
        self.make(build(104, 0, [(103, 1)]))

    def test_many_unseen_landings_are_found(self) -> None:
        self.change("lib", 103, {"own": "1"})
        self.make(build(103, 0))
        for place in range(1, 8):
            self.land("app" if place % 2 else "lib", place, {"text": f"{place}\n"})
        for page in (2, 1000):
            with mock.patch.object(repository, "PAGE", page), mock.patch.object(landings, "PAGE", page):
                self.trees.notes.drop("past core")
                made = self.make(build(103, 7))
                self.assertEqual((self.texts(made, "lib")["text"], self.texts(made, "app")["text"]), ("6\n", "7\n"))

    def test_a_forged_note_is_none_of_the_lander(self) -> None:
        """A note in another name's tail, a note with trailers that no branch has, a first note that was moved up."""
        self.change("lib", 103, {"own": "1"})
        landed = self.land("lib", 1, {"text": "1\n"})
        origin = self.origins["lib"]
        forged = origin.commit({"text": "forged\n"}, landed)
        origin.name("refs/heads/refs/landings/core/000002", forged)
        origin.landing("core", 2, forged)
        origin.first("core", landed)
        self.assertEqual(self.texts(self.make(build(103, 1)), "lib")["text"], "1\n")
        with self.assertRaisesRegex(Waited, "no branch of the queue core has its landing 2"):
            self.make(build(103, 2))
        self.trees.notes.drop("past core")
        self.assertEqual(self.texts(self.make(build(103, 1)), "lib")["text"], "1\n")

    def test_landings_of_an_earlier_version_are_found_by_their_notes(self) -> None:
        self.change("lib", 103, {"own": "1"})
        first = "0b000000-0000-4000-8000-000000000001"
        self.origins["lib"].land("core", 1, {"text": "1\n"}, earlier_message(first, "core", 4, 101))
        self.origins["app"].land("core", 2, {"text": "2\n"}, earlier_message(first, "core", 5, 102))
        self.origins["lib"].land("core", 3, {"text": "3\n"})
        for after, lib, app in ((0, "0\n", "0\n"), (1, "1\n", "0\n"), (2, "1\n", "2\n"), (3, "3\n", "2\n")):
            made = self.make(build(103, after))
            self.assertEqual((self.texts(made, "lib")["text"], self.texts(made, "app")["text"]), (lib, app))

    def test_mirrors_keep_so_many_revisions(self) -> None:
        for number in (101, 102, 103):
            self.change("lib", number, {f"of-{number}": "1"})
        with mock.patch.object(trees, "KEPT", 2):
            for number in (101, 102, 103):
                self.make(build(number, 0))
        self.assertEqual(list(self.trees.repositories["lib"].names("refs/changes")), ["refs/changes/103/1"])
        self.make(build(101, 0, [(102, 1)]))

    def test_a_project_that_is_added_is_found(self) -> None:
        late = self.projects.pop(1)
        self.trees = self.start()
        self.change("lib", 103, {"own": "1"})
        self.land("lib", 1, {"text": "1\n"})
        self.assertEqual(set(self.make(build(103, 1)).trees), {"lib"})
        self.projects.append(late)
        self.trees = self.start()
        self.land("app", 2, {"text": "2\n"})
        made = self.make(build(103, 2))
        self.assertEqual((self.texts(made, "lib")["text"], self.texts(made, "app")["text"]), ("1\n", "2\n"))


class Leftovers(TreesCase):
    def test_a_start_removes_what_a_killed_worker_left(self) -> None:
        self.change("lib", 103, {"own": "1"})
        made = self.make(build(103, 0))
        mirror = self.trees.repositories["lib"].mirror
        locks = [mirror / it for it in ("packed-refs.lock", "refs/landings/core/000000.lock", "config.lock")]
        for lock in locks:
            lock.parent.mkdir(parents=True, exist_ok=True)
            lock.touch()
        with self.assertRaises(GitFault):
            self.trees.repositories["lib"].git("pack-refs", "--all")
        self.trees = self.start()
        self.trees.begin()
        self.assertFalse(made.folder.exists())
        self.assertEqual([it for it in locks if it.exists()], [])
        self.trees.repositories["lib"].git("pack-refs", "--all")
        self.assertEqual(self.make(build(103, 0)).project, "lib")

    def test_half_a_mirror_is_made_anew(self) -> None:
        self.change("lib", 103, {"own": "1"})
        mirror = self.trees.repositories["lib"].mirror
        new = mirror.with_name(f"{mirror.name}.new")
        new.mkdir(parents=True)
        (new / "HEAD").touch()
        self.assertEqual(self.make(build(103, 0)).project, "lib")


if __name__ == "__main__":
    unittest.main()
