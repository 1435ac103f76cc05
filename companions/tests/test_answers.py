"""What the lander answers in its file, and what others read there."""
from __future__ import annotations

import json
import tempfile
import threading
import unittest
from pathlib import Path

from companions.answers import MOST, Answers, Refusal, Said, Wrong, file_in, read
from companions.moments import Moment


class Written(unittest.TestCase):
    def setUp(self) -> None:
        folder = tempfile.TemporaryDirectory()  # pylint: disable=consider-using-with
        self.addCleanup(folder.cleanup)
        self.folder = Path(folder.name)
        self.file, self.answers = file_in(self.folder), Answers(self.folder)

    def test_the_form(self) -> None:
        self.answers.stop("core", "the gate has another file")
        self.answers.stop("web", None)
        self.answers.is_wrong(7, 2, "lib")
        self.answers.refuse(8, 1, "it was withdrawn")
        self.assertEqual(json.loads(self.file.read_text("utf-8")), {
            "queues": {"core": {"stopped": "the gate has another file", "since": None},
                       "web": {"stopped": None, "since": None}},
            "wrong": [{"change": 7, "revision": 2, "project": "lib"}],
            "refused": [{"change": 8, "revision": 1, "why": "it was withdrawn"}]})

    def test_what_is_read(self) -> None:
        self.answers.stop("core", "because")
        self.answers.is_wrong(7, 2, "lib")
        self.answers.is_wrong(7, 2, "lib")
        self.answers.refuse(8, 1, "a")
        self.answers.refuse(9, 1, "b")
        self.answers.refuse(8, 1, "c")
        said = read(self.file)
        self.assertEqual(said, Said({"core": "because"}, (Wrong(7, 2, "lib"),),
                                    (Refusal(9, 1, "b"), Refusal(8, 1, "c"))))
        self.assertEqual([said.why_refused(8, 1), said.why_refused(9, 1), said.why_refused(8, 2)], ["c", "b", None])
        self.answers.is_right(7, 2)
        self.answers.stop("core", None)
        said = read(self.file)
        self.assertEqual((said.stopped, said.wrong), ({"core": None}, ()))

    def test_refs_of_projects_without_an_order_are_nobody_s_business(self) -> None:
        for change, project in ((7, "lib"), (8, "app"), (9, "site")):
            self.answers.is_wrong(change, 1, project)
        self.answers.is_over({"lib": 1, "app": 2})
        self.assertEqual(read(self.file).wrong, (Wrong(9, 1, "site"),))

    def test_a_lander_that_is_started_again_has_its_answers(self) -> None:
        self.answers.stop("core", "because")
        self.answers.refuse(8, 1, "a")
        again = Answers(self.folder)
        again.is_wrong(7, 2, "lib")
        self.assertEqual(read(self.file), Said({"core": "because"}, (Wrong(7, 2, "lib"),), (Refusal(8, 1, "a"),)))

    def test_a_comparison_is_waited_for(self) -> None:
        self.answers.stop("core", "waits", Moment("a boot", 12.5))
        self.assertEqual(read(self.file).since, {"core": Moment("a boot", 12.5)})
        Answers(self.folder).stop("web", None)
        self.assertEqual(read(self.file).since, {"core": Moment("a boot", 12.5)})
        self.answers.stop("core", None)
        self.assertEqual(read(self.file).since, {})

    def test_the_newest_stay(self) -> None:
        for change in range(1, MOST + 3):
            self.answers.refuse(change, 1, "a")
            self.answers.is_wrong(change, 1, "lib")
        said = read(self.file)
        for changes in ([it.change for it in said.refused], [it.change for it in said.wrong]):
            self.assertEqual(changes, list(range(3, MOST + 3)))

    def test_what_is_no_such_file_says_nothing(self) -> None:
        self.assertEqual(read(self.file), Said())
        self.file.parent.mkdir()
        for text in ("", "{", "[]", "{}", '{"queues":1,"wrong":[],"refused":[]}',
                     '{"queues":{},"wrong":[{"change":1}],"refused":[]}', '{"queues":{"a":1},"wrong":[],"refused":[]}'):
            self.file.write_text(text, "utf-8")
            self.assertEqual(read(self.file), Said(), text)

    def test_queues_answer_side_by_side_and_no_half_is_read(self) -> None:
        faults: list[str] = []

        def answer(queue: str) -> None:
            for at in range(40):
                self.answers.stop(queue, str(at))
                if not read(self.file).stopped:
                    faults.append(f"{queue} {at}")

        threads = [threading.Thread(target=answer, args=(it,)) for it in ("core", "web", "site")]
        for it in threads:
            it.start()
        for it in threads:
            it.join()
        self.assertEqual((faults, read(self.file).stopped), ([], {"core": "39", "web": "39", "site": "39"}))


if __name__ == "__main__":
    unittest.main()
