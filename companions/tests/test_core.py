from __future__ import annotations

import contextlib
import io
import socket
import tempfile
import threading
import unittest
from pathlib import Path
from typing import Any
from unittest import mock

from companions import settings
from companions.gate import Answer, Gate, NoAnswer, Order, QueueStatus, Status
from companions.ids import id_of
from companions.outbox import Kept, Notes, Outbox
from companions.reader import SettingsFault
from companions.settings import Account
from companions.tests.standin import StandIn

WHOLE = """
folder = "/var/lib/companions"
[gate]
url = "https://gate.example/"
[gate.worker]
user = "w"
password = "secret"
[[project]]
name = "lib"
queue = "core"
repository = "/srv/git/lib.git"
[[project.job]]
name = "unit"
command = "sh unit.sh"
limit = 60
[[project]]
name = "app"
queue = "core"
repository = "/srv/git/app.git"
branch = "trunk"
[[project.job]]
name = "unit"
command = "sh unit.sh"
"""

ADAPTER = """
[adapter]
form = "github"
url = "https://api.github.com/"
web = "https://github.com"
token = "t"
secret = "s"
base = "https://gate.example/c/"
approvers = ["ada"]
"""


class Case(unittest.TestCase):
    def setUp(self) -> None:
        temporary = tempfile.TemporaryDirectory()
        self.addCleanup(temporary.cleanup)
        self.folder = Path(temporary.name)


class Settings(Case):
    def read(self, text: str) -> settings.Settings:
        file = self.folder / "companions.toml"
        file.write_text(text)
        return settings.read(file)

    def test_a_whole_file_is_read(self) -> None:
        known = self.read(WHOLE)
        self.assertEqual((known.url, known.pause, known.look, known.grace, known.stands, known.author),
                         ("https://gate.example", 1.0, 10.0, 300.0, 3600.0, "gate <gate@localhost>"))
        self.assertEqual((known.has_adapter, known.tries, known.blind), (True, 5, 900.0))
        self.assertEqual(known.figures, Path(known.folder) / "watch")
        self.assertEqual(self.read(WHOLE + '[watch]\nfigures = "/srv/figures"\n').figures, Path("/srv/figures"))
        self.assertEqual((known.account("worker"), known.account("forge")), (Account("w", "secret"), None))
        self.assertEqual({it.name: it.branch for it in known.projects_of("core")}, {"lib": "main", "app": "trunk"})
        self.assertEqual((known.limit_of("core", "unit"), known.limit_of("core", "docs")), (3600.0, None))

    def test_each_fault_is_told_with_its_member(self) -> None:
        for old, new, told in (
                ("https://gate", "gate", "gate.url: begins neither"),
                ("[gate.worker]", "[gate.workers]", "gate.workers: isn't known"),
                ('user = "w"\n', "", "gate.worker.user: is missing"),
                ('user = "w"\n', 'user = "w"\nname = "w"\n', "gate.worker.name: isn't known"),
                ('"secret"', '""', "gate.worker.password: is empty"),
                ("folder =", "folders =", "folder: is missing"),
                ('"/var/lib/companions"', "1", "folder: isn't a text"),
                ("folder =", "other = 1\nfolder =", "other: isn't known"),
                ("limit = 60", "limit = 0", r"project\[0\].job\[0\].limit: isn't above 0"),
                ("limit = 60", "limit = inf", r"project\[0\].job\[0\].limit: isn't above 0"),
                ("limit = 60", "limit = true", r"project\[0\].job\[0\].limit: isn't a number"),
                ("limit = 60", "limits = 60", r"project\[0\].job\[0\].limits: isn't known"),
                ('name = "app"', 'name = "lib"', r"project\[1\].name: lib stands twice"),
                ("app.git", "lib.git", r"project\[1\].repository: /srv/git/lib.git is another .* of the queue core"),
                ("/srv/git/app.git", "https://gate:a token@git.example/acme/app.git",
                 r"project\[1\].repository: has a password in it, which git prints and other programs see: use SSH with"
                 " a key, or leave the password to a credential helper of git"),
                *(("/srv/git/app.git", f"{it}@git.example/acme/app.git", "project.1..repository: has a password")
                  for it in ("HTTPS://:a", "https://ghp_abc", "https://github_pat_11AB", "https://glpat-x", "https://"
                             + 40 * "0")),
                ('queue = "core"\nrepository = "/srv/git/app.git"\nbranch = "trunk"',
                 'queue = "web"\nrepository = "/srv/git/lib.git"', r"project\[1\].branch: main of .* is another"),
                ('branch = "trunk"', 'branch = ""', r"project\[1\].branch: is empty"),
                ("limit = 60", '[[project.job]]\nname = "unit"\ncommand = "x"', r"project\[0\].job\[1\].name: unit"),
                ("[gate]", "[watch]\ngrace = -1\n[gate]", "watch.grace: isn't above 0"),
                ("[gate]", "[worker]\nlook = 'x'\n[gate]", "worker.look: isn't a number"),
                ("[gate]", "[lander]\nauthors = 'x'\n[gate]", "lander.authors: isn't known"),
                ("[gate]", "[lander]\nadapter = 1\n[gate]", "lander.adapter: isn't true or false"),
                ("[gate]", "[lander]\ntries = 0\n[gate]", "lander.tries: isn't above 0"),
                ("[gate]", '[lander]\nauthor = "gate"\n[gate]', "lander.author: isn't NAME <ADDRESS>"),
                ("[gate]", '[lander]\nauthor = "a\\nb <a@b>"\n[gate]', "lander.author: isn't NAME <ADDRESS>"),
                ("[gate]", '[lander]\nauthor = "a <a@b> "\n[gate]', "lander.author: isn't NAME <ADDRESS>"),
                ('queue = "core"', 'queue = "core"\nevidence = 1', r"project\[0\].evidence: isn't true or false"),
                ("[gate]", "[lander]\ntries = 1.5\n[gate]", "lander.tries: isn't a whole number"),
                ("[gate]", "project = 1\n[gate]", "no TOML"),
                ("[gate]", "[gate", "no TOML")):
            with self.subTest(told):
                self.assertIn(old, WHOLE)
                with self.assertRaisesRegex(SettingsFault, f"^{self.folder}/companions.toml: {told}"):
                    self.read(WHOLE.replace(old, new, 1))

    def test_an_adapter_is_set_up_by_a_table_of_its_own(self) -> None:
        self.assertIsNone(self.read(WHOLE).adapter)
        known = self.read(WHOLE + ADAPTER)
        self.assertEqual(known.adapter, settings.Adapter(
            "github", "https://api.github.com", "https://github.com", "t", "s", "https://gate.example/c/", "127.0.0.1",
            8090, frozenset({"ada"}), 300.0, 5.0, 60.0, None))
        self.assertEqual({it.name: it.forge for it in known.projects.values()}, {"lib": "lib", "app": "app"})
        for old, new, told in (
                ('"github"', '"svn"', "adapter.form: is none of gitea, github, gitlab"),
                ('"t"', '""', "adapter.token: is empty"),
                ('secret = "s"\n', "", "adapter.secret: is missing"),
                ("https://api", "api", "adapter.url: begins neither"),
                ('"https://github', '"github', "adapter.web: begins neither"),
                ('["ada"]', '"ada"', "adapter.approvers: isn't an array of texts"),
                ('["ada"]', '["ada", 1]', "adapter.approvers: isn't an array of texts"),
                ('["ada"]', '["ada"]\nlisten = "8090"', "adapter.listen: isn't a host and a port"),
                ('["ada"]', '["ada"]\nlisten = "localhost:99999"', "adapter.listen: isn't a host and a port"),
                ('["ada"]', '["ada"]\ncompare = 0', "adapter.compare: isn't above 0"),
                ('["ada"]', '["ada"]\nblind = 300', "adapter.blind: isn't above adapter.compare"),
                ('["ada"]', '["ada"]\nlogs = "https://logs"', "adapter.logs: has no {build}"),
                ('["ada"]', '["ada"]\npoll = 1', "adapter.poll: isn't known")):
            with self.subTest(told), self.assertRaisesRegex(SettingsFault, f"companions.toml: {told}"):
                self.read(WHOLE + ADAPTER.replace(old, new, 1))
        adapter = self.read(WHOLE + ADAPTER.replace("approvers", "# approvers")).adapter
        assert adapter is not None
        self.assertIsNone(adapter.approvers)
        self.assertEqual([self.read(WHOLE + ADAPTER + it).blind for it in ("", "blind = 400\n", "compare = 400\n")],
                         [900.0, 400.0, 1200.0])

    def test_a_branch_of_a_forge_s_repository_is_one_project_s(self) -> None:
        named = WHOLE.replace('name = "lib"', 'name = "lib"\nforge = "acme/lib"')
        self.assertEqual(self.read(named).projects["lib"].forge, "acme/lib")
        with self.assertRaisesRegex(SettingsFault, r"project\[1\].forge: main of acme/lib is another project's"):
            self.read(named.replace('branch = "trunk"', 'forge = "acme/lib"'))

    def test_a_file_without_projects_or_none_is_told(self) -> None:
        with self.assertRaisesRegex(SettingsFault, "project: is missing"):
            self.read(WHOLE[:WHOLE.index("[[project]]")])
        with self.assertRaisesRegex(SettingsFault, "none.toml: can't be read: No such file"):
            settings.read(self.folder / "none.toml")

    def test_two_branches_of_a_repository_may_be_projects_of_two_queues(self) -> None:
        known = self.read(WHOLE.replace('queue = "core"\nrepository = "/srv/git/app.git"',
                                        'queue = "old"\nrepository = "/srv/git/lib.git"'))
        self.assertEqual(known.projects["app"].repository, known.projects["lib"].repository)


class Asked(Case):
    """A gate behind a server that answers by turns."""

    def setUp(self) -> None:
        super().setUp()
        self.says: list[Any] = []
        self.standin = self.enterContext(StandIn(lambda *_: self.says.pop(0)))
        self.gate = Gate(self.standin.url + "/gate", Account("w", "p"), timeout=5.0)
        self.errors = self.enterContext(contextlib.redirect_stderr(io.StringIO()))

    def post(self, said: Any) -> Answer:
        self.says = [said]
        return self.gate.post("worker", {"id": "x", "kind": "take"})


class Answers(Asked):
    def test_replies_and_refusals_are_answers_whatever_their_status(self) -> None:
        self.assertEqual(self.post((200, {"reply": "noted"})).reply, "noted")
        self.assertEqual(self.post((404, {"code": "E12", "error": "idle"})).code, "E12")
        self.assertEqual(self.post((409, {"code": "E9", "error": "submitting"})).code, "E9")
        self.assertEqual(self.standin.asked[0], ("POST", "/gate/worker", b'{"id": "x", "kind": "take"}'))
        self.assertEqual(self.standin.heads[0]["Authorization"], "Basic dzpw")

    def test_what_a_proxy_says_is_no_answer(self) -> None:
        for status in (200, 301, 400, 401, 403, 404, 408, 413, 429, 499, 500, 502, 503, 504):
            for said in ("", "<html>log in</html>", {"error": "no-route"}, {"message": "no"}, {"code": status}, [],
                         "null", b"\xff", '{"reply":"not', {"reply": None}, {"reply": {"code": "E1"}}):
                with self.subTest(status=status, said=said), self.assertRaises(NoAnswer) as fault:
                    self.post((status, said))
                self.assertEqual(fault.exception.status, status)

    def test_a_gate_that_is_unavailable_has_not_answered(self) -> None:
        with self.assertRaises(NoAnswer):
            self.post((503, {"code": "E15", "error": "unavailable"}))

    def test_a_broken_or_refused_connection_is_no_answer(self) -> None:
        with self.assertRaises(NoAnswer):
            self.post(None)
        with socket.socket() as free:
            free.bind(("127.0.0.1", 0))
            away = Gate(f"http://127.0.0.1:{free.getsockname()[1]}", None)
            with self.assertRaises(NoAnswer):
                away.post("worker", {})

    def test_an_answer_that_is_cut_or_late_is_none(self) -> None:
        for content in (b"HTTP/1.1 200 OK\r\nContent-Length: 50\r\n\r\n{\"reply\":\"noted\"}", b""):
            with socket.socket() as server:
                server.bind(("127.0.0.1", 0))
                server.listen()

                def serve() -> None:
                    client, _ = server.accept()
                    with client:
                        client.recv(65536)
                        client.sendall(content)
                        if not content:
                            late.wait()

                late = threading.Event()
                thread = threading.Thread(target=serve)
                thread.start()
                with self.assertRaises(NoAnswer):
                    Gate(f"http://127.0.0.1:{server.getsockname()[1]}", None, timeout=0.2).post("worker", {})
                late.set()
                thread.join()

    def test_a_question_has_an_answer_only_of_the_gate(self) -> None:
        self.says = [(404, {"code": "E11", "error": "unknown-build"}), (200, {"build": 3})]
        self.assertEqual([self.gate.build(3), self.gate.build(3)], [None, {"build": 3}])
        for said in ((404, {"error": "no-route"}), (404, "gone"), (200, "<html>"), (401, "who"), (502, {"build": 3})):
            self.says = [said]
            with self.subTest(said), self.assertRaises(NoAnswer):
                self.gate.build(3)

    def test_a_text_without_its_end_is_none(self) -> None:
        for text in ("", "queue core window 2 landed 0\n", "end", "queue core window 2 landed 0\nend",
                     "queue\nend 1\nx", "queue\nending\n", "<html>\n"):
            self.says = [(200, text)]
            with self.subTest(text), self.assertRaises(NoAnswer):
                self.gate.lines("/status")
        self.says = [(200, "a\nend 1\n"), (200, "end\n"), (404, {"error": "no-delivery"})]
        self.assertEqual([self.gate.lines("/x") for _ in range(3)], [["a"], [], None])

    def test_a_page_of_another_form_is_none(self) -> None:
        for ask, said in ((self.gate.orders, {"queues": 1}), (self.gate.orders, [{"order": 1}]),
                          (self.gate.running, []), (self.gate.status, "some page\nend\n"),
                          (self.gate.status, "\nend\n"), (self.gate.first, "{}\nend 1\n"),
                          (self.gate.first, "x\nend 1\n")):
            self.says = [(200, said)]
            with self.subTest(said), self.assertRaises(NoAnswer):
                ask()


class Questions(Asked):
    def test_texts_are_read(self) -> None:
        self.says = [(200, "queue core window 2 landed 3\n     1       101    1      - ok      unit=running\n"
                           "queue web window 1 landed 0\nwaiting 301 2\nend\n")]
        items = [["1", "101", "1", "-", "ok", "unit=running"]]
        self.assertEqual(self.gate.status(), Status([QueueStatus("core", 2, 3, items), QueueStatus("web", 1, 0, [])],
                                                    [(301, 2)]))
        self.says = [(200, [{"change": 102, "order": 2, "project": "app", "queue": "core", "revision": 1}])]
        self.assertEqual(self.gate.orders(), [Order("core", 2, "app", 102, 1)])

    def test_the_first_delivery_names_a_file(self) -> None:
        self.says = [(200, '{"id":"0b000000000040008000000000000001","kind":"take"}\n{"id":"x"}\nend 2\n'),
                     (200, "end 0\n")]
        self.assertEqual(self.gate.first(), "0b000000-0000-4000-8000-000000000001")
        self.assertIsNone(self.gate.first())

    def test_a_delivery_is_known_or_not(self) -> None:
        self.says = [(200, "end 0\n"), (404, {"error": "no-delivery"})]
        self.assertEqual([self.gate.knows("x"), self.gate.knows("x")], [True, False])

    def test_asking_goes_on_until_there_is_an_answer(self) -> None:
        self.says = [(502, "bad"), (502, "bad"), (404, "gone"), (502, "bad"), (200, {"reply": "noted"})]
        answer = self.gate.until(lambda: self.gate.post("worker", {}), 0.01)
        self.assertEqual(answer.reply, "noted")
        self.assertEqual(self.errors.getvalue().splitlines(), [
            "gate: no answer of the gate: POST /worker: status 502, b'bad'",
            "gate: no answer of the gate: POST /worker: status 404, b'gone'. Is the address in companions.toml right?",
            "gate: the gate answers again"])

    def test_an_id_stands_for_all_that_it_is_made_of(self) -> None:
        first, other = "70000000-0000-4000-8000-000000000001", "70000000-0000-4000-8000-000000000002"
        ids = {id_of(first, "a", 1), id_of(first, "a", 2), id_of(first, "a1"), id_of(first, "a", 1, ""),
               id_of(other, "a", 1)}
        self.assertEqual((len(ids), id_of(first, "a", 1)), (5, id_of(first, "a", "1")))


class Box(Asked):
    def setUp(self) -> None:
        super().setUp()
        self.file = self.folder / "outbox.db"
        self.outbox = Outbox(self.file)
        self.told: list[tuple[str, str | None]] = []

    def keep(self, lane: str, delivery: str) -> None:
        self.outbox.keep(Kept(lane, delivery, "forge", {"kind": "closed", "of": delivery}))

    def send(self, *says: Any, pause: float = 0.0) -> bool:
        self.says = list(says)
        return self.outbox.send(
            self.gate, lambda kept, answer: self.told.append((kept.id, answer.reply or answer.code)), pause)

    def sent(self) -> list[str]:
        return [it["id"] for it in self.standin.deliveries()]

    def test_a_lane_keeps_its_order(self) -> None:
        for lane, delivery in (("1", "a"), ("1", "b"), ("2", "c")):
            self.keep(lane, delivery)
        self.assertTrue(self.send(*3 * [(200, {"reply": "recorded"})]))
        self.assertEqual(self.sent(), ["a", "c", "b"])
        self.assertEqual(self.standin.deliveries()[0], {"id": "a", "kind": "closed", "of": "a"})

    def test_a_change_whose_order_is_shown_holds_up_itself_alone(self) -> None:
        for lane, delivery in (("1", "a"), ("1", "b"), ("2", "c")):
            self.keep(lane, delivery)
        shown, recorded = (409, {"code": "E9", "error": "submitting"}), (200, {"reply": "recorded"})
        self.assertFalse(self.send(shown, recorded, pause=60.0))
        self.assertEqual((self.sent(), self.told), (["a", "c"], [("c", "recorded")]))
        self.outbox = Outbox(self.file)
        self.assertTrue(self.send((200, {"reply": "stale"}), recorded))
        self.assertEqual(self.told[1:], [("a", "stale"), ("b", "recorded")])

    def test_all_stay_without_an_answer(self) -> None:
        self.keep("1", "a")
        self.keep("2", "b")
        for said in ((502, "bad"), (401, "who"), (200, "<html>"), None, (503, {"code": "E15", "error": "unavailable"})):
            with self.assertRaises(NoAnswer):
                self.send(said)
        self.assertEqual(([it.id for it in self.outbox.firsts()], self.told), (["a", "b"], []))

    def test_other_refusals_are_final(self) -> None:
        self.keep("1", "a")
        self.assertTrue(self.send((404, {"code": "E5", "error": "unknown-change"})))
        self.assertEqual(self.told, [("a", "E5")])

    def test_what_is_kept_outlives_a_restart_and_is_kept_once(self) -> None:
        self.keep("1", "a")
        self.keep("1", "b")
        self.outbox = Outbox(self.file)
        self.keep("2", "a")
        self.assertFalse(self.outbox.is_empty())
        self.assertTrue(self.send(*2 * [(200, {"reply": "recorded"})]))
        self.assertEqual(self.sent(), ["a", "b"])

    def test_a_delivery_goes_once_its_answer_is_taken(self) -> None:
        self.keep("1", "a")
        self.says = [(200, {"reply": "recorded"})]
        with self.assertRaises(KeyboardInterrupt):
            self.outbox.send(self.gate, mock.Mock(side_effect=KeyboardInterrupt))
        self.assertFalse(Outbox(self.file).is_empty())

    def test_notes_outlive_a_restart(self) -> None:
        notes = Notes(self.file)
        for name, said in (("a/1", {"x": [1]}), ("a/2", None), ("b", 0), ("a/1", "new")):
            notes.put(name, said)
        notes.drop("a/2")
        notes = Notes(self.file)
        self.assertEqual([notes.get(it) for it in ("a/1", "a/2", "b")], ["new", None, 0])
        self.assertEqual(notes.names("a/"), ["a/1"])


if __name__ == "__main__":
    unittest.main()
