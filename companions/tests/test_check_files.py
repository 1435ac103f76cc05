"""What `companions.check` says of files, and of what they name: the gate, repositories and the forge."""
from __future__ import annotations

import asyncio
import contextlib
import io
import os
import pwd
import subprocess
import tempfile
import unittest
from pathlib import Path
from typing import Any
from unittest import mock

from companions import check, check_forge, check_gate, check_git
from companions.beats import Heard
from companions.check_files import Files, compare, read_files
from companions.check_forge import Unseen
from companions.hearing import Door, serve
from companions.tests.boxes import boxed
from companions.tests.forge import Origin
from companions.tests.standin import StandIn
from companions.tests.test_proxy import PASSWORDS, ProxyTest
from companions.tokens import HEADER

GATE = """[forge]
base = "https://forge/c/"
[[queue]]
name = "core"
window = 3
floor = 1
[[project]]
name = "lib"
queue = "core"
[[project.job]]
name = "unit"
[[project.job]]
name = "docs"
"""
MINE = """folder = "{folder}/{part}"
[gate]
url = "{url}"
{accounts}
[worker]
sandbox = {sandbox}
{adapter}
[[project]]
name = "lib"
queue = "core"
repository = "{repository}"
forge = "acme/lib"
[[project.job]]
name = "unit"
command = "true"
limit = 60
[[project.job]]
name = "docs"
command = "true"
limit = 60
"""
ADAPTER = """[adapter]
form = "{form}"
url = "{api}"
web = "https://git.example"
token = "a token"
secret = "a secret"
base = "https://forge/c/"
"""


class FilesCase(unittest.TestCase):
    """Three files that fit each other, over a repository that is there. `url` is the gate's, and `api` the forge's."""
    url, api, form, accounts = "http://127.0.0.1:9", "http://127.0.0.1:9/api/v1", "gitea", ""

    def write(self, folder: Path) -> None:
        self.place = folder
        self.origin = Origin(folder / "lib.git")
        self.origin.name("refs/heads/main", self.origin.commit({"text": "0\n"}))
        self.put("gate", GATE)
        self.put("companions", self.text("companions", ADAPTER.format(form=self.form, api=self.api)))
        self.put("worker", self.text("worker", ""))

    def setUp(self) -> None:
        room = tempfile.TemporaryDirectory()
        self.addCleanup(room.cleanup)
        self.write(Path(room.name).resolve())

    def text(self, part: str, adapter: str) -> str:
        return MINE.format(folder=self.place, part=part, url=self.url, accounts=self.accounts, adapter=adapter,
                           repository=self.origin.folder, sandbox=str(boxed()).lower())

    def put(self, name: str, text: str) -> None:
        (self.place / f"{name}.toml").write_text(text)

    def change(self, name: str, old: str, new: str) -> None:
        text = (self.place / f"{name}.toml").read_text()
        self.assertIn(old, text)
        self.put(name, text.replace(old, new, 1))

    def names(self) -> list[str]:
        return [str(self.place / f"{it}.toml") for it in ("gate", "companions", "worker")]

    def files(self) -> Files:
        found, faults = read_files(self.names())
        self.assertEqual(faults, [])
        return found

    def plain(self, found: list[str]) -> list[str]:
        return [it.replace(f"{self.place}/", "") for it in found]


class Compared(FilesCase):
    def compared(self) -> list[str]:
        return self.plain(list(compare(self.files())))

    def test_nothing(self) -> None:
        self.assertEqual(self.compared(), [])

    def test_each_difference(self) -> None:
        for name, old, new, said in (
                ("companions", "https://forge/c/", "https://forge/d/", [
                    "companions.toml: adapter.base is https://forge/d/, and forge.base of gate.toml is"
                    " https://forge/c/: make them the same"]),
                ("worker", 'queue = "core"', 'queue = "kernel"', [
                    "worker.toml: project lib has the queue kernel, and in gate.toml core: write core, since the gate's"
                    " never changes"]),
                ("gate", 'name = "lib"', 'name = "libs"', [
                    "companions.toml has no project libs: add its [[project]] with the queue core",
                    "gate.toml has no project lib, which companions.toml has: add it there, or correct the name here",
                    "worker.toml has no project libs: add its [[project]] with the queue core",
                    "gate.toml has no project lib, which worker.toml has: add it there, or correct the name here"]),
                ("worker", 'name = "docs"', 'name = "doc"', [
                    "worker.toml: project lib has no job docs, so no worker runs it: add its [[project.job]]",
                    "gate.toml: project lib has no job doc, which worker.toml has, so it is never built: add it there,"
                    " or take it away here"]),
                ("companions", 'name = "docs"', 'name = "doc"', [
                    "companions.toml: project lib has no job docs, so the watch doesn't time its builds: add its"
                    " [[project.job]]",
                    "gate.toml: project lib has no job doc, which companions.toml has, so it is never built: add it"
                    " there, or take it away here"]),
                ("worker", 'forge = "acme/lib"', 'branch = "trunk"', [
                    "worker.toml: project lib has the branch trunk, and in companions.toml main: make them the same"]),
                ("worker", "[worker]", '[lander]\nauthor = "g <g@l>"\n[worker]', [
                    "worker.toml: lander.author is g <g@l>, and in companions.toml gate <gate@localhost>: make them the"
                    " same, or the workers take nothing"]),
                ("worker", "limit = 60", "limit = 361", [
                    "worker.toml: job unit of project lib may take 361 seconds, and by companions.toml the watch"
                    " reports it lost after 360: make the limits the same"])):
            with self.subTest(said[0]):
                before = (self.place / f"{name}.toml").read_text()
                self.change(name, old, new)
                self.assertEqual(self.compared(), said)
                self.put(name, before)

    def test_files_that_cannot_be_read(self) -> None:
        self.put("gate", "[forge]\nbase = 1\n")
        self.change("companions", "limit = 60", 'limit = "60"')
        (self.place / "worker.toml").unlink()
        found, faults = read_files(self.names())
        self.assertEqual((found.gate, found.companions, found.workers), (None, None, ()))
        self.assertRegex(self.plain(faults)[0], r"^gate\.toml: ")
        self.assertEqual(self.plain(faults)[1:], [
            "companions.toml: project[0].job[0].limit: isn't a number",
            f"worker.toml: can't be read: [Errno 2] No such file or directory: '{self.place}/worker.toml'"
            .replace(f"{self.place}/", "")])


class OfGit(FilesCase):
    def found(self, own: str | None = None, workers: str | None = None) -> list[str]:
        return self.plain(list(check_git.look(self.files(), own, workers)))

    def test_a_repository_that_is_well_stays_as_it_is(self) -> None:
        before = self.origin.git("for-each-ref")
        self.assertEqual((self.found(), self.origin.git("for-each-ref")), ([], before))

    def test_a_branch_and_a_repository_that_are_not_there(self) -> None:
        self.change("companions", 'forge = "acme/lib"', 'branch = "trunk"')
        self.change("worker", "lib.git", "gone.git")
        found = self.found()
        self.assertEqual(found[0], "companions.toml: project lib: lib.git has no branch trunk: make it, or correct"
                                   " project.branch")
        self.assertRegex(found[1], r"^worker\.toml: project lib: gone\.git can't be read: fatal: ")
        self.assertEqual(len(found), 2)

    def test_a_push_over_a_transport(self) -> None:
        """git asks for the right, and nothing is pushed. A server may refuse the whole service."""
        before = self.origin.git("for-each-ref")
        self.change("companions", f'repository = "{self.place}', f'repository = "file://{self.place}')
        self.assertEqual((self.found(), self.origin.git("for-each-ref")), ([], before))
        ssh = self.place / "ssh"
        ssh.write_text('#!/bin/sh\nshift $(($# - 1))\ncase $1 in git-receive-pack*)\n'
                       'echo "you may not write" >&2; exit 1;; esac\nexec sh -c "$1"\n')
        ssh.chmod(0o755)
        self.change("companions", f'repository = "file://{self.place}', f'repository = "ssh://forge{self.place}')
        with mock.patch.dict(os.environ, {"GIT_SSH_COMMAND": str(ssh), "GIT_SSH_VARIANT": "ssh"}):
            [said] = self.found()
        self.assertRegex(said, r"^companions\.toml: project lib: ssh://forge\S*lib\.git can't be pushed to: you may not"
                               r" write .*: give the gate's account the right to write$")

    @unittest.skipUnless(os.geteuid() == 0, "needs root, for another user")
    def test_rights(self) -> None:
        """Who lands has to write, and who runs jobs mustn't."""
        self.place.chmod(0o755)
        subprocess.run(["chmod", "-R", "o+rX,o-w", self.origin.folder], check=True)
        trusts = self.place / "gitconfig"
        trusts.write_text("[safe]\n\tdirectory = *\n")
        self.enterContext(mock.patch.dict(os.environ, {"GIT_CONFIG_GLOBAL": str(trusts)}))
        self.assertEqual(self.found("root", "nobody"), [])
        self.assertEqual(self.found("nobody", "root"), [
            "companions.toml: project lib: lib.git can't be pushed to by the user nobody: lib.git can't be written:"
            " give the gate's account the right to write",
            "worker.toml: project lib: lib.git can be pushed to by the user root, which runs jobs: give it a key that"
            " only reads"])
        self.assertIsNone(check_git.user_of("no-such-user"))
        self.assertEqual(check_git.user_of("nobody"), pwd.getpwnam("nobody").pw_name)


class OfTheGate(ProxyTest, FilesCase):
    """Through the real proxy, before a stand-in of a gate that answers as one."""

    def setUp(self) -> None:
        self.door = Door(("127.0.0.1", 0), Heard(60.0, lambda: 0.0))
        self.addCleanup(serve(self.door))
        self.beats = self.door.server_port
        ProxyTest.setUp(self)
        self.url = f"https://127.0.0.1:{self.port}"
        self.enterContext(mock.patch.dict(os.environ, {"SSL_CERT_FILE": str(self.folder / "proxy" / "gate.crt")}))
        users = {"forge": "forge", "people": "watch", "standby": "watch", "worker": "watch"}
        self.accounts = "".join(f'{role} = {{ user = "{user}", password = "{PASSWORDS[user]}" }}\n'
                                for role, user in users.items())
        self.write(self.folder)
        self.change("worker", f'worker = {{ user = "watch", password = "{PASSWORDS["watch"]}"',
                    f'worker = {{ user = "worker", password = "{PASSWORDS["worker"]}"')

    async def found(self) -> list[str]:
        found = await asyncio.to_thread(lambda: list(check_gate.look(self.files())))
        return self.plain([it.replace(self.url, "URL") for it in found])

    async def test_accounts(self) -> None:
        self.assertEqual(await self.found(), ["the gate that runs has no queue core: restart it with these settings"])
        self.change("companions", PASSWORDS["forge"], "wrong")
        self.change("companions", 'people = { user = "watch"', 'people = { user = "worker"')
        self.change("companions", f'password = "{PASSWORDS["watch"]}"', f'password = "{PASSWORDS["worker"]}"')
        self.assertEqual(await self.found(), [
            "companions.toml: the proxy doesn't know the account gate.forge (forge): its password isn't the one in"
            " /etc/nginx/gate.passwords",
            "companions.toml: the proxy doesn't let gate.people (worker) ask for /status, as the watch do: give it an"
            " account that may"])

    async def test_a_watch_that_is_not_there(self) -> None:
        self.door.shutdown()
        self.door.server_close()
        said = ": the proxy reaches no watch at /beat: start it, or correct watch.listen or gate.conf"
        self.assertEqual((await self.found())[:2], [f"companions.toml{said}", f"worker.toml{said}"])

    async def test_no_gate(self) -> None:
        for name in ("companions", "worker"):
            self.change(name, self.url, "http://127.0.0.1:9")
        said = "no gate answers at gate.url, http://127.0.0.1:9: GET "
        self.assertEqual(await self.found(), [
            f"companions.toml: {said}/orders: [Errno 111] Connection refused",
            f"worker.toml: {said}/builds/1: [Errno 111] Connection refused"])


HOOK: dict[str, Any] = {"config": {"url": "https://gate.example/hook"}, "active": True}
# What forges show where all is well, by their documentation, below the path of the repository.
SHOWN: dict[str, dict[str, Any]] = {
    "gitea": {"": {"permissions": {"push": True, "admin": True}}, "/branches/main": {"protected": True},
              "/hooks": [HOOK]},
    "github": {"": {"permissions": {"push": True, "admin": False}}, "/branches/main": {"protected": True},
               "/hooks": [HOOK]},
    "gitlab": {"": {"permissions": {"project_access": {"access_level": 40}, "group_access": None}},
               "/repository/branches/main": {"protected": True, "developers_can_push": False,
                                             "developers_can_merge": False},
               "/hooks": [{"url": "https://gate.example/hook"}]}}
IS_PROTECTED = "project lib: main is protected; that only the gate's account may push isn't shown"
NO_END = "adapter.token: the forge doesn't say when it ends"


class OfTheForge(FilesCase):
    head: dict[str, str] = {}

    def found(self, form: str, user: tuple[int, Any] = (200, {"id": 7}), now: float = 0.0, **other: Any) -> list[str]:
        """What is said of a forge that shows this; `other` are answers by the last word of their path."""
        shown, own = {**SHOWN[form]}, "/projects/acme%2Flib" if form == "gitlab" else "/repos/acme/lib"
        for name, said in other.items():
            [path] = [it for it in shown if it.rpartition("/")[2] == name or name == "repository" and not it]
            shown[path] = said
        more = {f"/api{own}{it}": said for it, said in shown.items()}
        more |= {"/api/personal_access_tokens/self": {"expires_at": "1970-02-01"}}

        def answers(method: str, path: str, body: bytes) -> tuple[int, Any]:
            self.assertEqual((method, body), ("GET", b""))
            if path == "/api/user":
                return user
            return (200, more[path]) if more.get(path) is not None else (404, {"message": "Not Found"})

        with StandIn(answers) as standin:
            standin.more = self.head
            self.put("companions", self.text("companions", ADAPTER.format(form=form, api=f"{standin.url}/api")))
            found = [it.replace(standin.url, "URL") if not isinstance(it, Unseen) else f"({it})"
                     for it in check_forge.look(self.files().companions, now)]
        return [it.replace(f"{self.place}/companions.toml: ", "") for it in found]

    def test_where_all_is_well(self) -> None:
        ends_of: dict[str, list[str]] = {"gitea": [f"({NO_END})"], "github": [f"({NO_END})"], "gitlab": []}
        for form, ends in ends_of.items():
            self.assertEqual(self.found(form), [*ends, f"({IS_PROTECTED})"], form)

    def test_tokens(self) -> None:
        for form in SHOWN:
            self.assertEqual(self.found(form, (401, {})), [
                "adapter.token: the forge refuses it (status 401): make a new one"])
            self.assertEqual(self.found(form, (404, {})), [
                f"adapter.url: URL/api isn't the API of {form}: /user has status 404"])
        for form, ends in (("gitlab", ""), ("github", "1970-02-01 00:00:00 UTC")):
            self.head = {HEADER: ends}
            self.assertEqual(self.found(form, now=18 * 86400.0)[0], "adapter.token ends on 1970-02-01: make a new one")
            self.assertEqual(self.found(form, now=16 * 86400.0), [f"({IS_PROTECTED})"])

    def test_rights(self) -> None:
        may_not = {"permissions": {"push": False}}
        for form in ("gitea", "github"):
            self.assertEqual(self.found(form, repository=may_not)[1],
                             "project lib: the gate's account may not write: give it the role Write")
            self.assertRegex(self.found(form, repository=None)[1], r"no repository acme/lib \(status 404\): correct")
        self.assertEqual(self.found("gitlab", repository={"permissions": {"project_access": {"access_level": 30}}})[0],
                         "project lib: the gate's account isn't a maintainer: give it this role")
        self.assertEqual(self.found("gitea", repository={"permissions": {"push": True, "admin": False}})[1],
                         "project lib: without adapter.approvers the account has to be an administrator at Gitea: make"
                         " it one, or name the approvers")

    def test_branches_and_hooks(self) -> None:
        for form in SHOWN:
            self.assertIn("project lib: the branch main isn't protected: let only the gate's account push to it",
                          self.found(form, main={"protected": False}))
            self.assertIn("project lib: the forge shows no branch main (status 404)", self.found(form, main=None))
            self.assertIn("project lib: no webhook has an address that ends with /hook: add it, or news takes 300"
                          " seconds", self.found(form, hooks=[]))
            self.assertIn("(project lib: the account may not see the webhooks (status 404))",
                          self.found(form, hooks=None))
        self.assertIn("project lib: developers may push or merge to main: let only the gate's account do so",
                      self.found("gitlab", main={"protected": True, "developers_can_merge": True}))
        for form, it in (("gitea", {**HOOK, "active": False}), ("gitlab", {**HOOK["config"], "disabled_until": "x"})):
            self.assertIn("project lib: the webhook to https://gate.example/hook is switched off: switch it on",
                          self.found(form, hooks=[it]))
            self.assertNotIn("switched off", "".join(self.found(form, hooks=[it, HOOK])))

    def test_answers_that_are_wrong(self) -> None:
        for said in ("<html>", "[" * 100, "[]", '"x"', b"\xff"):
            self.assertEqual(len(self.found("gitea", (200, said))), 1)
            self.assertGreater(len(self.found("gitea", repository=said)), 1)


class Command(FilesCase):
    def main(self, *words: str) -> tuple[int, str, str]:
        with contextlib.redirect_stdout(io.StringIO()) as out, contextlib.redirect_stderr(io.StringIO()) as err:
            status = check.main(list(words))
        return status, out.getvalue(), err.getvalue()

    def test_help_and_a_wrong_call(self) -> None:
        status, said, _ = self.main("--help")
        self.assertEqual(status, 0)
        self.assertIn("python3 -m companions.check [gate.toml] companions.toml [worker.toml..]", said)
        self.assertEqual(self.main("--wrong")[::2], (2, "usage: python3 -m companions.check [gate.toml] companions.toml"
                                                     " [worker.toml..]\n"))

    def test_all_of_it(self) -> None:
        """A job that one of the files lacks, beside a gate and a forge that aren't there."""
        self.change("worker", 'name = "docs"', 'name = "doc"')
        with mock.patch.object(check, "UNIT_FOLDERS", ()):
            status, said, _ = self.main(*self.names())
        self.assertEqual((status, said.replace(f"{self.place}/", "")), (1, (
            "check: worker.toml: project lib has no job docs, so no worker runs it: add its [[project.job]]\n"
            "check: gate.toml: project lib has no job doc, which worker.toml has, so it is never built: add it there,"
            " or take it away here\n"
            "check: companions.toml: no gate answers at gate.url, http://127.0.0.1:9: GET /orders: [Errno 111]"
            " Connection refused\n"
            "check: worker.toml: no gate answers at gate.url, http://127.0.0.1:9: GET /builds/1: [Errno 111]"
            " Connection refused\n"
            "check: companions.toml: adapter.url: http://127.0.0.1:9/api/v1 doesn't answer: [Errno 111] Connection"
            " refused\n"
            "check: the files and what they name lack 5 things\n")))

    def test_a_machine_that_can_begin_no_sandbox_and_lacks_units(self) -> None:
        folder = self.place / "units"
        folder.mkdir()
        (folder / "gated.service").touch()
        self.change("worker", f"sandbox = {str(boxed()).lower()}", "sandbox = true")
        with (mock.patch.object(check, "UNIT_FOLDERS", (str(folder),)),
              mock.patch("companions.sandbox.refused", lambda: "bubblewrap is missing")):
            said = self.main(*self.names())[1]
        for it in ("workers: bubblewrap is missing", "the unit gated-lander.service isn't there: run install",
                   "gated.service doesn't start with the machine: systemctl enable --now gated"):
            self.assertIn(f"\ncheck: {it}\n", said)


if __name__ == "__main__":
    unittest.main()
