"""The clients that people use, before a stand-in forge: each reads and writes all that the adapter does, and the
adapter sees what they did. So the stand-in speaks as the forges do, as far as these clients know it."""
from __future__ import annotations

import json
import os
import shutil
import subprocess
import tempfile
import unittest
from pathlib import Path
from typing import Any

from companions.tests.forges.case import LIB, ONE, TWO, Case
from companions.tests.forges.model import GATE
from companions.tests.standin import StandIn

# Debian's Python, for which it has the clients.
PYTHON = "/usr/bin/python3"
PROGRAMS = Path(__file__).with_name("clients")
PATIENCE = 120
TOKENS = {"gate": "a token", "ann": "ann's", "ben": "ben's", "cy": "cy's"}
SECRET = "the secret of these hooks"
STEPS = ("read", "vote", "comment", "status", "hook", "close", "refused")


class ClientCase(Case):
    """A forge with a request of ann and with six others, and a door at which hooks come in. cy may not write."""

    def setUp(self) -> None:
        super().setUp()
        self.forge.form.tokens |= {token: who for who, token in TOKENS.items() if who != "gate"}
        self.model.edit(self.place, text="Words")
        self.model.push(self.place, TWO)
        for _ in range(6):
            self.model.open(LIB, ONE, "main", "One more")
        self.door = self.enterContext(StandIn(lambda *_: (200, {})))
        self.folder = self.enterContext(tempfile.TemporaryDirectory())
        self.words = {"url": self.forge.url, "repository": LIB, "number": 1, "head": TWO, "tokens": TOKENS,
                      "door": f"{self.door.url}/hook", "secret": SECRET}

    def environment(self, **more: str) -> dict[str, str]:
        """Nothing of the machine's user, and no proxy."""
        return {"PATH": os.environ["PATH"], "HOME": self.folder, "LC_ALL": "C.UTF-8", **more}

    def printed(self, words: list[str], given: str | None = None, **more: str) -> str:
        ran = subprocess.run(words, input=given, capture_output=True, text=True, check=False, timeout=PATIENCE,
                             env=self.environment(**more))
        self.assertEqual(ran.returncode, 0, f"{words}: {ran.stderr[-2000:]}")
        return ran.stdout

    def play(self, program: str, package: str, *steps: str) -> dict[str, Any]:
        """What a program saw that did some steps."""
        module = program.removeprefix("by_").replace("pygithub", "github")
        if subprocess.run([PYTHON, "-c", f"import {module}"], capture_output=True, check=False).returncode != 0:
            self.fail(f"{PYTHON} has no module {module}: install Debian's package {package}")
        said = json.dumps({**self.words, "steps": steps})
        return json.loads(self.printed([PYTHON, str(PROGRAMS / f"{program}.py"), said]))

    def sent(self) -> None:
        """Hooks go to the door, signed as the adapter wants them: somebody has them sent there."""
        client, hooks = self.forge.client(), self.forge.hooks
        client.secret = SECRET
        hooks.waiting.clear()
        self.model.comment(self.place, "ben", "Well")
        self.assertEqual(client.place_of(hooks.waiting[0].headers, hooks.waiting[0].body), self.place)
        hooks.send_all()
        self.assertEqual([path for _, path, _ in self.door.asked], ["/hook"])


class PyGithubTest(ClientCase):
    def play_all(self, *steps: str) -> dict[str, Any]:
        return self.play("by_pygithub", "python3-github", *steps)

    def test_it_reads_and_writes_what_the_adapter_does(self) -> None:
        saw, so = self.play_all(*STEPS), self.asked()
        self.assertEqual(saw["request"], ["open", TWO, "main", "Add one", "Words", False, False])
        self.assertEqual(saw["open"], list(range(1, 8)))
        self.assertEqual(saw["accounts"], [GATE, self.client.account_of("ann")])
        self.assertEqual((saw["may write"], saw["by number"]), (["write", "read"], LIB))
        self.assertEqual(saw["events"], ["head_ref_force_pushed"])
        self.assertEqual(saw["own"], [422, ["Can not approve your own pull request"]])
        others = [["cy", "COMMENTED", TWO], ["cy", "CHANGES_REQUESTED", TWO]]
        self.assertEqual((saw["reviews"], saw["dismissed"]),
                         ([["ben", "APPROVED", TWO], *others], [["ben", "DISMISSED", TWO], *others]))
        self.assertEqual(saw["comments"],
                         [[GATE, "tests", True], ["ben", "/gate approve ", True], ["cy", "Nice", False]])
        self.assertEqual((saw["left"], saw["forbidden"]),
                         (["/gate approve ", "Nice"], [403, "Must have admin rights to Repository."]))
        self.assertEqual(saw["statuses"],
                         [["success", "Landed in core as 1", GATE], ["pending", "Waits for approval", GATE]])
        self.assertEqual((saw["hooks"], saw["closed"]), ([[self.words["door"], True]], "closed"))
        self.assertEqual(saw["refused"], [401, "Bad credentials"])
        self.assertEqual([(it.person, it.approves, it.commit, bool(it.flaw)) for it in so.votes],
                         [("ben", None, TWO, False), ("cy", False, TWO, False), ("ben", True, None, True)])
        self.sent()
        self.assertEqual(self.play_all("unhook")["unhooked"], 0)


class PythonGitLabTest(ClientCase):
    kind = "gitlab"

    def play_all(self, *steps: str) -> dict[str, Any]:
        return self.play("by_gitlab", "python3-gitlab", *steps)

    def test_it_reads_and_writes_what_the_adapter_does(self) -> None:
        saw, so = self.play_all(*STEPS), self.asked()
        self.assertEqual(saw["request"], ["opened", TWO, "main", "Add one", "Words", False])
        self.assertEqual((saw["open"], saw["heads"]), (list(range(1, 8)), [TWO, ONE]))
        self.assertEqual(saw["accounts"], [GATE, self.client.account_of("ann")])
        self.assertEqual((saw["may write"], saw["by number"]), ([[30], [10]], LIB))
        self.assertEqual((saw["twice"], saw["another"]), (401, 409))
        self.assertEqual((saw["approved"], saw["taken back"]), (["ben"], []))
        self.assertEqual(saw["comments"],
                         [[GATE, "tests", True], ["ben", "/gate approve", True], ["cy", "Nice", False]])
        self.assertEqual((saw["left"][-2:], saw["forbidden"]), (["/gate approve", "Nice"], 403))
        self.assertEqual((saw["again"][0], "Cannot transition status" in saw["again"][1]), (400, True))
        self.assertEqual(saw["statuses"], [["success", "Landed in core as 1", GATE], ["pending", "Waits", GATE]])
        self.assertEqual((saw["hooks"], saw["closed"]), ([[self.words["door"], True]], "closed"))
        self.assertEqual(saw["refused"], [401, "401 Unauthorized"])
        approving = [it for it in so.votes if it.approves]
        self.assertEqual([(it.person, it.commit, bool(it.flaw)) for it in approving],
                         [("ben", TWO, False), ("ben", TWO, False), ("ben", TWO, True)])
        self.sent()
        self.assertEqual(self.play_all("unhook")["unhooked"], 0)


class EachByGh:
    """`gh api`, which takes whole addresses and so needs no TLS. Its token is of the host that GH_HOST names."""
    approve, object_to, page = "APPROVE", "REQUEST_CHANGES", "per_page"
    dismiss, events, pushed = "PUT", "events", ["head_ref_force_pushed"]

    def gh(self, path: str, *words: str, who: str = "gate") -> Any:
        """What it prints of an answer; none where that is empty."""
        if shutil.which("gh") is None:
            self.fail("there is no gh: install Debian's package gh")
        url = path if path.startswith("http") else f"{self.forge.url}/repos/{LIB}/{path}"
        said = self.printed(["gh", "api", url, *words], GH_ENTERPRISE_TOKEN=TOKENS[who], GH_CONFIG_DIR=self.folder,
                            GH_HOST=self.forge.server.url.removeprefix("http://"), GH_NO_UPDATE_NOTIFIER="1",
                            GH_PROMPT_DISABLED="1")
        return json.loads(said) if said else None

    def test_it_reads_requests(self) -> None:
        it = self.gh("pulls/1")
        self.assertEqual((it["state"], it["head"]["sha"], it["base"]["ref"], it["title"], it["body"]),
                         ("open", TWO, "main", "Add one", "Words"))
        self.assertEqual(self.gh(f"pulls?state=open&{self.page}=50", "--jq", "map(.number) | sort"), list(range(1, 8)))
        self.assertEqual(self.gh(f"{self.forge.url}/user", "--jq", ".login | tojson"), GATE)
        self.assertEqual(self.gh(f"{self.forge.url}/users/ann", "--jq", ".id"), self.client.account_of("ann"))
        self.assertEqual([self.gh(f"collaborators/{it}/permission")["permission"] for it in ("ann", "cy")],
                         ["write", "read"])
        self.assertEqual(self.gh(f"issues/1/{self.events}", "--jq", "map(.event // .type)"), self.pushed)

    def test_it_votes(self) -> None:
        self.gh("pulls/1/reviews", "-f", f"event={self.approve}", who="ben")
        self.gh("pulls/1/reviews", "-f", f"event={self.object_to}", "-f", "body=No", who="cy")
        states = self.gh("pulls/1/reviews", "--jq", "map([.user.login, .commit_id])")
        self.assertEqual((states, self.votes()),
                         ([["ben", TWO], ["cy", TWO]], [("ben", True, TWO), ("cy", False, TWO)]))
        first = self.gh("pulls/1/reviews")[0]["id"]
        self.gh(f"pulls/1/reviews/{first}/dismissals", "-X", self.dismiss, "-f", "message=no")
        self.assertEqual(self.votes(), [("cy", False, TWO)])

    def test_it_writes_comments_and_statuses(self) -> None:
        own = self.gh("issues/1/comments", "-f", "body=waits")["id"]
        other = self.gh("issues/1/comments", "-f", "body=Well", who="ben")["id"]
        for number, text in ((own, "tests"), (other, "/gate approve")):
            self.gh(f"issues/comments/{number}", "-X", "PATCH", "-f", f"body={text}")
        self.assertEqual([self.gh(f"issues/comments/{it}", "--jq", ".user.id") for it in (own, other)],
                         [self.client.api.account(), self.client.account_of("ben")])
        self.assertEqual(self.gh("issues/1/comments", "--jq", "map([.user.login, .body, .updated_at > .created_at])"),
                         [[GATE, "tests", True], ["ben", "/gate approve", True]])
        self.assertEqual((self.votes(), len(self.flaws())), ([], 1))
        self.gh(f"issues/comments/{own}", "-X", "DELETE")
        self.assertEqual(len(self.gh("issues/1/comments")), 1)
        self.gh(f"statuses/{TWO}", "-f", "state=success", "-f", "context=gate", "-f", "description=Landed")
        self.assertEqual(self.gh(f"commits/{TWO}/statuses", "--jq", "map([.description, .creator.login])"),
                         [["Landed", GATE]])

    def test_it_hooks_and_closes(self) -> None:
        config = {"url": self.words["door"], "content_type": "json", "secret": SECRET}
        words = [it for name, value in config.items() for it in ("-f", f"config[{name}]={value}")]
        number = self.gh("hooks", "-f", "name=web", *words)["id"]
        self.assertEqual(self.gh("hooks", "--jq", "map(.config.url)"), [self.words["door"]])
        self.sent()
        self.gh(f"hooks/{number}", "-X", "DELETE")
        self.assertEqual(self.gh("hooks"), [])
        self.assertEqual(self.gh("pulls/1", "-X", "PATCH", "-f", "state=closed")["state"], "closed")
        self.assertEqual(self.asked().state.value, "closed")


class GhTest(EachByGh, ClientCase):
    def test_it_goes_from_page_to_page(self) -> None:
        found = self.printed(["gh", "api", "--paginate", f"{self.forge.url}/repos/{LIB}/pulls?per_page=2", "--jq",
                              ".[].number"], GH_ENTERPRISE_TOKEN="a token", GH_CONFIG_DIR=self.folder,
                             GH_HOST=self.forge.server.url.removeprefix("http://"))
        self.assertEqual(sorted(map(int, found.split())), list(range(1, 8)))


class GhAtGiteaTest(EachByGh, ClientCase):
    kind, approve, page, dismiss = "gitea", "APPROVED", "limit", "POST"
    events, pushed = "timeline", ["pull_push"]


if __name__ == "__main__":
    unittest.main()
