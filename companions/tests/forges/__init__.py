"""A stand-in forge for tests: a model in memory, which speaks the API of each form and sends its hooks.

    with StandInForge("gitlab", "http://127.0.0.1:8090/") as forge:
        forge.model.add("acme/lib", "ann")
        place = forge.model.open("acme/lib", HEAD, "main", "Add one")
        forge.hooks.double()
        forge.hooks.send_all()

What is so of git is its user's: whoever calls `open` or `push` pushes the commit first, to the request's head in the
repository (`forge.client().head_ref`).
"""
from __future__ import annotations

from companions.forges import Forge
from companions.forms import CLIENTS
from companions.tests.forges.gitea import GiteaForm
from companions.tests.forges.github import GitHubForm
from companions.tests.forges.gitlab import GitLabForm
from companions.tests.forges.hooks import Hooks
from companions.tests.forges.model import Model, Webhook
from companions.tests.forges.server import Server

FORMS = {"github": GitHubForm, "gitea": GiteaForm, "gitlab": GitLabForm}


class StandInForge:
    """A forge of a form. `model` is what is so in it, `server` who answers, and `hooks` what it tells unasked. The
    token is that of the adapter's account; `form.tokens` may have those of others."""

    def __init__(self, kind: str, hooks: str = "", token: str = "a token", secret: str = "a secret") -> None:
        self.kind, self.token, self.secret = kind, token, secret
        self.model, self.hooks = Model(), Hooks(hooks)
        self.form = FORMS[kind](self.model, token, secret)
        self.server = Server(self.form)
        self.url = self.form.api = self.server.url + self.form.prefix
        self.form.when_hooked = self.hook_to
        self.model.listeners.append(lambda *told: self.hooks.add(self.form.hook(*told)))

    def __enter__(self) -> StandInForge:
        self.server.start()
        return self

    def __exit__(self, *_: object) -> None:
        self.hooks.stop()
        self.server.stop()

    def hook_to(self, webhook: Webhook) -> None:
        """Hooks go where somebody has them sent, signed by his secret."""
        self.hooks.url, self.form.secret = webhook.url, webhook.secret

    def client(self, token: str | None = None, timeout: float = 30.0) -> Forge:
        """The adapter's client of this form, at this forge."""
        return CLIENTS[self.kind](self.url, self.token if token is None else token, self.secret, timeout)
