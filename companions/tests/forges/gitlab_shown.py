"""How GitLab shows what is in a stand-in forge: its objects and its hooks, as recorded answers have them."""
from __future__ import annotations

import json
from datetime import datetime
from typing import Any

from companions.forges import Place
from companions.tests.forges.form import Form
from companions.tests.forges.hooks import Hook
from companions.tests.forges.model import Entry, Pull, Status, Webhook

STATES = {"open": "opened", "closed": "closed", "merged": "merged"}
ACTIONS = {"opened": "open", "pushed": "update", "edited": "update", "drafted": "update", "readied": "update",
           "closed": "close", "reopened": "reopen", "merged": "merge", "approved": "approved",
           "dismissed": "unapproved"}
# Notes that GitLab writes itself.
SYSTEM = {"approved": "approved this merge request", "dismissed": "unapproved this merge request",
          "pushed": "added 1 commit"}
# Who wrote what a person wrote whose account was deleted.
GHOST = "ghost"


class GitLabShown(Form):
    """The objects of GitLab's API."""

    def time(self, at: datetime) -> str:
        return at.strftime("%Y-%m-%dT%H:%M:%S.") + f"{at.microsecond // 1000:03d}Z"

    def user(self, person: str) -> dict[str, Any]:
        name = person or GHOST
        return {"id": self.model.account(name), "username": name, "name": name.title(), "state": "active",
                "locked": False, "avatar_url": None, "web_url": f"{self.web}/{name}"}

    def address(self, place: Place) -> str:
        return f"{self.web}/{place.repository}/-/merge_requests/{place.number}"

    def project(self, repository: str) -> dict[str, Any]:
        url = f"{self.api}/projects/{self.model.repositories[repository]}"
        return {"id": self.model.repositories[repository], "path_with_namespace": repository,
                "path": repository.rpartition("/")[2], "name": repository.rpartition("/")[2],
                "web_url": f"{self.web}/{repository}", "default_branch": "main", "visibility": "public",
                "_links": {"self": url, "merge_requests": f"{url}/merge_requests", "members": f"{url}/members"}}

    def request(self, it: Pull) -> dict[str, Any]:
        """A merge request. Of its head nothing is said before it was looked at."""
        project = self.model.repositories[it.place.repository]
        head = it.head if it.is_prepared else None
        return {"id": it.id, "iid": it.place.number, "project_id": project, "title": it.title,
                "description": it.text or None, "state": STATES[it.state], "created_at": self.time(it.at),
                "updated_at": self.time(it.changed), "target_branch": it.target, "source_branch": "topic",
                "author": self.user(it.author), "draft": it.is_draft, "work_in_progress": it.is_draft, "sha": head,
                "source_project_id": project + 900 if it.is_fork else project, "target_project_id": project,
                "prepared_at": self.time(it.at) if it.is_prepared else None,
                "merge_status": "can_be_merged" if it.is_prepared else "preparing", "merge_commit_sha": None,
                "user_notes_count": len(it.of("commented")), "web_url": self.address(it.place),
                "references": {"short": f"!{it.place.number}", "full": f"{it.place.repository}!{it.place.number}"}}

    def approving(self, it: Pull, who: str) -> dict[str, Any]:
        approving = it.approving()
        return {"id": it.id, "iid": it.place.number, "project_id": self.model.repositories[it.place.repository],
                "title": it.title, "state": STATES[it.state], "approved": bool(approving), "approvals_required": 0,
                "approvals_left": 0, "user_has_approved": who in approving, "user_can_approve": who not in approving,
                "approved_by": [{"user": self.user(person)} for person in approving]}

    def note(self, it: Entry) -> dict[str, Any]:
        return {"id": it.note, "body": SYSTEM.get(it.kind, it.text), "system": it.kind in (*SYSTEM, "retargeted"),
                "author": self.user(it.person), "created_at": self.time(it.at), "type": None, "resolvable": False,
                "updated_at": self.time(it.edited or it.at), "noteable_type": "MergeRequest"}

    def status(self, it: Status) -> dict[str, Any]:
        state = {"failure": "failed"}.get(it.state, it.state)
        return {"id": it.number, "sha": it.commit, "ref": "topic", "status": state, "name": it.context,
                "target_url": it.link,
                "description": it.text, "author": self.user(it.by), "created_at": self.time(it.at),
                "started_at": None, "finished_at": None if state == "pending" else self.time(it.at)}

    def webhook(self, it: Webhook) -> dict[str, Any]:
        """A webhook, whose secret nobody reads."""
        return {"id": it.id, "url": it.url, "project_id": self.model.repositories[it.repository],
                "merge_requests_events": True, "note_events": True, "push_events": False,
                "created_at": self.time(self.model.now)}

    def hook(self, what: str, pull: Pull, entry: Entry | None) -> Hook | None:
        said: dict[str, Any] = {"user": self.user(pull.author), "project": self.project(pull.place.repository)}
        attributes: dict[str, Any] = {**self.request(pull), "last_commit": {"id": pull.head}}
        if what in ("commented", "comment edited") and entry:
            action = "create" if what == "commented" else "update"
            note = {"id": entry.note, "note": entry.text, "noteable_type": "MergeRequest", "action": action,
                    "author_id": self.model.account(entry.person)}
            return self.signed(what, "Note Hook", pull, {**said, "object_kind": "note", "object_attributes": note,
                                                         "merge_request": attributes})
        if what not in ACTIONS or what == "dismissed" and entry and entry.kind == "rejected":
            return None
        said |= {"object_kind": "merge_request", "object_attributes": {**attributes, "action": ACTIONS[what]}}
        return self.signed(what, "Merge Request Hook", pull, said)

    def signed(self, what: str, event: str, pull: Pull, said: dict[str, Any]) -> Hook:
        return Hook(what, pull.place, {"Content-Type": "application/json", "X-Gitlab-Event": event,
                                       "X-Gitlab-Token": self.secret}, json.dumps(said).encode())
