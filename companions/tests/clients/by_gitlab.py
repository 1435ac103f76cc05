"""Does by python-gitlab what the adapter does at GitLab: reads and writes requests, votes, notes, statuses, hooks."""
import json
import sys

import gitlab


class Client:
    """A project and a request as the adapter's account and two other persons have them."""

    def __init__(self, said):
        self.said, self.saw = said, {}
        self.forges = {who: gitlab.Gitlab(said["url"].removesuffix("/api/v4"), private_token=token, per_page=2)
                       for who, token in said["tokens"].items()}
        self.project = self.forges["gate"].projects.get(said["repository"])

    def request(self, who="gate"):
        return self.forges[who].projects.get(self.said["repository"]).mergerequests.get(self.said["number"])

    def read(self):
        """The request, the open ones, its heads, whose token it is, who has a login, and who may write."""
        it = self.request()
        self.saw["request"] = [it.state, it.sha, it.target_branch, it.title, it.description, it.draft]
        self.saw["open"] = sorted(it.iid for it in self.project.mergerequests.list(state="opened", iterator=True))
        self.saw["heads"] = [it.head_commit_sha for it in it.diffs.list(iterator=True)]
        self.forges["gate"].auth()
        self.saw["accounts"] = [self.forges["gate"].user.username,
                                self.forges["gate"].users.list(username="ann", iterator=False)[0].id]
        self.saw["may write"] = [[it.access_level for it in self.project.members_all.list(query=who, iterator=False)
                                  if it.username == who] for who in ("ann", "cy")]
        self.saw["by number"] = self.forges["gate"].projects.get(self.project.id).path_with_namespace

    def vote(self):
        """Approves, twice, and takes it back; another approval names a commit that isn't the head."""
        self.request("ben").approve()
        try:
            self.request("ben").approve()
        except gitlab.GitlabAuthenticationError as fault:
            self.saw["twice"] = fault.response_code
        try:
            self.request("ann").approve(sha="0" * 40)
        except gitlab.GitlabMRApprovalError as fault:
            self.saw["another"] = fault.response_code
        self.saw["approved"] = self.approved()
        self.request("ben").unapprove()
        self.saw["taken back"] = self.approved()
        self.request("ben").approve()

    def approved(self):
        return [it["user"]["username"] for it in self.request().approvals.get().approved_by]

    def comment(self):
        """Writes notes, edits its own and another's, and deletes one."""
        own, others = self.request().notes.create({"body": "waits"}), self.request("ben").notes.create({"body": "Well"})
        self.request("cy").notes.create({"body": "Nice"})
        for note, text in ((own, "tests"), (self.request().notes.get(others.id), "/gate approve")):
            note.body = text
            note.save()
        self.saw["comments"] = [[it.author["username"], it.body, it.updated_at > it.created_at]
                                for it in self.notes() if not it.system]
        self.request().notes.get(own.id).delete()
        self.saw["left"] = [it.body for it in self.notes()]
        try:
            note = self.request("cy").notes.get(others.id)
            note.body = "No"
            note.save()
        except gitlab.GitlabUpdateError as fault:
            self.saw["forbidden"] = fault.response_code

    def notes(self):
        return list(self.request().notes.list(sort="asc", order_by="created_at", iterator=True))

    def status(self):
        """Sets statuses of the head, of which the second is the same again, and reads them."""
        commit = self.project.commits.get(self.said["head"], lazy=True)
        for state, text in (("pending", "Waits"), ("pending", "Waits"), ("success", "Landed in core as 1")):
            try:
                commit.statuses.create({"name": "gate", "state": state, "description": text})
            except gitlab.GitlabCreateError as fault:
                self.saw["again"] = [fault.response_code, fault.error_message]
        self.saw["statuses"] = [[it.status, it.description, it.author["username"]]
                                for it in commit.statuses.list(iterator=True)]

    def hook(self):
        """Has hooks sent, and reads where."""
        self.project.hooks.create({"url": self.said["door"], "token": self.said["secret"], "note_events": True,
                                   "merge_requests_events": True, "push_events": False})
        self.saw["hooks"] = [[it.url, it.note_events] for it in self.project.hooks.list(iterator=True)]

    def close(self):
        """Closes the request, opens it again, and closes it."""
        for event in ("close", "reopen", "close"):
            it = self.request()
            it.state_event = event
            it.save()
        self.saw["closed"] = self.request().state

    def unhook(self):
        for it in list(self.project.hooks.list(iterator=True)):
            it.delete()
        self.saw["unhooked"] = len(list(self.project.hooks.list(iterator=True)))

    def refused(self):
        """What somebody hears whose token isn't known."""
        try:
            gitlab.Gitlab(self.said["url"].removesuffix("/api/v4"), private_token="ended").auth()
        except gitlab.GitlabAuthenticationError as fault:
            self.saw["refused"] = [fault.response_code, fault.error_message]


def main():
    said = json.loads(sys.argv[1])
    client = Client(said)
    for it in said["steps"]:
        getattr(client, it)()
    print(json.dumps(client.saw))


if __name__ == "__main__":
    main()
