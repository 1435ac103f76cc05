"""Does by PyGithub what the adapter does at GitHub: reads and writes requests, votes, comments, statuses and hooks."""
import json
import sys

import github


class Client:
    """A repository and a request as the adapter's account and two other persons have them."""

    def __init__(self, said):
        self.said, self.saw = said, {}
        self.forges = {who: github.Github(token, base_url=said["url"], per_page=2, retry=0)
                       for who, token in said["tokens"].items()}
        self.repository = self.forges["gate"].get_repo(said["repository"])

    def pull(self, who="gate"):
        return self.forges[who].get_repo(self.said["repository"]).get_pull(self.said["number"])

    def read(self):
        """The request, the open ones, whose token it is, who has a login, and who may write."""
        it = self.pull()
        self.saw["request"] = [it.state, it.head.sha, it.base.ref, it.title, it.body, it.draft, it.merged]
        self.saw["open"] = sorted(it.number for it in self.repository.get_pulls(state="open"))
        self.saw["accounts"] = [self.forges["gate"].get_user().login, self.forges["gate"].get_user("ann").id]
        self.saw["may write"] = [self.repository.get_collaborator_permission(it) for it in ("ann", "cy")]
        self.saw["by number"] = self.forges["gate"].get_repo(self.repository.id).full_name
        self.saw["events"] = [it.event for it in it.as_issue().get_events()]

    def vote(self):
        """Approves, objects and says something by reviews; what was approved first is dismissed."""
        for who, event, text in (("ben", "APPROVE", ""), ("cy", "COMMENT", "Well"), ("cy", "REQUEST_CHANGES", "No")):
            self.pull(who).create_review(body=text, event=event)
        try:
            self.pull("ann").create_review(body="", event="APPROVE")
        except github.GithubException as fault:
            self.saw["own"] = [fault.status, fault.data["errors"]]
        self.saw["reviews"] = self.reviews()
        next(iter(self.pull().get_reviews())).dismiss("no")
        self.saw["dismissed"] = self.reviews()

    def reviews(self):
        return [[it.user.login, it.state, it.commit_id] for it in self.pull().get_reviews()]

    def comment(self):
        """Writes comments, edits its own and another's, and deletes one."""
        own, others = self.pull().create_issue_comment("waits"), self.pull("ben").create_issue_comment("/gate approve")
        self.pull("cy").create_issue_comment("Nice")
        own.edit("tests")
        self.pull().get_issue_comment(others.id).edit("/gate approve ")
        self.saw["comments"] = [[it.user.login, it.body, it.updated_at > it.created_at]
                                for it in self.pull().get_issue_comments()]
        own.delete()
        self.saw["left"] = [it.body for it in self.pull().get_issue_comments()]
        try:
            self.pull("cy").get_issue_comment(others.id).edit("No")
        except github.GithubException as fault:
            self.saw["forbidden"] = [fault.status, fault.data["message"]]

    def status(self):
        """Sets two statuses of the head, and reads them."""
        commit = self.repository.get_commit(self.said["head"])
        for state, text in (("pending", "Waits for approval"), ("success", "Landed in core as 1")):
            commit.create_status(state, description=text, context="gate")
        self.saw["statuses"] = [[it.state, it.description, it.creator.login] for it in commit.get_statuses()]

    def hook(self):
        """Has hooks sent, and reads where."""
        config = {"url": self.said["door"], "content_type": "json", "secret": self.said["secret"]}
        self.repository.create_hook("web", config, ["pull_request", "pull_request_review", "issue_comment"], True)
        self.saw["hooks"] = [[it.config["url"], it.active] for it in self.repository.get_hooks()]

    def close(self):
        """Closes the request, opens it again, and closes it."""
        for state in ("closed", "open", "closed"):
            self.pull().edit(state=state)
        self.saw["closed"] = self.pull().state

    def unhook(self):
        for it in self.repository.get_hooks():
            it.delete()
        self.saw["unhooked"] = self.repository.get_hooks().totalCount

    def refused(self):
        """What somebody hears whose token isn't known."""
        try:
            self.saw["refused"] = github.Github("ended", base_url=self.said["url"], retry=0).get_user().login
        except github.BadCredentialsException as fault:
            self.saw["refused"] = [fault.status, fault.data["message"]]


def main():
    said = json.loads(sys.argv[1])
    client = Client(said)
    for it in said["steps"]:
        getattr(client, it)()
    print(json.dumps(client.saw))


if __name__ == "__main__":
    main()
