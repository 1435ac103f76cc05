"""How forges show what a CI has run: GitHub's and Gitea's API of workflow runs, GitLab's of pipelines, as they document
them.
"""
from __future__ import annotations

from typing import Any

from companions.tests.forges.form import Form, Question, Reply, Route
from companions.tests.forges.ran import COMPLETED, CheckRun, CiRun

GITLAB_WORDS = {"failure": "failed", "cancelled": "canceled", "queued": "pending", "in_progress": "running",
                "action_required": "manual"}


def state_of(word: str) -> dict[str, Any]:
    is_over = word in COMPLETED
    return {"status": "completed" if is_over else word, "conclusion": word if is_over else None}


class GitHubRuns:
    """GitHub's and Gitea's API of runs."""

    def __init__(self, form: Form, repository: str) -> None:
        self.form, self.pattern = form, repository

    def routes(self) -> list[Route]:
        one = self.pattern + r"/actions/runs/(\d+)"
        return [("GET", self.pattern + "/actions/runs", self.runs), ("GET", one + "/jobs", self.jobs),
                ("POST", one + "/cancel", self.cancel)]

    def of(self, question: Question) -> list[CiRun]:
        return [it for it in self.form.model.ran if it.repository == "/".join(question.parts[:2])]

    def found(self, question: Question) -> CiRun | None:
        return next((it for it in self.of(question) if str(it.number) == question.parts[2]), None)

    def runs(self, question: Question) -> Reply:
        wanted = {"branch": "head_branch", "head_sha": "head_sha", "event": "event"}
        rows = [{"id": it.number, "head_branch": it.branch, "head_sha": it.commit, "event": it.event,
                 "path": ".github/workflows/ci.yml", **state_of(it.word),
                 "html_url": f"{self.form.web}/{it.repository}/actions/runs/{it.number}"} for it in self.of(question)]
        rows = [it for it in reversed(rows) if all(question.query.get(name, it[member]) == it[member]
                                                   for name, member in wanted.items())]
        page, link = self.form.page(rows, question)
        return Reply(200, {"total_count": len(rows), "workflow_runs": page}, {"Link": link} if link else {})

    def jobs(self, question: Question) -> Reply:
        run = self.found(question)
        if run is None:
            return self.form.missing()
        rows = [{"id": it.number, "run_id": run.number, "name": it.name, "head_sha": run.commit,
                 "head_branch": run.branch, **state_of(it.word),
                 "html_url": f"{self.form.web}/{run.repository}/actions/runs/{run.number}/job/{it.number}"}
                for it in run.jobs]
        page, link = self.form.page(rows, question)
        return Reply(200, {"total_count": len(rows), "jobs": page}, {"Link": link} if link else {})

    def cancel(self, question: Question) -> Reply:
        run = self.found(question)
        if run is None:
            return self.form.missing()
        said = {"message": "Cannot cancel a workflow run that is completed."}
        return Reply(202, {}) if run.cancel() else Reply(409, said)


class GitHubChecks:
    """GitHub's API of check runs. In which order they come isn't documented."""

    def __init__(self, form: Form, repository: str) -> None:
        self.form, self.pattern = form, repository

    def routes(self) -> list[Route]:
        return [("GET", self.pattern + "/commits/([0-9a-f]+)/check-runs", self.checks)]

    def shown(self, it: CheckRun) -> dict[str, Any]:
        page = f"{self.form.web}/{it.repository}/runs/{it.number}"
        return {"id": it.number, "head_sha": it.commit, "name": it.name, **state_of(it.word), "html_url": page,
                "details_url": it.link or self.form.web, "check_suite": {"id": it.app * 1000},
                "output": {"title": it.name, "summary": it.text, "text": it.text, "annotations_count": 0},
                "app": {"id": it.app, "slug": it.slug, "name": it.slug}}

    def checks(self, question: Question) -> Reply:
        repository, commit, query = "/".join(question.parts[:2]), question.parts[2], question.query
        if not self.form.model.has(repository, commit):
            return Reply(422, {"message": f"No commit found for SHA: {commit}"})
        found = [it for it in self.form.model.checks if (it.repository, it.commit) == (repository, commit)
                 and query.get("app_id", str(it.app)) == str(it.app) and query.get("check_name", it.name) == it.name]
        if query.get("filter", "latest") == "latest":
            # By the times of their ends.
            last = {(it.app, it.name): it for it in sorted(found, key=lambda it: (it.word in COMPLETED, it.number))}
            found = [it for it in found if it in last.values()]
        rows, link = self.form.page([self.shown(it) for it in found], question)
        return Reply(200, {"total_count": len(found), "check_runs": rows}, {"Link": link} if link else {})


class GitLabPipelines:
    """GitLab's API of pipelines."""

    def __init__(self, form: Form, project: str) -> None:
        self.form, self.pattern = form, project

    def routes(self) -> list[Route]:
        one = self.pattern + r"/pipelines/(\d+)"
        return [("GET", self.pattern + "/pipelines", self.pipelines), ("GET", one + "/jobs", self.jobs),
                ("POST", one + "/cancel", self.cancel),
                ("DELETE", self.pattern + "/repository/branches/(.+)", self.delete_branch)]

    def delete_branch(self, question: Question) -> Reply:
        """Also one that is protected, which git may not delete."""
        return Reply(204, None) if self.form.model.when_deleted(*question.parts) else self.form.missing()

    def of(self, question: Question) -> list[CiRun]:
        return [it for it in self.form.model.ran if it.repository == question.parts[0]]

    def found(self, question: Question) -> CiRun | None:
        return next((it for it in self.of(question) if str(it.number) == question.parts[1]), None)

    def shown(self, it: CiRun) -> dict[str, Any]:
        return {"id": it.number, "iid": it.number, "ref": it.branch, "sha": it.commit, "source": it.event,
                "status": GITLAB_WORDS.get(it.word, it.word),
                "web_url": f"{self.form.web}/{it.repository}/-/pipelines/{it.number}"}

    def pipelines(self, question: Question) -> Reply:
        rows = [self.shown(it) for it in self.of(question)]
        return self.form.listed([it for it in reversed(rows) if all(
            question.query.get(name, it[name]) == it[name] for name in ("ref", "sha", "source"))], question)

    def jobs(self, question: Question) -> Reply:
        run = self.found(question)
        if run is None:
            return self.form.missing()
        return self.form.listed([
            {"id": it.number, "name": it.name, "status": GITLAB_WORDS.get(it.word, it.word), "ref": run.branch,
             "failure_reason": it.cause, "allow_failure": False, "pipeline": self.shown(run),
             "web_url": f"{self.form.web}/{run.repository}/-/jobs/{it.number}"} for it in run.jobs], question)

    def cancel(self, question: Question) -> Reply:
        run = self.found(question)
        if run is None:
            return self.form.missing()
        run.cancel()
        return Reply(200, self.shown(run))
