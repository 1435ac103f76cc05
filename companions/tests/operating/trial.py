"""What has to hold on the stage once a trial has become the service: run there by stage.sh."""
from __future__ import annotations

import urllib.request
from pathlib import Path


def told(says: bool, what: str) -> None:
    print(f"{'ok' if says else 'NOT OK'}: {what}", flush=True)


def answer(path: str) -> str:
    with urllib.request.urlopen(f"http://127.0.0.1:8080/{path}", timeout=60) as it:
        return str(it.read().decode())


told(answer("deliveries").endswith("end 2\n"), "the service's gate has what the trial's accepted")
told("waiting 301 1\n" in answer("status"), "a change of the trial waits at the service's gate")
told(list(Path("/root/trial").glob("gate.db*")) == [], "nothing of the trial's file is left behind")
for part in ("lander", "adapter"):
    file = Path("/var/lib/gated-companions") / part / "was-here"
    told(file.exists() and file.owner() == "gated-companions", f"the folder of the {part} is the companions'")
told(Path("/var/lib/gated/gate.db").owner() == "gated", "the file is the gate's")
print("all was checked")
