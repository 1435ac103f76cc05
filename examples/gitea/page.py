"""What the example's page needs: nginx's part of companions/service before a gate, for whoever sits at this machine.

    python3 page.py FOLDER PORT_OF_GATE [PORT]

It asks for no name and speaks no TLS, so it listens at 127.0.0.1 alone. Prints the address.
"""
from __future__ import annotations

import re
import socket
import sys
from pathlib import Path

from companions.tests.day.layout import proxy_settings

# What is left out: TLS with its certificate, and the names of people.
WITHOUT = re.compile(r"^ *(?:ssl_\w+|auth_basic(?:_user_file)?|add_header Strict-Transport-Security) .*;\n", re.MULTILINE)


def free_port() -> int:
    with socket.create_server(("127.0.0.1", 0)) as one:
        return int(one.getsockname()[1])


def main(folder: Path, gate: int, port: int) -> None:
    for name in ("proxy", "page", "logs"):
        (folder / name).mkdir(exist_ok=True)
    text = WITHOUT.sub("", proxy_settings(folder, port, gate).replace(f"127.0.0.1:{port} ssl;", f"127.0.0.1:{port};"))
    (folder / "proxy" / "nginx.conf").write_text(text, encoding="utf-8")
    print(f"http://127.0.0.1:{port}/")


if __name__ == "__main__":
    main(Path(sys.argv[1]), int(sys.argv[2]), int(sys.argv[3]) if len(sys.argv) > 3 else free_port())
