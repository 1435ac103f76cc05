"""Times deliveries over loopback, each by a connection of its own: to `gated serve`, and to Python's `http.server`.

serve.py PROGRAM SETTINGS FILE COUNT: so many deliveries to a gate over FILE, which `gated init` has made.
The server in Python reads the same requests, and answers the same bytes.
"""
import http.server
import json
import multiprocessing
import socket
import subprocess
import sys
import time


def deliveries(count):
    """A change comes, is approved, and is closed; then the next."""
    for number in range(count):
        change, step = number // 3 + 1, number % 3
        members = {"id": f"{number:08x}-0000-4000-8000-000000000000", "change": change, "revision": 1}
        if step == 0:
            members |= {"kind": "revision", "project": "lib", "message": "A change"}
        else:
            members["kind"] = "approved" if step == 1 else "closed"
        body = json.dumps(members, separators=(",", ":"))
        yield f"POST /forge HTTP/1.1\r\nHost: gate\r\nContent-Length: {len(body)}\r\n\r\n{body}".encode()


def ask(port, request):
    """What one connection gets, to its end."""
    with socket.create_connection(("127.0.0.1", port)) as stream:
        stream.sendall(request)
        answer = b""
        while more := stream.recv(65536):
            answer += more
    return answer


def ask_all(port, requests):
    start = time.monotonic()
    answers = [ask(port, request) for request in requests]
    return answers, time.monotonic() - start


def ask_gate(program, settings, file, requests):
    words = [program, "serve", settings, file, "--port", "0", "--count", str(len(requests))]
    with subprocess.Popen(words, stdout=subprocess.PIPE, text=True) as gate:
        port = int(gate.stdout.readline().rsplit(":", 1)[1])
        answers, taken = ask_all(port, requests)
    assert gate.returncode == 0, f"status {gate.returncode}"
    assert all(answer.startswith(b"HTTP/1.1 200 OK\r\n") for answer in answers), "a delivery was refused"
    return answers, taken


def ask_python(answers, requests):
    left = iter(answers)

    class Answering(http.server.BaseHTTPRequestHandler):
        def do_POST(self):
            self.rfile.read(int(self.headers["Content-Length"]))
            self.wfile.write(next(left))

        def log_message(self, *_):
            pass

    with http.server.HTTPServer(("127.0.0.1", 0), Answering) as server:
        serving = multiprocessing.get_context("fork").Process(target=server.serve_forever, daemon=True)
        serving.start()
        got, taken = ask_all(server.server_port, requests)
        serving.terminate()
        serving.join()
    assert got == answers, "the answers differ"
    return taken


def main():
    program, settings, file, count = sys.argv[1:]
    requests = list(deliveries(int(count)))
    answers, gate = ask_gate(program, settings, file, requests)
    python = ask_python(answers, requests)
    for name, taken in [("gated", gate), ("http.server", python)]:
        print(f"{name}: {len(requests)} deliveries in {taken:.2f} s, {len(requests) / taken:.0f} a second")


if __name__ == "__main__":
    main()
