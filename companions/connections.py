"""Connections over HTTP: by a proxy if the environment names one, and with a time limit for all that goes over one."""
from __future__ import annotations

import base64
import contextlib
import http.client
import ipaddress
import os
import re
import socket
import ssl
import threading
import urllib.parse
from collections.abc import Iterator, Mapping


# The seconds between two tries to end a connection that has taken too long.
SHUT_AGAIN = 0.2


class Trusted:
    """The authorities that this machine trusts, for all connections. To read them takes some 50 ms of a processor, so
    it is done again only where they have changed."""

    def __init__(self) -> None:
        self.lock = threading.Lock()
        self.read: ssl.SSLContext | None = None
        self.found: list[tuple[int, int, int] | None] = []

    def context(self) -> ssl.SSLContext:
        places = ssl.get_default_verify_paths()
        found = [stamp(it) for it in (places.cafile, places.capath)]
        with self.lock:
            if self.read is None or self.found != found:
                self.read, self.found = ssl.create_default_context(), found
            return self.read


def stamp(name: str | None) -> tuple[int, int, int] | None:
    """What tells a file or a folder from a later one of its name."""
    try:
        found = os.stat(name or "")
    except OSError:
        return None
    return found.st_ino, found.st_size, found.st_mtime_ns


TRUSTED = Trusted()


class Secure(http.client.HTTPConnection):
    """A connection by TLS. The handshake too is on a socket that can be shut from outside."""
    default_port = 443

    def __init__(self, host: str, port: int | None, timeout: float, server: str) -> None:
        super().__init__(host, port, timeout=timeout)
        self.server, self.context = server, TRUSTED.context()

    def connect(self) -> None:
        super().connect()
        secured = self.context.wrap_socket(self.sock, server_hostname=self.server, do_handshake_on_connect=False)
        self.sock = secured
        secured.do_handshake()


def connection_to(url: urllib.parse.SplitResult, timeout: float) -> http.client.HTTPConnection:
    """A connection to a server, which is made with its first request. Each of its steps takes `timeout` seconds at
    most. `ValueError` where the environment's proxy can't be used."""
    host, proxy = url.hostname or "", proxy_of(url, os.environ)
    if url.scheme != "https":
        return http.client.HTTPConnection(host, url.port, timeout=timeout)
    if proxy is None:
        return Secure(host, url.port, timeout, host)
    made = Secure(proxy.hostname or "", proxy.port or 1080, timeout, host)
    account = ":".join(urllib.parse.unquote(it) for it in (proxy.username or "", proxy.password or ""))
    headers = {"Proxy-Authorization": f"Basic {base64.b64encode(account.encode()).decode()}"} if proxy.username else {}
    made.set_tunnel(host, url.port or 443, headers)
    return made


@contextlib.contextmanager
def within(url: urllib.parse.SplitResult, timeout: float) -> Iterator[http.client.HTTPConnection]:
    """A connection that is ended after `timeout` seconds, however slowly its bytes come: `TimeoutError`."""
    made, is_late, is_over = connection_to(url, timeout), threading.Event(), threading.Event()
    # An answer takes the socket from its connection.
    held: socket.socket | None = None

    def hang_up() -> None:
        """Shuts the socket, and again, as it may be changed for that of TLS at this moment."""
        while not is_over.wait(SHUT_AGAIN if is_late.is_set() else timeout):
            is_late.set()
            at = held or made.sock
            if at is not None:
                with contextlib.suppress(OSError):
                    # Not by the method of TLS, which changes the connection under its reader's hands.
                    socket.socket.shutdown(at, socket.SHUT_RDWR)

    threading.Thread(target=hang_up, daemon=True).start()
    late = TimeoutError(f"no whole answer within {timeout:g} seconds")
    try:
        made.connect()
        held = made.sock
        if is_late.is_set():
            raise late
        yield made
        if is_late.is_set():
            raise late
    except (OSError, http.client.HTTPException) as fault:
        if is_late.is_set() or isinstance(fault, TimeoutError):
            raise late from fault
        raise
    finally:
        is_over.set()
        made.close()


def proxy_of(url: urllib.parse.SplitResult, environment: Mapping[str, str]) -> urllib.parse.SplitResult | None:
    """The proxy for an address of https, by `https_proxy` and `no_proxy` as curl reads them; none where it is asked
    directly, as this machine always is."""
    said, direct = (environment.get(it) or environment.get(it.upper()) or "" for it in ("https_proxy", "no_proxy"))
    host = (url.hostname or "").rstrip(".")
    if url.scheme != "https" or not said or is_this_machine(host):
        return None
    if any(is_of(host, it) for it in re.split(r"[\s,]+", direct) if it):
        return None
    proxy = urllib.parse.urlsplit(said if "://" in said else f"http://{said}")
    if proxy.scheme != "http" or not proxy.hostname:
        # The variable may have a password in it.
        raise ValueError("https_proxy names no proxy that is used: it has to begin with http://")
    return proxy


def is_this_machine(host: str) -> bool:
    with contextlib.suppress(ValueError):
        return ipaddress.ip_address(host).is_loopback
    return host == "localhost" or host.endswith(".localhost")


def is_of(host: str, other: str) -> bool:
    """Whether a host is one that `no_proxy` names: all, by `*`; a domain and what is below it; an address, or some."""
    with contextlib.suppress(ValueError):
        return ipaddress.ip_address(host) in ipaddress.ip_network(other.strip("[]"), strict=False)
    domain = other.lower().strip(".")
    return other == "*" or host == domain or host.endswith(f".{domain}")
