"""The suites' HTTP client: one request over a connection of its own, and its reply. Not run by itself."""
import base64
import contextlib
import http.client
import json
import socket
import ssl
from dataclasses import dataclass, field
from pathlib import Path
from typing import Any

from harness.processes import HOST

# a request that waits in a proxy's queue, on a busy machine
SECONDS = 120
# what a connection may end with
BROKEN = (OSError, http.client.HTTPException)


@dataclass(frozen=True)
class Reply:
    """What came back; the names of its fields are in small letters."""

    status: int
    body: bytes
    fields: dict[str, str] = field(default_factory=dict)

    @property
    def text(self) -> str:
        return self.body.decode()

    @property
    def told(self) -> Any:
        """The object or the list that it has as JSON, else its text."""
        return json.loads(self.body) if self.body.startswith((b"{", b"[")) else self.text

    def json(self) -> Any:
        return json.loads(self.body)


class LocalConnection(http.client.HTTPConnection):
    """HTTP over a socket of this machine."""

    def __init__(self, path: Path, seconds: float) -> None:
        super().__init__("localhost", timeout=seconds)
        self.path = path

    def connect(self) -> None:
        self.sock = socket.socket(socket.AF_UNIX)
        self.sock.settimeout(self.timeout)
        self.sock.connect(str(self.path))


class TlsConnection(http.client.HTTPSConnection):
    """HTTP by TLS, which takes up a session of before where one is named."""

    def __init__(
        self, *place: Any, context: ssl.SSLContext, session: ssl.SSLSession | None, **more: Any
    ) -> None:
        super().__init__(*place, context=context, **more)
        self.trusted, self.session = context, session

    def connect(self) -> None:
        http.client.HTTPConnection.connect(self)
        name = self.host
        self.sock = self.trusted.wrap_socket(self.sock, server_hostname=name, session=self.session)


def trust_all() -> ssl.SSLContext:
    """TLS that doesn't look at the server's certificate."""
    context = ssl.create_default_context()
    context.check_hostname, context.verify_mode = False, ssl.CERT_NONE
    return context


def login(name: str, password: str) -> dict[str, str]:
    """The field of a request that an operator makes."""
    return {"Authorization": "Basic " + base64.b64encode(f"{name}:{password}".encode()).decode()}


def token(device: str, form: str = "tok-{}") -> dict[str, str]:
    """The field of a request that a device makes."""
    return {"Authorization": f"TargetToken {form.format(device)}"}


def connect(
    to: int | Path,
    host: str = HOST,
    trusted: ssl.SSLContext | None = None,
    seconds: float = SECONDS,
    source: str | None = None,
    session: ssl.SSLSession | None = None,
) -> http.client.HTTPConnection:
    """A connection to a port of this machine, by TLS if `trusted` says whom, or to a socket's path; from an address of
    this machine, and with a session of TLS that is taken up again."""
    if isinstance(to, Path):
        return LocalConnection(to, seconds)
    own = (source, 0) if source else None
    if trusted:
        return TlsConnection(
            host, to, timeout=seconds, context=trusted, source_address=own, session=session
        )
    return http.client.HTTPConnection(host, to, timeout=seconds, source_address=own)


def exchange(
    link: http.client.HTTPConnection,
    method: str,
    path: str,
    body: object = None,
    fields: dict[str, str] | None = None,
) -> Reply:
    """Asks once over a connection that is kept. A list or a map goes as JSON."""
    sent = json.dumps(body).encode() if isinstance(body, dict | list) else body
    # a server that refuses a body unread answers, and closes
    with contextlib.suppress(BrokenPipeError, ssl.SSLEOFError):
        link.request(method, path, sent, fields or {})  # type: ignore[arg-type]
    reply = link.getresponse()
    return Reply(reply.status, reply.read(), {k.lower(): v for k, v in reply.getheaders()})


def ask(
    method: str,
    path: str,
    body: object = None,
    fields: dict[str, str] | None = None,
    *,
    port: int | Path,
    host: str = HOST,
    trusted: ssl.SSLContext | None = None,
    seconds: float = SECONDS,
    source: str | None = None,
) -> Reply:
    """Asks once over a connection of its own: a port of this machine, or a socket's path."""
    link = connect(port, host, trusted, seconds, source)
    try:
        return exchange(link, method, path, body, fields)
    finally:
        link.close()
