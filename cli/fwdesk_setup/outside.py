"""A look from outside: whether devices and operators get through, by the name that they use."""
import base64
import http.client
import json
import socket
import ssl
import time
from collections.abc import Callable

from fwdesk_ctl.client import limit_time
from fwdesk_setup import hawkbit, places

# seconds until a proxy that has just started answers, with the desk behind it, and for one reply; bytes of a reply that are read
PATIENCE, REPLY, MOST = 120, 30, 1 << 20


class Outside:
    """The proxy as somebody sees it who knows its name, its port and perhaps a login."""

    def __init__(self, name: str, port: int, authority: str | None):
        self.name, self.port = name, port
        self.context = ssl.create_default_context(cafile=authority)
        self.address = self.resolve()

    def resolve(self) -> str | None:
        """The address that the name has here, None where it has none."""
        try:
            return socket.getaddrinfo(self.name, self.port, type=socket.SOCK_STREAM)[0][4][0]
        except OSError:
            return None

    def ask(self, path: str, **fields: str) -> tuple[int, bytes]:
        """The status and the body of a reply, over TLS, with the name checked."""
        link = http.client.HTTPSConnection(self.name, self.port, timeout=REPLY)
        plain = socket.create_connection((self.address or "127.0.0.1", self.port), REPLY)
        link.sock = self.context.wrap_socket(plain, server_hostname=self.name)
        try:
            with limit_time(link, REPLY):
                link.request("GET", path, headers={"Connection": "close", **fields})
                reply = link.getresponse()
                return reply.status, reply.read(MOST)
        finally:
            link.close()

    def fault(self, path: str, wanted: int, **fields: str) -> str | None:
        """What is wrong with a reply; None where it has the status that it is to have."""
        try:
            status, body = self.ask(path, **fields)
        except (OSError, http.client.HTTPException) as error:
            return f"{path}: {error}"
        if status != wanted:
            return f"{path}: {status} and not {wanted}: {body[:200].decode(errors='replace')}"
        return None

    def faults(self, login: tuple[str, str] | None, with_desk: bool) -> list[str]:
        """All that is wrong. Without the desk, which may still open its file, the proxy alone is looked at."""
        device = "/DEFAULT/controller/v1/nobody"
        found = [self.fault("/rest/v1/targets?limit=1", 401)]
        if with_desk:
            found.append(self.fault(device, 401, Authorization="TargetToken nobody-0"))
        if login:
            words = base64.b64encode(":".join(login).encode()).decode()
            for path in ("/rest/v1/targets?limit=1", "/page/", "/fwdesk/me", "/fwdesk/brake"):
                found.append(self.fault(path, 200, Authorization=f"Basic {words}"))
        return [it for it in found if it]

    def faults_of_pipelines(self, login: tuple[str, str] | None) -> list[str]:
        """All that is wrong with the port of hawkBit's Management API."""
        found = [self.fault("/rest/v1/targets?limit=1", 401)]
        if login:
            words = base64.b64encode(":".join(login).encode()).decode()
            found.append(self.fault("/rest/v1/userinfo", 200, Authorization=f"Basic {words}"))
        return [f"port {self.port}: {it}" for it in found if it]


def in_the_end(look: Callable[[], list[str]]) -> list[str]:
    """All that is wrong still once it had time to start."""
    until = time.monotonic() + PATIENCE
    while (found := look()) and time.monotonic() < until:
        time.sleep(0.3)
    return found


def look(login: tuple[str, str] | None = None, with_desk: bool = True) -> list[str]:
    """What is wrong with the proxy of this machine, as its choices have it."""
    choices = json.loads(places.CHOICES.read_text(encoding="utf-8"))
    name, authority = choices["name"], choices["authority"]
    found = in_the_end(lambda: Outside(name, choices["port"], authority).faults(login, with_desk))
    if (port := hawkbit.management_port()) and not found:
        found = in_the_end(lambda: Outside(name, port, authority).faults_of_pipelines(login))
    return found
