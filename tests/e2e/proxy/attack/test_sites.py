"""Requests that another site has a browser send, and names that somebody led here: at every way in."""

import contextlib
import ipaddress
import os
from pathlib import Path
from typing import Iterator

import pytest
from harness import http_client
from harness.processes import HOST

from .stage import Plain, Stage, login, token

pytestmark = [pytest.mark.e2e, pytest.mark.gate]
# how /proc/net/tcp tells a socket that listens
LISTENS = "0A"
FOREIGN = {
    "site": "Sec-Fetch-Site: cross-site\r\n",
    "sibling": "Sec-Fetch-Site: same-site\r\n",
    "origin": "Origin: https://evil.example\r\n",
    "null": "Origin: null\r\n",
    "both": "Origin: https://evil.example\r\nSec-Fetch-Site: cross-site\r\n",
}
ORDERS = [("POST", "/rest/v1/rollouts/1/pause"), ("POST", "/fwdesk/brake?kind=brake&reason=x")]


@pytest.mark.parametrize("kind", FOREIGN)
@pytest.mark.parametrize("method, path", ORDERS)
def test_foreign_order_is_refused(quiet: Stage, kind: str, method: str, path: str) -> None:
    """A login alone isn't enough where a browser says that another site asks."""
    assert quiet.ask(method, path, login("zoe") + FOREIGN[kind], b"")[0] == 403


@pytest.mark.parametrize("kind", FOREIGN)
@pytest.mark.parametrize("method, path", ORDERS)
def test_foreign_order_is_refused_near(quiet: Stage, kind: str, method: str, path: str) -> None:
    """The machine's own way in asks for no login, so it is the one that a web page beside it would take."""
    with quiet.open_near() as link:
        assert link.ask(method, quiet.near_base + path, FOREIGN[kind], b"")[0] == 403


@pytest.mark.parametrize(
    "host", ["evil.example", "evil.example:8081", "127.0.0.1.evil.example", ""]
)
@pytest.mark.parametrize("method", ["GET", "POST"])
def test_led_name_is_refused_near(quiet: Stage, host: str, method: str) -> None:
    """A name that somebody leads to this machine isn't its own."""
    with quiet.open_near() as link:
        path = quiet.near_base + "/rest/v1/targets"
        assert link.ask(method, path, f"Host: {host}\r\n", b"")[0] == 403


@pytest.mark.parametrize(
    "host", ["localhost", "127.0.0.1", "127.0.0.1:8081", "[::1]:8081", "LOCALHOST"]
)
def test_own_name_passes_near(quiet: Stage, host: str) -> None:
    """The machine's own names are taken."""
    with quiet.open_near() as link:
        assert link.ask("GET", quiet.near_base + "/rest/v1/targets", f"Host: {host}\r\n")[0] == 200


@pytest.mark.parametrize("host", ["evil.example", "127.0.0.1.evil.example", ""])
@pytest.mark.parametrize("which", ["metrics", "desks_metrics"])
def test_led_name_is_refused_of_metrics(quiet: Stage, which: str, host: str) -> None:
    """The ports of metrics, which ask for no login, are no other site's either."""
    port = getattr(quiet.edge, which)
    told = [
        http_client.ask("GET", "/metrics", fields={"Host": it}, port=port).status
        for it in (host, "localhost", f"127.0.0.1:{port}")
    ]
    assert told == [403, 200, 200]


def test_own_order_passes(quiet: Stage) -> None:
    """The page's own requests say where they come from, and are taken."""
    fields = f"Host: desk.example\r\nOrigin: https://desk.example\r\nSec-Fetch-Site: same-origin\r\n{login('zoe')}"
    assert quiet.ask("POST", "/rest/v1/rollouts/77/pause", fields, b"")[0] == 404


def sockets_of(process: int) -> set[str]:
    """The sockets that a process has, by their names. One of them, or the process, may end meanwhile."""
    found = set()
    with contextlib.suppress(FileNotFoundError):
        for it in Path(f"/proc/{process}/fd").iterdir():
            with contextlib.suppress(FileNotFoundError):
                found.add(os.readlink(it))
    return found


def listening(stage: Stage) -> set[tuple[str, int]]:
    """The addresses and ports at which both HAProxys listen, of IPv4 and, where the machine has it, of IPv6."""
    masters = (stage.edge.edge, stage.edge.desks)
    own = {
        name for it in masters for process in stage.edge.workers(it) for name in sockets_of(process)
    }
    found = set()
    for table in filter(Path.exists, (Path("/proc/net/tcp"), Path("/proc/net/tcp6"))):
        for row in table.read_text().splitlines()[1:]:
            _, local, _, state, *rest = row.split()
            if state == LISTENS and f"socket:[{rest[5]}]" in own:
                address, port = local.split(":")
                # the kernel tells each word of four bytes turned
                words = (
                    bytes.fromhex(address[it : it + 8])[::-1] for it in range(0, len(address), 8)
                )
                found.add((str(ipaddress.ip_address(b"".join(words))), int(port, 16)))
    return found


def test_no_other_port_is_open(quiet: Stage) -> None:
    """The machine's own way in is a socket: no port leads past the logins but the one that an operator opens."""
    edge = quiet.edge
    wanted = {edge.port, edge.metrics, edge.desks_metrics}
    wanted |= {edge.health} if quiet.form == "pod" else set()
    wanted |= {edge.local_port} if quiet.form == "port" else set()
    assert listening(quiet) == {(HOST, it) for it in wanted}


@pytest.fixture(scope="session")
def named(stage: Stage, tmp_path_factory: pytest.TempPathFactory) -> Iterator[Stage]:
    """The same form where an operator has said by which names it is reached."""
    folder = tmp_path_factory.mktemp("named")
    made = Stage(folder, None, stage.form, {"FWDESK_HOSTS": "desk.example 127.0.0.1"})
    server = Plain(made.behind)
    yield made
    server.end()
    made.end()


@pytest.mark.parametrize(
    "host, is_ours",
    [
        ("desk.example", True),
        ("DESK.example:8443", True),
        ("127.0.0.1:8443", True),
        ("evil.example", False),
        ("desk.example.evil.example", False),
        ("desk.example@evil.example", False),
        ("", False),
    ],
)
@pytest.mark.parametrize("method", ["GET", "POST"])
def test_other_names_are_refused(named: Stage, host: str, is_ours: bool, method: str) -> None:
    """Where the names are said, a login is taken by these alone. Of many fleets a name that nobody has is told as one of
    another's fleet is."""
    refused = 403 if named.form == "fleets" else 421
    fields = f"Host: {host}\r\n{login('zoe')}"
    status = named.ask(method, "/rest/v1/targets", fields, b"")[0]
    assert status == (200 if is_ours else refused)


def test_other_names_are_taken_of_devices(named: Stage) -> None:
    """A device may name what it likes: it has a token."""
    with named.open() as link:
        path = f"{named.base}/DEFAULT/controller/v1/dev-01"
        assert link.ask("GET", path, f"Host: evil.example\r\n{token(1)}")[0] == 200


@pytest.mark.forms("single", "fleets", "failover", "pod", "port")
@pytest.mark.parametrize(
    "path",
    [
        "/rest/v1/targets",
        "/desk/v1/rollouts/1/report",
        "/fwdesk/me",
        "/fwdesk/brake",
        "/page/",
        "/",
        "/DEFAULT/../rest/v1/targets",
        "/DEFAULT/%2e%2e/rest/v1/targets",
        "/DEFAULT/..%2frest/v1/targets",
        "//DEFAULT/controller/v1/dev-01",
        "//rest/v1/targets/../../../DEFAULT/x",
        "/default/controller/v1/dev-01",
    ],
)
@pytest.mark.parametrize("method", ["GET", "POST", "HEAD", "DELETE"])
def test_devices_door_has_nothing_of_operators(quiet: Stage, method: str, path: str) -> None:
    """The socket for what stands before devices lets by their own paths alone."""
    base = quiet.near_base
    with quiet.open_path(quiet.edge.devices) as link:
        assert link.ask(method, base + path, login("zoe"), b"")[0] in (400, 404)


@pytest.mark.forms("single", "fleets", "failover", "pod", "port")
def test_devices_door_serves_devices(quiet: Stage) -> None:
    """A device is served by it, with its token."""
    path = f"{quiet.near_base}/DEFAULT/controller/v1/dev-01"
    with quiet.open_path(quiet.edge.devices) as link:
        assert link.ask("GET", path, token(1))[0] == 200
        assert link.ask("GET", path, token(2))[0] == 401


@pytest.mark.forms("pod")
@pytest.mark.parametrize(
    "method, path, wanted",
    [
        ("GET", "/ready", 200),
        ("GET", "/alive", 200),
        ("POST", "/ready", 405),
        ("PUT", "/ready", 405),
        ("DELETE", "/alive", 405),
        ("GET", "/rest/v1/targets", 404),
        ("GET", "/ready/../rest/v1/targets", 404),
        ("GET", "/fwdesk/me", 404),
    ],
)
def test_probes_reach_no_call(quiet: Stage, method: str, path: str, wanted: int) -> None:
    """What a pod's port for probes answers, which the whole cluster may ask."""
    body = b"[]" if method in ("POST", "PUT") else None
    reply = http_client.ask(method, path, body, port=quiet.edge.health)
    assert reply.status == wanted and b"number" not in reply.body, reply


@pytest.mark.forms("pod")
def test_probe_hands_no_body_on(quiet: Stage) -> None:
    """A GET with a body isn't one of a probe."""
    fields = {"Content-Length": "2"}
    assert http_client.ask("GET", "/ready", b"[]", fields, port=quiet.edge.health).status == 400


@pytest.mark.gate
@pytest.mark.forms("fleets", "failover")
def test_no_desk_answers_for_another(quiet: Stage) -> None:
    """A fleet that isn't served is told as that, and no other fleet's desk is asked in its place."""
    with quiet.open_near() as link:
        status, _, told = link.ask("GET", "/fleets/nobody/rest/v1/targets")
    assert (status, b"dev-01" in told) == (404 if quiet.form == "fleets" else 503, False)
