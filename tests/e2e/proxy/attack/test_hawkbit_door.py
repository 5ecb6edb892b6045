"""nginx before hawkBit's clients: what isn't a device's path comes to nobody behind it, however it is spelt."""

import shutil
import socket
import stat
from collections.abc import Iterator
from pathlib import Path

import pytest
from harness.tls import make_certificate
from harness.nginx import write_frame
from harness.processes import HOST, Processes, eventually, free_port, listens, with_places
from harness.stand_in import StandIn
from .stage import ROOT, TLS, Link, login

pytestmark = [
    pytest.mark.e2e,
    pytest.mark.gate,
    pytest.mark.skipif(not shutil.which("nginx"), reason="there is no nginx"),
]
DEVICE = "/DEFAULT/controller/v1/dev-01"
FOREIGN = (
    "/rest/v1/targets",
    "/fwdesk/brake",
    "//rest/v1/targets/../../../DEFAULT/x",
    f"/rest/v1/targets/../../..{DEVICE}",
    f"/rest/v1/../..{DEVICE}",
    f"//rest/v1/%2e%2e/%2e%2e{DEVICE}",
    f"/x/..{DEVICE}",
    f"/./{DEVICE[1:]}",
    f"/{DEVICE}",
    "/%44EFAULT/controller/v1/dev-01",
    f"{DEVICE}/../../../../rest/v1/targets",
    f"{DEVICE}/%2e%2e/%2E./../../rest/v1/targets",
    f"{DEVICE}/./configData",
    f"{DEVICE}/deploymentBase/..",
    "/images/app.swu",
)


class Behind(StandIn):
    """Whoever is behind nginx: he answers 200, and remembers the first line of each request, and its other ones."""

    def __init__(self, path: Path) -> None:
        self.seen: list[str] = []
        self.fields: list[list[str]] = []
        listener = socket.socket(socket.AF_UNIX)
        listener.bind(str(path))
        listener.listen(64)
        # the user of nginx's workers comes in
        path.chmod(0o666)
        super().__init__(listener)

    def answer(self, link: socket.socket, request: bytes) -> bool:
        first, *fields = request.decode("latin-1").split("\r\n")
        self.seen.append(first)
        self.fields.append(fields)
        # of no type in which nginx would look for links, since it would pass that on in chunks
        link.sendall(b"HTTP/1.1 200 OK\r\nContent-Length: 2\r\n\r\n{}")
        return True


@pytest.fixture(scope="module")
def door(tmp_path_factory: pytest.TempPathFactory) -> Iterator[tuple[int, list[Behind]]]:
    """nginx with hawkbit-polls.conf, by its port, and both that it asks."""
    folder = tmp_path_factory.mktemp("door")
    for it in (folder, *folder.parents[:2]):
        # (never /tmp itself)
        if not it.stat().st_mode & stat.S_ISVTX:
            it.chmod(0o755)
    make_certificate(folder)
    port, sockets = free_port(), [folder / "polls.sock", folder / "hawkbit.sock"]
    behind = [Behind(it) for it in sockets]
    text = with_places(
        (ROOT / "deploy/nginx/hawkbit-polls.conf").read_text(encoding="utf-8"),
        {
            "listen 8444 ssl": f"listen {HOST}:{port} ssl",
            "/etc/fwdesk/server": f"{folder}/server",
            "/run/fwdesk/devices.sock": str(sockets[0]),
            "/run/fwdesk-hawkbit/devices.sock": str(sockets[1]),
            "limit_conn fwdesk_hawkbit 1000;": "limit_conn fwdesk_hawkbit 3;",
        },
    )
    (folder / "polls.conf").write_text(text)
    processes = Processes(folder)
    child = processes.start("nginx", write_frame(folder, folder / "polls.conf"))
    eventually("nginx", lambda: listens(port), child=child)
    yield port, behind
    processes.end_all()
    for it in behind:
        it.end()


def told(port: int, method: str, path: str, more: str = "") -> int:
    """The status of a request as it is."""
    link = socket.create_connection((HOST, port), 30)
    fields = f"Connection: close\r\n{login('zoe')}{more}"
    with Link(TLS.wrap_socket(link)) as opened:
        return opened.ask(method, path, fields, b"" if method == "POST" else None)[0]


@pytest.mark.parametrize("path", FOREIGN)
@pytest.mark.parametrize("method", ["GET", "POST"])
def test_no_other_path_passes(door: tuple[int, list[Behind]], method: str, path: str) -> None:
    """A path that only comes to a device's by dots or slashes is 404, and nobody behind sees it."""
    port, behind = door
    before = [len(it.seen) for it in behind]
    assert told(port, method, path) in (400, 404)
    assert [len(it.seen) for it in behind] == before, behind[0].seen + behind[1].seen


def test_device_passes(door: tuple[int, list[Behind]]) -> None:
    """A poll goes on at once, and all else of a device by the service, each as it was written."""
    port, (polls, service) = door
    assert told(port, "GET", DEVICE) == 200
    assert polls.seen[-1] == f"GET {DEVICE} HTTP/1.1"
    assert told(port, "POST", f"{DEVICE}/deploymentBase/1/feedback") == 200
    assert service.seen[-1] == f"POST {DEVICE}/deploymentBase/1/feedback HTTP/1.1"
    # whose address it is, whatever he says himself
    assert told(port, "GET", DEVICE, "X-Real-IP: 192.0.2.1\r\n") == 200
    for it in (polls.fields[-1], service.fields[-1]):
        assert [line for line in it if "-ip:" in line.lower()] == [f"X-Real-IP: {HOST}"], it


def test_address_has_so_many_requests(door: tuple[int, list[Behind]]) -> None:
    """One more at the same time, three here, is told 429."""
    port, links = door[0], []
    try:
        for _ in range(3):
            links.append(Link(TLS.wrap_socket(socket.create_connection((HOST, port), 30))))
            links[-1].send(
                f"PUT {DEVICE}/configData HTTP/1.1\r\nHost: a\r\nContent-Length: 9\r\n\r\n"
            )
        eventually("a fourth that is refused", lambda: told(port, "GET", DEVICE) == 429, 5)
    finally:
        for it in links:
            it.close()
    eventually("one that is served", lambda: told(port, "GET", DEVICE) == 200, 20)
