"""nginx before HAProxy: the page's own orders pass both, and another site's pass neither."""

import shutil
import socket
from collections.abc import Iterator

import pytest
from harness.nginx import write_frame
from harness.processes import HOST, Processes, eventually, free_port, listens, with_places
from harness.tls import hashed
from .stage import PASSWORD, ROOT, TLS, Link, Stage, login, token

pytestmark = [
    pytest.mark.e2e,
    pytest.mark.gate,
    pytest.mark.forms("single"),
    pytest.mark.skipif(not shutil.which("nginx"), reason="there is no nginx"),
]
ORDER = "/rest/v1/rollouts/77/pause"


@pytest.fixture(scope="module")
def front(stage: Stage, tmp_path_factory: pytest.TempPathFactory) -> Iterator[int]:
    """nginx with fwdesk.conf before the machine's own way in, as docs/PROXIES.md has it, by its port."""
    folder, port = tmp_path_factory.mktemp("front"), free_port()
    (folder / "operators").write_text(f"zoe:{hashed(PASSWORD)}\n")
    text = with_places(
        (ROOT / "deploy/nginx/fwdesk.conf").read_text(encoding="utf-8"),
        {
            "listen 8443 ssl": f"listen {HOST}:{port} ssl",
            "server 127.0.0.1:8080;": f"server unix:{stage.edge.local};",
            "/etc/fwdesk/operators": f"{folder}/operators",
            "/etc/fwdesk/server": f"{stage.folder}/server",
            "/usr/share/fwdesk/page": f"{ROOT}/web",
            "syslog:server=unix:/dev/log,nohostname": f"{folder}/audit",
        },
    )
    (folder / "front.conf").write_text(text)
    processes = Processes(folder)
    child = processes.start("nginx", write_frame(folder, folder / "front.conf"))
    eventually("nginx", lambda: listens(port), child=child)
    yield port
    processes.end_all()


def told(port: int, method: str, path: str, fields: str) -> int:
    """The status of a request through nginx."""
    with Link(TLS.wrap_socket(socket.create_connection((HOST, port), 60))) as link:
        return link.ask(method, path, fields, b"" if method == "POST" else None)[0]


@pytest.mark.parametrize("site", ["", "Sec-Fetch-Site: same-origin\r\n"])
def test_own_order_passes_both(quiet: Stage, front: int, site: str) -> None:
    """The page's order says where it comes from by the name that the browser has, which HAProxy isn't asked by."""
    own = f"Host: desk.example\r\nOrigin: https://desk.example\r\n{site}{login('zoe')}"
    assert told(front, "POST", ORDER, own) not in (401, 403, 502)
    assert told(front, "GET", "/rest/v1/targets", own) == 200


@pytest.mark.parametrize("field", ["Origin: https://evil.example", "Sec-Fetch-Site: cross-site"])
def test_foreign_order_passes_neither(quiet: Stage, front: int, field: str) -> None:
    """Another site's order is refused, with the login that the browser adds."""
    fields = f"Host: desk.example\r\n{field}\r\n{login('zoe')}"
    assert told(front, "POST", ORDER, fields) == 403


def test_device_passes_both(quiet: Stage, front: int) -> None:
    """A device is served with its token."""
    path = "/DEFAULT/controller/v1/dev-01"
    assert told(front, "GET", path, token(1)) == 200
