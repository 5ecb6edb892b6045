"""The web UI behind the edge: each file as it is in the folder, once, and again where it changed."""

import hashlib

import pytest
from .stage import ROOT, Stage, login

pytestmark = [pytest.mark.e2e, pytest.mark.gate, pytest.mark.forms("single", "fleets")]
FILES = sorted(it.name for it in (ROOT / "web").iterdir() if it.is_file())


@pytest.mark.parametrize("name", FILES)
def test_file_is_served_once(quiet: Stage, name: str) -> None:
    """A file has the bytes of the folder and an ETag; who has that is told 304, and who has another one gets the file."""
    path = "/page/" + ("" if name == "index.html" else name)
    status, fields, told = quiet.ask("GET", path, login("wall"))
    assert status == 200
    assert (
        hashlib.sha256(told).digest() == hashlib.sha256((ROOT / "web" / name).read_bytes()).digest()
    )
    tag = fields["etag"]
    assert quiet.ask("GET", path, f"{login('wall')}If-None-Match: {tag}\r\n")[0] == 304
    assert quiet.ask("GET", path, f"{login('wall')}If-None-Match: \"other\"\r\n")[0] == 200
    assert fields["content-security-policy"].startswith("default-src 'self'")


def test_no_file_without_a_login(quiet: Stage) -> None:
    """Nobody is shown the page without a login, nor by the machine's own way in."""
    assert quiet.ask("GET", "/page/app.js")[0] == 401
    with quiet.open_near() as link:
        assert link.ask("GET", f"{quiet.near_base}/page/app.js")[0] == 404
