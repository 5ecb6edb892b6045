"""The audit: a line is what HAProxy says of a request, whatever somebody calls himself."""

import base64
import re

import pytest
from harness.processes import eventually
from .stage import Stage, login

pytestmark = [pytest.mark.e2e, pytest.mark.gate]
# what a name may have in it that a reader of the journal, or his terminal, would take for something else
NAMES = {
    "line": b'x\naudit 200 192.0.2.9 "zoe" POST /rest/v1/rollouts/1/start\nz',
    "return": b"x\raudit 200 192.0.2.9",
    "escape": b"x\x1b[31mred\x1b]0;title\x07",
    "c1": b"x\xc2\x9b31m\xc2\x85next",
    "bidi": "x\u202egnp".encode(),
    "quote": b'x" POST /rest/v1/rollouts/1/start "',
    "latin": b"x\x9b31m",
}
LINE = re.compile(r'audit \d{3} \S+ ("(?:[^"\\]|\\.)*"|-) [A-Z]+ \S+( fleet=\S+)?')


@pytest.mark.parametrize("kind", NAMES)
@pytest.mark.parametrize("method", ["GET", "POST"])
def test_name_forges_no_line(quiet: Stage, kind: str, method: str) -> None:
    """A wrong login is one line of printable ASCII, of the form of every line."""
    before, whole = len(quiet.audit()), quiet.edge.log.stat().st_size
    told = base64.b64encode(NAMES[kind] + b":wrong").decode()
    status, _, _ = quiet.ask(
        method,
        "/rest/v1/targets",
        f"Authorization: Basic {told}\r\n",
        b"" if method == "POST" else None,
    )
    assert status == 401
    eventually("the line", lambda: len(quiet.audit()) > before)
    written = quiet.edge.log.read_bytes()[whole:]
    assert written.count(b"\n") == 1, written
    assert re.fullmatch(rb"[ -~]*\n", written), written
    assert LINE.fullmatch(written.decode().rstrip("\n")), written
    assert written.startswith(b"audit 401 "), written


def test_line_tells_an_order(quiet: Stage) -> None:
    """What was ordered, and refused, is told with the name of the login."""
    before = len(quiet.audit())
    quiet.ask("POST", "/rest/v1/rollouts/77/start", login("zoe"), b"")
    quiet.ask("POST", "/rest/v1/rollouts/77/start", login("wall"), b"")
    eventually("both lines", lambda: len(quiet.audit()) >= before + 2)
    # each is written once its reply was sent, so the later one may come first
    refused, unknown = sorted(quiet.audit()[before:])
    assert re.match(r'audit 404 127\.0\.0\.1 "zoe" POST \S*/rest/v1/rollouts/77/start', unknown)
    assert re.match(r'audit 403 127\.0\.0\.1 "wall" POST \S*/rest/v1/rollouts/77/start', refused)
