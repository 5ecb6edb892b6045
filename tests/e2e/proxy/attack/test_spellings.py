"""Spellings of a path, methods and fields, as raw bytes: none gets somebody further than his role does."""

import itertools

import pytest
from .stage import Stage, login

pytestmark = [pytest.mark.e2e]
METHODS = (
    "{0}",
    "{1}",
    "GET",
    "HEAD",
    "PUT",
    "PATCH",
    "OPTIONS",
    "CONNECT",
    "TRACE",
    "DELETE",
    "{0}X",
    "GET{0}",
)
FIELDS = (
    "",
    "X-HTTP-Method-Override: POST\r\n",
    "X-Original-URL: {p}\r\nX-Rewrite-URL: {p}\r\n",
    "Upgrade: websocket\r\nConnection: Upgrade\r\nSec-WebSocket-Version: 13\r\nSec-WebSocket-Key: AAAAAAAAAAAAAAAAAAAAAA==\r\n",
    "Connection: close, Authorization\r\n",
    "Proxy-{zoe}",
    "X-Who: zoe\r\nX-Fleet: other\r\n",
    "Upgrade: h2c\r\nHTTP2-Settings: AAMAAABkAAQAAP__\r\nConnection: Upgrade, HTTP2-Settings\r\n",
    "{zoe}",
    "Host: b\r\n",
    "X-Forwarded-For: 127.0.0.1\r\nForwarded: for=127.0.0.1;host=localhost:8081\r\n",
)


def spelt(path: str) -> list[str]:
    """Paths that something in between might take for this one, or for one that is let by."""
    parts = path.strip("/").split("/")
    found = [path, f"/{path}", f"/.{path}", f"/x/..{path}", f"/DEFAULT/..{path}"]
    found += [f"/DEFAULT/{dots}{path}" for dots in ("%2e%2e", "%2E.", ".%2e", "..;", "%252e%252e")]
    found += [f"/DEFAULT/..%2f{path[1:]}", f"/DEFAULT/controller/v1/dev-01/../../../..{path}"]
    found += [
        f"/page/..{path}",
        f"/page/%2e%2e{path}",
        f"/fwdesk/..{path}",
        f"/fwdesk/me/..;{path}",
    ]
    found += [
        f"/fwdesk/me%00{path}",
        f"/fwdesk/me?{path}",
        f"/DEFAULT/?{path}",
        f"/DEFAULT/#{path}",
    ]
    found += [f"/DEFAULT\\..{path}"]
    ends = "/ ? ?x=1 #x ;x ;/../start %00 %2f %20 %09 %0d%0aX:y . /. /.. // /../approve /%2e \\ %3f ?/start #/start &x +"
    found += [f"{path}{it}" for it in ends.split()]
    begins = "http://localhost https://localhost:8443 http://localhost/DEFAULT/.. http://a?/DEFAULT/ http://a#/DEFAULT/ "
    begins += "http://u:p@localhost HTTP://LOCALHOST //localhost http:/ localhost:80 * DEFAULT/ http:///DEFAULT"
    found += [f"{it}{path}" for it in begins.split()]
    for k, part in enumerate(parts):
        code = ord(part[0])
        ways = [part.upper(), part.title(), f"%{code:02x}{part[1:]}", f"%{code:02X}{part[1:]}"]
        ways += [f"{part};a=b", f"./{part}", f"{part}%20", f"%25{code:02x}{part[1:]}"]
        ways += [f"{part}\xa0", f"x/../{part}", f"{part}/"]
        found += ["/" + "/".join([*parts[:k], it, *parts[k + 1 :]]) for it in ways]
    return found


def told(stage: Stage, line: str, fields: str) -> tuple[int, bytes]:
    """What is answered to a first line and fields as they are."""
    try:
        with stage.open(timeout=5) as link:
            link.send(f"{line} HTTP/1.1\r\nHost: localhost\r\n{fields}Content-Length: 0\r\n\r\n")
            status, _, body = link.reply(line.startswith("HEAD"))
            return status, body
    except OSError:
        return 0, b""


@pytest.fixture(scope="session")
def ready(stage: Stage) -> str:
    """The path of a rollout that may be started."""
    return f"/rest/v1/rollouts/{stage.plan('ready', 1)}"


AIMS = {
    "start by an approver": ("ben", "POST", "{ready}/start"),
    "start by a viewer": ("wall", "POST", "{ready}/start"),
    "start by a holder": ("cleo", "POST", "{ready}/start"),
    "approve by a planner": ("emil", "POST", "{ready}/approve"),
    "hold by a planner": ("emil", "POST", "/fwdesk/brake"),
    "look by a planner": ("emil", "GET", "/rest/v1/targets"),
    "look by nobody": (None, "GET", "/rest/v1/targets"),
    "start by nobody": (None, "POST", "{ready}/start"),
}


@pytest.mark.gate
@pytest.mark.parametrize("aim", AIMS)
def test_spelling_gets_nobody_further(quiet: Stage, ready: str, aim: str) -> None:
    """What isn't allowed isn't done, and isn't shown, however it is spelt. The rollout still waits."""
    name, method, form = AIMS[aim]
    path = form.format(ready=ready)
    own = login(name) if name else ""
    ways = [(it, method, "") for it in spelt(path)]
    ways += [
        (path, verb.format(method, method.lower()), field)
        for verb, field in itertools.product(METHODS, FIELDS)
    ]
    wrong = []
    for target, verb, field in ways:
        line = f"{verb} {quiet.base}{target}" if target.startswith("/") else f"{verb} {target}"
        # another's login behind one's own isn't read; alone it is one's own
        if "{zoe}" in field and not name:
            continue
        fields = own + field.format(p=path, zoe=login("zoe"))
        status, body = told(quiet, line, fields)
        # who has a login may ask who he is
        is_look = verb in ("GET", "HEAD") and (
            name in ("ben", "wall", "cleo") or b'"operator":"%b"' % str(name).encode() in body
        )
        if 200 <= status < 300 and not is_look or b"dev-01" in body and not is_look:
            wrong.append((verb, target, field, status, body[:80]))
    assert not wrong, wrong
    assert quiet.look(ready)["status"] == "ready"
    quiet.forget()
