"""The way by which fwdesk-hawkbit reads the desk (deploy/haproxy/edge/55-hawkbit.cfg): what it lets through, and that every
other method and path is refused there. A stand-in answers in the desk's place and notes what comes."""

import contextlib
import json
import socket
import time

import pytest

from . import stage
from .stage import Between, Gateway, HAProxy, ask

METHODS = ("GET", "HEAD", "POST", "PUT", "PATCH", "DELETE", "OPTIONS", "TRACE", "get")
# the desk's calls that the service needs, as docs/openapi.json names them
LOOKS = {
    "/rest/v1/targets/{controllerId}",
    "/rest/v1/targets/{controllerId}/actions/{action}",
    "/rest/v1/rollouts/{rollout}",
    "/rest/v1/distributionsets/{set}",
    "/rest/v1/softwaremodules/{module}",
    "/rest/v1/softwaremodules/{module}/artifacts",
    "/rest/v1/softwaremodules/{module}/artifacts/{artifact}/download",
}
OTHERS = (
    *(
        "/",
        "/page/",
        "/fwdesk/me",
        "/fwdesk/brake",
        "/fwdesk/audit",
        "/images/x",
        "//rest/v1/rollouts/1",
    ),
    *(
        "/rest/v1/targets/",
        "/rest/v1/targets/a/b",
        "/rest/v1/targets/a%2F..",
        "/rest/v1/rollouts/0",
    ),
    *(
        "/rest/v1/targets/a/actions/1/",
        "/rest/v1/rollouts/1/../../targets",
        "/rest/v1/rollouts/1%00",
    ),
    *("/REST/v1/rollouts/1", "/rest/v1/rollouts/11111111111", "/fleets/acme/rest/v1/rollouts/1"),
)
NAMES = {"{controllerId}": "acme-1", "{tag}": "lab", "{filename}": "a.swu"}
CALLS = json.loads((stage.ROOT / "docs/openapi.json").read_text(encoding="utf-8"))["paths"]


def place(call):
    """A call of the description with names and numbers in it."""
    parts = [NAMES.get(it, "1" if it.startswith("{") else it) for it in call.split("/")]
    return "/".join(parts)


class Ways:
    """Both HAProxys of one form, before a stand-in for the desk."""

    def __init__(self, folder, form="single", more=None):
        self.between = Between(0, rule=lambda _: (200, "application/json", b"{}"))
        fleets = {it: self.between.port for it in ("acme", "other")} if form == "fleets" else None
        self.haproxy = HAProxy(folder, self.between.port, more, form, fleets)
        self.way = self.haproxy.reads

    def asks(self, method, path, body=None, **fields):
        """The status, and what the desk was asked."""
        self.between.seen.clear()
        told = ask(
            self.way, method, path, body, {k.replace("_", "-"): v for k, v in fields.items()}
        )
        return told.status, list(self.between.seen)

    def end(self):
        self.haproxy.edge.end()
        self.between.close()


@pytest.fixture(scope="module")
def ways(tmp_path_factory):
    made = Ways(tmp_path_factory.mktemp("ways"))
    yield made
    made.end()


@pytest.fixture(scope="module")
def registering(tmp_path_factory):
    more = {"FWDESK_HAWKBIT_REGISTERS": "1"}
    made = Ways(tmp_path_factory.mktemp("registering"), more=more)
    yield made
    made.end()


@pytest.mark.parametrize("call", CALLS)
def test_of_the_desks_calls_seven_looks_pass(ways, registering, call):
    for it in (ways, registering):
        for method in METHODS:
            passes = method == "GET" and call in LOOKS
            seen = [f"GET {place(call)}"] if passes else []
            wanted = (200, seen) if passes else (403, [])
            assert it.asks(method, place(call)) == wanted, (method, call)
        assert it.asks("DELETE", place(call), b"x" * 40_000) == (403, []), "with a body"


@pytest.mark.parametrize("path", OTHERS)
def test_no_other_path_passes(ways, registering, path):
    for it in (ways, registering):
        assert {it.asks(method, path)[0] for method in METHODS} <= {400, 403}
        assert it.asks("GET", path)[1] == []


def test_a_look_asks_for_a_page_alone_and_has_no_body(ways):
    path = "/rest/v1/softwaremodules/1/artifacts"
    page = f"{path}?offset=0&limit=500"
    assert ways.asks("GET", page) == (200, [f"GET {page}"])
    for query in ("q=name==x", "limit=5", "offset=0&limit=500&q=x", "force=true"):
        assert ways.asks("GET", f"{path}?{query}") == (403, []), query
    assert ways.asks("GET", path, b"body") == (403, [])
    chunked = b"GET %s HTTP/1.1\r\nHost: x\r\nTransfer-Encoding: chunked\r\n\r\n" % path.encode()
    assert b" 403 " in send(ways, chunked, b"1\r\nx\r\n0\r\n\r\n", 1)
    assert ways.between.seen == []


def send(ways, data, rest=b"", seconds=0):
    """What is answered to these bytes, and to some more that come later."""
    with socket.socket(socket.AF_UNIX) as it:
        it.settimeout(20)
        it.connect(str(ways.way))
        it.sendall(data)
        time.sleep(seconds)
        with contextlib.suppress(BrokenPipeError):
            it.sendall(rest)
        return it.recv(4096)


TARGET = {"controllerId": "new-1", "name": "new-1", "tags": [], "securityToken": "0a" * 16}
WRONG = (
    {"name": "another"},
    {"controllerId": "a b", "name": "a b"},
    {"controllerId": "x" * 65, "name": "x" * 65},
    {"tags": ["lab"]},
    {"securityToken": "short"},
    {"securityToken": "Z" * 32},
    {"more": 1},
)


def test_a_device_registers_where_that_is_switched_on(ways, registering):
    body = json.dumps([TARGET]).encode()
    assert ways.asks("POST", "/rest/v1/targets", body) == (403, [])
    assert registering.asks("POST", "/rest/v1/targets", body) == (200, ["POST /rest/v1/targets"])
    for path in ("/rest/v1/targets?q=x", "/rest/v1/rollouts", "/desk/v1/import"):
        assert registering.asks("POST", path, body) == (403, []), path
    assert registering.asks("PUT", "/rest/v1/targets", body) == (403, [])
    for it in WRONG:
        told = registering.asks("POST", "/rest/v1/targets", json.dumps([TARGET | it]).encode())
        assert told == (403, []), it
    for rows in ([TARGET, TARGET], [], TARGET, [[TARGET]]):
        told = registering.asks("POST", "/rest/v1/targets", json.dumps(rows).encode())
        assert told == (403, []), rows


def test_a_registration_is_here_whole_before_it_passes(registering):
    """Not one that goes on behind what was looked at: by a length that isn't there yet, or by chunks."""
    body, head = json.dumps([TARGET]).encode(), b"POST /rest/v1/targets HTTP/1.1\r\nHost: x\r\n"
    registering.between.seen.clear()
    more = b"Content-Length: %d\r\n\r\n" % (len(body) + 20)
    # the rest comes when HAProxy has waited for it
    assert b" 408 " in send(registering, head + more + body, b" " * 20, 6)
    chunks = b"Transfer-Encoding: chunked\r\n\r\n%x\r\n%s\r\n0\r\n\r\n" % (len(body), body)
    assert b" 403 " in send(registering, head + chunks)
    assert registering.between.seen == []


def test_a_write_behind_another_one_is_refused(registering):
    """By the HAProxy before the desk, of whichever way the other one came."""
    look, body = "/rest/v1/targets/new-1", json.dumps([TARGET]).encode()

    def written():
        told = ask(registering.way, "GET", look, fields={"X-Fwdesk-Targets": "asked"})
        return told.fields["x-fwdesk-targets"]

    post = lambda seen: registering.asks("POST", "/rest/v1/targets", body, X_Fwdesk_Targets=seen)
    seen = written()
    assert post(seen) == (200, ["POST /rest/v1/targets"])
    assert post(seen) == (412, []), "the one before was a write too"
    for path in ("/rest/v1/targets", "/desk/v1/import"):
        seen = written()
        assert ask(registering.haproxy.port, "POST", path, b"[]").status == 200
        assert post(seen) == (412, []), path
    seen = written()
    assert ask(registering.haproxy.port, "GET", "/rest/v1/targets").status == 200
    assert ask(registering.haproxy.port, "POST", "/rest/v1/rollouts", b"{}").status == 200
    assert post(seen)[0] == 200
    for wrong in ("", "x", "0", f"{seen}0"):
        assert post(wrong) == (412, []), wrong
    told = ask(registering.way, "GET", look)
    assert "x-fwdesk-targets" not in told.fields


def test_the_service_alone_can_not_switch_registration_on(ways, folder, processes):
    """With --register and without the proxy's switch a device is told to ask later, and no target is made."""
    for name in ("key", "token"):
        (folder / name).write_text(name[0] * 40)
    words = ["--firmware", str(folder / "images"), "--key", str(folder / "key"), "--register"]
    words += ["--gateway-token", str(folder / "token"), "--reads", str(ways.way)]
    door = Gateway(processes, folder / "door", "devices", ways.between.port, *words)
    nobody = (404, "application/json", b'{"error":"not_found","number":3}')
    ways.between.rule, usual = lambda _: nobody, ways.between.rule
    try:
        ways.between.seen.clear()
        told = door.device("new-1", "GET", Authorization=f"GatewayToken {'t' * 40}")
        assert told.status == 503 and told.fields["retry-after"]
        assert ways.between.seen == ["GET /rest/v1/targets/new-1"]
    finally:
        ways.between.rule = usual


def test_each_refusal_and_each_registration_is_in_the_audit(ways, registering):
    ways.asks("DELETE", "/rest/v1/targets/a/actions/1")
    ways.asks("GET", "/rest/v1/rollouts")
    ways.asks("GET", "/rest/v1/rollouts/77")
    registering.asks("POST", "/rest/v1/targets", json.dumps([TARGET]).encode())
    refused, made = ways.haproxy.edge.audit(), registering.haproxy.edge.audit()
    assert 'audit 403 unix "fwdesk-hawkbit" DELETE /rest/v1/targets/a/actions/1' in refused
    assert 'audit 403 unix "fwdesk-hawkbit" GET /rest/v1/rollouts' in refused
    assert not any("/rollouts/77" in it for it in refused)
    assert 'audit 200 unix "fwdesk-hawkbit" POST /rest/v1/targets' in made


def test_of_many_fleets_the_device_says_which(tmp_path_factory):
    # (HAProxy takes no path of a socket of over 97 bytes)
    ways = Ways(tmp_path_factory.mktemp("w"), "fleets")
    try:
        look = "/rest/v1/rollouts/1"
        assert ways.asks("GET", look, X_Fwdesk_Device="acme-7") == (200, [f"GET {look}"])
        told = ask(ways.way, "GET", look, fields={"X-Fwdesk-Device": "other-7"})
        assert told.fields["x-fleet"] == "other"
        told = ask(ways.way, "GET", f"/fleets/acme{look}", fields={"X-Fleet": "other"})
        assert told.fields["x-fleet"] == "acme"
        for fields in ({}, {"X_Fwdesk_Device": "nobody-1"}, {"X_Fleet": "acme"}):
            assert ways.asks("GET", look, **fields) == (404, []), fields
        assert ways.asks("DELETE", f"/fleets/acme{look}") == (403, [])
    finally:
        ways.end()
