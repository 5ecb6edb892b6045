"""Which devices a filter has by the console, and by the desk: the same, for each filter, and the same texts are none."""
import contextlib
import json
from pathlib import Path
from urllib.parse import quote

import pytest
from harness import http_client
from harness.filters import Target, sample
from harness.processes import eventually

from .environment import Environment

TARGETS, TEXTS = sample(200)


@pytest.fixture(scope="module")
def hostile(program, tmp_path_factory):
    made = Environment(tmp_path_factory.mktemp("hostile"))
    try:
        fill(made)
        yield made
    finally:
        made.end()


def fill(env: Environment) -> None:
    """All targets with their attributes, until the console has counted them so."""
    env.api("/rest/v1/targets", "POST", [as_row(it) for it in TARGETS])
    for it in TARGETS:
        if it.attributes:
            tell_attributes(env, it)
    # an operator's order on a device has all of them counted soon, however long a count takes
    for method in ("POST", "DELETE"):
        env.api(f"/rest/v1/targets/{TARGETS[0].controller}/tags/counted-again", method)
    eventually("each attribute is counted", lambda: attributes_counted(env), 120)


def as_row(it: Target) -> dict[str, object]:
    return {
        "controllerId": it.controller,
        "name": it.name,
        "securityToken": token_of(it),
        "tags": list(it.tags),
    }


def token_of(it: Target) -> str:
    return f"token-{it.controller}"[:64].ljust(8, "x")


def tell_attributes(env: Environment, it: Target) -> None:
    path = f"/DEFAULT/controller/v1/{it.controller}/configData"
    fields = {"Authorization": f"TargetToken {token_of(it)}"}
    body = json.dumps({"data": it.attributes})
    assert env.ask(path, "PUT", body, None, fields)[0] == 200


def attributes_counted(env: Environment) -> bool:
    status, _, body = env.ask("/fwdesk/devices?limit=500")
    wanted = {it.controller: (it.attributes, sorted(it.tags)) for it in TARGETS}
    found = json.loads(body)["content"] if status == 200 else []
    return {it["controllerId"]: (it["attributes"], it["tags"]) for it in found} == wanted


def found_at(socket: Path, path: str) -> dict[str, list[str] | None]:
    """What each text finds, by a socket that asks for no login, since that takes a while: ids, or None where it is no filter."""
    found = {}
    with contextlib.closing(http_client.connect(socket)) as link:
        for text in TEXTS:
            reply = http_client.exchange(link, "GET", f"{path}?q={quote(text, safe='')}&limit=500")
            assert reply.status in (200, 400), (text, reply)
            ids = [it["controllerId"] for it in reply.json().get("content", ())]
            found[text] = sorted(ids) if reply.status == 200 else None
    return found


def test_the_console_finds_what_the_desk_finds(hostile):
    expected = found_at(hostile.run / "haproxy/fwdesk-looks.sock", "/rest/v1/targets")
    # the sample is worth something: texts that are none, and filters that tell targets apart
    assert sum(it is None for it in expected.values()) > 10
    assert sum(it is not None and 0 < len(it) < len(TARGETS) for it in expected.values()) > 50
    assert found_at(hostile.run / "fwdesk-console/http.sock", "/fwdesk/devices") == expected
