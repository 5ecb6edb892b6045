"""What HAProxy refuses or loses itself is told as JSON, in each form of the edge: clients read one form of a refusal."""

import json
import tempfile
from collections.abc import Iterator
from pathlib import Path
from typing import Any

import pytest
from harness import ROOT, http_client
from harness.edge import FORMS, Edge, missing
from harness.processes import free_port
from harness.stand_in import StandIn

pytestmark = [
    pytest.mark.e2e,
    pytest.mark.skipif(bool(missing()), reason=f"there is no {missing()}"),
]
TARGETS = "/rest/v1/targets"
REPORT = "/DEFAULT/controller/v1/dev-1/deploymentBase/1/feedback"


class Mute(StandIn):
    """Reads each request, and ends the connection without a reply."""

    def answer(self, link, request):
        return False


@pytest.fixture(scope="module", params=sorted(FORMS))
def before(request: pytest.FixtureRequest) -> Iterator[Edge]:
    """A form of the edge before a desk that answers nothing."""
    behind = free_port()
    server = Mute(behind)
    # the paths of sockets are short
    with tempfile.TemporaryDirectory(prefix="fwdesk-", dir="/tmp") as folder:
        names = {"FWDESK_HOSTS": "127.0.0.1"}
        made = Edge(Path(folder), behind, form=request.param, more=names)
        try:
            yield made.start()
        finally:
            made.end()
            server.end()


def told(before: Edge, method: str, path: str, body: Any = None, **fields: str) -> tuple[int, Any]:
    """The status of a reply, and its object."""
    named = {key.replace("_", "-"): value for key, value in fields.items()}
    trusted = http_client.trust_all()
    reply = http_client.ask(
        method, before.base + path, body, named, port=before.port, trusted=trusted
    )
    assert reply.fields["content-type"] == "application/json", reply
    return reply.status, json.loads(reply.body)


def login(before: Edge) -> dict[str, str]:
    return http_client.login("anna", before.password)


def test_login_is_asked_for(before: Edge) -> None:
    assert told(before, "GET", TARGETS) == (401, {"error": "unauthorized"})


def test_name_that_is_not_served(before: Edge) -> None:
    """Of many fleets a name that is no fleet's is told as one that is another's."""
    wanted = (403, "forbidden") if before.form == "fleets" else (421, "host")
    status, said = told(before, "GET", TARGETS, Host="evil.example", **login(before))
    assert (status, said) == (wanted[0], {"error": wanted[1]})


def test_order_of_another_site(before: Edge) -> None:
    fields = {"Sec_Fetch_Site": "cross-site", **login(before)}
    assert told(before, "POST", TARGETS, "[]", **fields) == (403, {"error": "forbidden"})


def test_report_that_is_too_long(before: Edge) -> None:
    assert told(before, "POST", REPORT, "x" * 16385) == (413, {"error": "too_large"})


def test_reply_that_is_lost(before: Edge) -> None:
    assert told(before, "GET", TARGETS, **login(before)) == (502, {"error": "lost"})


def test_both_proxies_say_the_same() -> None:
    """The edge passes on what the HAProxy behind it says: each has the list of words."""
    parts = (ROOT / "deploy/haproxy/edge/10-global.cfg", ROOT / "deploy/haproxy/desks/10-desks.cfg")
    lists = [
        [
            line
            for line in it.read_text(encoding="utf-8").partition("\nfrontend ")[0].splitlines()
            if line.startswith("    http-error ")
        ]
        for it in parts
    ]
    assert lists[0] and lists[0] == lists[1]
