"""The management before a desk that is run: hostile forms and bodies, what isn't served, and a desk that answers wrongly.

What the program itself does is tested by tests/e2e/hawkbit."""

import asyncio
import json
from dataclasses import dataclass

import pytest
from aiohttp.test_utils import TestClient, TestServer

from fwdesk_hawkbit import manage
from fwdesk_hawkbit.calls import Gateway
from fwdesk_hawkbit.desk import Desk, R, Reply
from fwdesk_hawkbit.faults import Fault
from fwdesk_hawkbit.kept import Kept
from fwdesk_hawkbit.sums import Artifacts

MODULE = {"id": 1, "locked": False, "name": "m", "type": "os", "version": "1"}
SET = {"id": 1, "modules": [{"id": 1}], "name": "s", "version": "1"}
TARGET = {
    "attributes": {},
    "controllerId": "w-0",
    "name": "w-0",
    "tags": [],
    "updateStatus": "unknown",
}
ACTION = {"group": 1, "id": 1, "rollout": 1, "status": "running", "target": "w-0"}
ROLLOUT = {"distributionSetId": 1, "id": 1, "name": "r", "status": "running", "totalGroups": 1}
ROLLOUT |= {"targetFilterQuery": "name==*", "totalTargets": 1}
THERE = {
    "softwaremodules": [MODULE],
    "softwaremodules/1": MODULE,
    "softwaremodules/1/artifacts": [],
    "distributionsets": [SET],
    "distributionsets/1": SET,
    "targets": [TARGET],
    "targets/w-0": TARGET,
    "targets/w-0/actions": [ACTION],
    "targets/w-0/actions/1": ACTION,
    "rollouts": [ROLLOUT],
    "rollouts/1": ROLLOUT,
}
TABLE = b"action,controllerid,group,state\n1,w-0,1,running\n"


class Played(Desk):
    """Tells what stands above, refuses to make anything, and notes what it was to make."""

    def __init__(self, how=None):  # pylint: disable=super-init-not-called
        self.how, self.made = how, []

    async def close(self):
        pass

    async def raw(self, method, path, body=None, token=None, query=None, fields=None):
        if method != "GET":
            self.made.append((method, path, body))
        if self.how == "dies":
            raise Fault("desk", "the desk gives no answer")
        if self.how:
            return self.how
        if path == "/desk/v1/rollouts/1/actions":
            return Reply(200, "text/csv", TABLE)
        held = THERE.get(path.removeprefix(f"{R}/")) if method == "GET" else None
        if held is None:
            number = 3 if method == "GET" else 1
            told = {"error": "not_found" if method == "GET" else "bad_request", "number": number}
            return Reply(404 if number == 3 else 400, "application/json", json.dumps(told).encode())
        told = (
            {"content": held, "total": len(held), "size": len(held)}
            if isinstance(held, list)
            else held
        )
        return Reply(200, "application/json", json.dumps(told).encode())


@dataclass
class Told:
    status: int
    body: bytes

    def json(self):
        return json.loads(self.body)


class Management:
    """The management before such a desk."""

    def __init__(self, folder, how=None):
        self.images, self.desk = folder / "images", Played(how)
        self.images.mkdir()

    def __call__(self, method, path, body=None, **fields):
        return asyncio.run(self.ask(method, path, body, fields))

    async def ask(self, method, path, body, fields):
        artifacts = Artifacts(self.images, None)
        gateway = Gateway(self.desk, artifacts, Kept(None), b"k" * 40)
        async with TestClient(TestServer(manage.make(gateway))) as client:
            data = body if body is None or isinstance(body, bytes) else json.dumps(body).encode()
            async with client.request(method, f"{R}/{path}", data=data, headers=fields) as told:
                return Told(told.status, await told.read())


@pytest.fixture
def management(tmp_path):
    return Management(tmp_path)


def is_error(told, status, name):
    """hawkBit's form of an error."""
    assert told.status == status, told
    it = told.json()
    assert it["exceptionClass"] == f"org.eclipse.hawkbit.repository.exception.{name}", it
    assert it["errorCode"].startswith("hawkbit.server.error.") and it["message"], it


FORM = "----boundary"


def form(*parts, end=True):
    """A form's body: each part is a name, a file's name or None, and bytes."""
    made = b""
    for name, filename, data in parts:
        more = f'; filename="{filename}"' if filename is not None else ""
        head = f'--{FORM}\r\nContent-Disposition: form-data; name="{name}"{more}\r\n'
        head += "Content-Type: application/octet-stream\r\n" if more else ""
        made += head.encode() + b"\r\n" + data + b"\r\n"
    return made + (f"--{FORM}--\r\n".encode() if end else b"")


KIND = {"Content-Type": f"multipart/form-data; boundary={FORM}"}


HOSTILE = [
    (b"", KIND),
    (b"no form", KIND),
    (form(("file", "a.swu", b"x")), {"Content-Type": "multipart/form-data"}),
    (form(("file", "a.swu", b"x")), {"Content-Type": "multipart/form-data; boundary="}),
    (form(("file", "a.swu", b"x")), {"Content-Type": "multipart/form-data; boundary=other"}),
    (form(("file", "a.swu", b"x")), {"Content-Type": "application/json"}),
    (form(("file", "a.swu", b"x")), {"Content-Type": f"multipart/mixed; boundary={FORM}"}),
    (form(("file", "a.swu", b"x"), end=False), KIND),
    (form(("file", "a.swu", b"x"), end=False)[:-30], KIND),
    (form(("other", None, b"x")), KIND),
    (form(("file", "a.swu", b"x"), ("file", "b.swu", b"y")), KIND),
    (form(*((f"p{it}", None, b"x") for it in range(20)), ("file", "a.swu", b"x")), KIND),
    (form(("p", None, b"x" * 5000), ("file", "a.swu", b"x")), KIND),
    (form(("file", "../../etc/passwd", b"x")), KIND),
    (form(("file", "..", b"x")), KIND),
    (form(("file", ".hidden", b"x")), KIND),
    (form(("file", "", b"x")), KIND),
    (form(("file", "a b.swu", b"x")), KIND),
    (form(("file", "x" * 200, b"x")), KIND),
    (form(("file", "ä.swu", b"x")), KIND),
    (f"--{FORM}\r\nX: {'y' * 20_000}\r\n\r\nx\r\n--{FORM}--\r\n".encode(), KIND),
    (f"--{FORM}\r\nno header\r\n\r\nx\r\n--{FORM}--\r\n".encode(), KIND),
    (
        f'--{FORM}\r\nContent-Disposition: form-data; name="file"; filename="a.swu"\r\n'
        "Content-Type: multipart/mixed; boundary=b\r\n\r\n--b\r\n\r\nx\r\n--b--\r\n"
        f"--{FORM}--\r\n".encode(),
        KIND,
    ),
    (
        f'--{FORM}\r\nContent-Disposition: form-data; name="file"; filename="a.swu"\r\n'
        f"Content-Encoding: gzip\r\n\r\nx\r\n--{FORM}--\r\n".encode(),
        KIND,
    ),
    (
        f'--{FORM}\r\nContent-Disposition: form-data; name="file"; filename="a.swu"\r\n'
        f"Content-Length: -5\r\n\r\nx\r\n--{FORM}--\r\n".encode(),
        KIND,
    ),
]


@pytest.mark.parametrize("at", range(len(HOSTILE)))
def test_hostile_forms(management, at):
    body, fields = HOSTILE[at]
    told = management("POST", "softwaremodules/1/artifacts", body, **fields)
    assert told.status == 400 and told.json()["errorCode"].startswith("hawkbit."), told
    assert management.desk.made == [] and list(management.images.iterdir()) == []


def test_a_form_that_is_right_reaches_the_desk(management):
    """So that what is refused above isn't refused for another reason."""
    body = form(("filename", None, b"b.swu"), ("file", "a.swu", b"abc"))
    management("POST", "softwaremodules/1/artifacts", body, **KIND)
    assert management.desk.made == [("POST", f"{R}/softwaremodules/1/artifacts", b"abc")]


@pytest.mark.parametrize(
    "body", [b"", b"{", b"5", b"[]", b"[5]", b"null", b'"x"', b"[" * 100_000, b"\xff"]
)
@pytest.mark.parametrize(
    "path",
    [
        "softwaremodules",
        "distributionsets",
        "targets",
        "targettags",
        "rollouts",
        "distributionsets/1/assignedTargets",
    ],
)
def test_hostile_bodies(management, path, body):
    told = management("POST", path, body)
    assert told.status == 400 and told.json()["errorCode"].startswith("hawkbit."), told


WRONG = [None, 5, -1, 1.5, True, "", "x" * 5000, "a\nb", [], ["x"], {}, {"a": "b"}]


@pytest.mark.parametrize("value", WRONG)
@pytest.mark.parametrize(
    "path, row",
    [
        ("softwaremodules", {"name": "w", "type": "os", "version": "1"}),
        ("distributionsets", {"name": "w", "version": "1", "modules": [{"id": 1}]}),
        ("targets", {"controllerId": "w-w", "name": "w", "securityToken": "tok-w-w-w"}),
        ("targettags", {"name": "w", "description": "w"}),
        (
            "rollouts",
            {
                "name": "w",
                "distributionSetId": 1,
                "targetFilterQuery": "id==none-such",
                "amountGroups": 1,
                "groups": None,
                "successCondition": None,
                "errorCondition": None,
                "type": "forced",
            },
        ),
        ("distributionsets/1/assignedTargets", {"id": "none-such", "type": "forced"}),
    ],
)
def test_members_of_the_wrong_kind_are_never_a_fault_of_the_gateway(management, path, row, value):
    for key in row:
        told = management(
            "POST", path, [row | {key: value}] if path != "rollouts" else row | {key: value}
        )
        assert told.status < 500 or told.status == 501, (path, key, value, told)


NOT_SERVED = [
    ("GET", "softwaremoduletypes", "types"),
    ("POST", "distributionsettypes", "types"),
    ("GET", "targettypes/1", "types"),
    ("GET", "targets/a/metadata", "metadata"),
    ("POST", "softwaremodules/1/metadata", "metadata"),
    ("GET", "targetfilters", "follow"),
    ("POST", "targetfilters/1/autoAssignDS", "follow"),
    ("GET", "distributionsettags", "tags"),
    ("GET", "system/configs", "command lines"),
    ("PUT", "system/configs/pollingTime", "command lines"),
    ("GET", "targets/a/autoConfirm", "decides"),
    ("GET", "distributionsets/1/statistics", "counts"),
    ("GET", "distributionsets/1/assignedTargets", "targets?q="),
    ("POST", "rollouts/1/retry", "tag"),
    ("PUT", "softwaremodules/1", "changes"),
    ("PUT", "distributionsets/1", "changes"),
    ("DELETE", "distributionsets/1/assignedSM/1", "deletes"),
    ("PATCH", "targets/a", "served"),
    ("GET", "nothing", "served"),
]


@pytest.mark.parametrize("method, path, word", NOT_SERVED)
def test_what_is_not_served_says_why(management, method, path, word):
    told = management(method, path, {"value": "00:00:05"})
    is_error(told, 501, "OperationNotSupportedException")
    assert word in told.json()["message"]


HOW = {
    "dies": "dies",
    "answers no JSON": Reply(200, "application/json", b"{"),
    "answers another object": Reply(200, "application/json", b"[]"),
    "answers an empty object": Reply(200, "application/json", b"{}"),
    "answers a number": Reply(200, "application/json", b"5"),
    "is stopped": Reply(503, "application/json", b'{"error":"stopped","number":17}'),
    "has lost its database": Reply(500, "application/json", b'{"error":"store","number":16}'),
    "sends a page": Reply(502, "text/html", b"<html>"),
}
LOOKS = ["softwaremodules", "softwaremodules/1", "softwaremodules/1/artifacts", "distributionsets"]
LOOKS += [
    "distributionsets/1",
    "targets",
    "targets?q=name==x",
    "targets/w-0",
    "targets/w-0/actions",
]
LOOKS += [
    "targets/w-0/actions/1",
    "targets/w-0/assignedDS",
    "targettags",
    "rollouts",
    "rollouts/1",
    "actions",
]
ORDERS = [
    ("POST", "softwaremodules", [{"name": "m", "type": "os", "version": "2"}]),
    ("POST", "distributionsets", [{"name": "s", "version": "2", "modules": [{"id": 1}]}]),
    ("POST", "targets", [{"controllerId": "new"}]),
    ("PUT", "targets/w-0", {"name": "x"}),
    ("POST", "distributionsets/1/assignedTargets", [{"id": "w-0"}]),
    ("DELETE", "targets/w-0/actions/1", None),
    ("POST", "rollouts/1/start", None),
]


@pytest.mark.parametrize("path", LOOKS)
def test_what_is_looked_at_is_there(management, path):
    """So that what is 503 below isn't so for another reason."""
    assert management("GET", path).status in (200, 204)


@pytest.mark.parametrize("how", HOW)
@pytest.mark.parametrize("method, path, body", [*(("GET", it, None) for it in LOOKS), *ORDERS])
def test_a_desk_that_dies_or_answers_wrongly(tmp_path, how, method, path, body):
    told = Management(tmp_path, HOW[how])(method, path, body)
    assert told.status in (500, 503) and b"Traceback" not in told.body, told
    assert told.json()["errorCode"].startswith("hawkbit."), told
