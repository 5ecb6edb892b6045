"""The management half: what a pipeline written for hawkBit calls, HAProxy with its logins before it, and the program behind."""

import re
import socket

import pytest

from . import stage
from .stage import HOST, R, Between, Gateway, HAProxy, ask, payload, stub, sums_of

KEY = b"k" * 40
FORM = "----boundary"


def form(*parts, end=True):
    """A form's body: each part is a name, a file's name or None, and bytes."""
    made = b""
    for name, filename, data in parts:
        more = f'; filename="{filename}"' if filename is not None else ""
        head = f'--{FORM}\r\nContent-Disposition: form-data; name="{name}"{more}\r\n'
        head += "Content-Type: application/octet-stream\r\n" if more else ""
        made += head.encode() + b"\r\n" + data + b"\r\n"
    return made + (f"--{FORM}--\r\n".encode() if end else b"")


KIND = {"Content-Type": f"multipart/form-data; boundary={FORM}"}


class Environment:
    def __init__(self, folder, processes, desk):
        self.folder, self.processes, self.desk, self.serial = folder, processes, desk, 0
        self.images = folder / "images"
        (folder / "key").write_bytes(KEY)
        self.haproxy = HAProxy(folder, desk.port)
        # the desk's one connection is HAProxy's
        desk.way = self.haproxy.port
        self.between = Between(desk.way)
        self.gateway = self.start("manage")
        self.hiding = self.start("hiding", "--hide")
        self.devices = Gateway(processes, folder / "devices", "devices", desk.way, *self.own())

    def own(self):
        return ["--firmware", str(self.images), "--key", str(self.folder / "key")]

    def start(self, name, *more, mode="manage", port=None):
        words = [*self.own(), "--kept", str(self.folder / name), *more]
        return Gateway(self.processes, self.folder / name, mode, port or self.between.port, *words)

    def __call__(self, method, path, body=None, gateway=None, may="look,steer", **fields):
        fields = {"X-Fwdesk-May": may} | {k.replace("_", "-"): v for k, v in fields.items()}
        return ask((gateway or self.gateway).port, method, f"{R}/{path}", body, fields)

    def made(self, method, path, body=None, status=(200, 201, 204), **more):
        told = self(method, path, body, **more)
        assert told.status in status, f"{method} {path}: {told.status} {told.body[:300]!r}"
        return told.json() if told.body else None

    def name(self):
        self.serial += 1
        return f"n{self.serial}"

    def module(self, name=None):
        row = {"name": name or self.name(), "type": "os", "version": "1.0"}
        return self.made("POST", "softwaremodules", [row])[0]["id"]

    def bundle(self, *files):
        """A set of one module with these files, or with none."""
        module = self.module()
        for name, data in files:
            self.upload(module, name, data)
        row = {"name": self.name(), "version": "1", "modules": [{"id": module}]}
        return self.made("POST", "distributionsets", [row])[0]["id"]

    def upload(self, module, name, data, status=(201,), query="", **told):
        parts = [(key, None, it.encode()) for key, it in told.items()]
        body = form(*parts, ("file", name, data))
        return self.made("POST", f"softwaremodules/{module}/artifacts{query}", body, status, **KIND)

    def targets(self, count=1, name=None):
        name = name or self.name()
        ids = [f"{name}-{it}" for it in range(count)]
        self.made("POST", "targets", [{"controllerId": it} for it in ids])
        return ids

    def assign(self, bundle, *who, gateway=None, status=(200,), **more):
        rows = [{"id": it} | more for it in who]
        return self.made(
            "POST", f"distributionsets/{bundle}/assignedTargets", rows, status, gateway=gateway
        )

    def rollouts_of(self, bundle):
        held = self.desk.ask("GET", "/rollouts?limit=500")["content"]
        return [it for it in held if it["distributionSetId"] == bundle]

    def report(self, who, action, execution, finished="none", *details, which="deploymentBase"):
        status = {"execution": execution, "result": {"finished": finished}, "details": details}
        token = self.made("GET", f"targets/{who}")["securityToken"]
        told = self.devices(
            "POST",
            f"{stage.B}/{who}/{which}/{action}/feedback",
            {"status": status},
            Authorization=f"TargetToken {token}",
        )
        assert told.status == 200, told


def is_error(told, status, name):
    """hawkBit's form of an error."""
    assert told.status == status, told
    it = told.json()
    assert it["exceptionClass"] == f"org.eclipse.hawkbit.repository.exception.{name}", it
    assert it["errorCode"].startswith("hawkbit.server.error.") and it["message"], it


# --- what a client project's own tests do: firmware in, a target, an assignment, its end


def test_a_pipeline_from_the_file_to_the_report(env):
    data = payload("pipeline", 5000)
    module = env.module()
    made = env.upload(module, "pump-1.0.swu", data, **{"sha1sum": sums_of(data)["sha1"]})
    assert made["hashes"] == sums_of(data) and made["size"] == 5000
    assert made["providedFilename"] == "pump-1.0.swu"
    place = f"softwaremodules/{module}/artifacts"
    (listed,) = env.made("GET", place)
    assert listed == made == env.made("GET", f"{place}/{made['id']}")
    assert env("GET", f"{place}/{made['id']}/download").body == data
    row = {"name": env.name(), "version": "1.0", "modules": [{"id": module}], "type": "os"}
    (bundle,) = env.made("POST", "distributionsets", [row])
    assert bundle["complete"] and [it["id"] for it in bundle["modules"]] == [module]
    assert env.made("GET", f"softwaremodules/{module}")["locked"] is True
    (who,) = env.targets()
    told = env.assign(bundle["id"], who)
    assert (told["assigned"], told["alreadyAssigned"], told["total"]) == (1, 0, 1)
    action = told["assignedActions"][0]["id"]
    at = env.made("GET", f"targets/{who}/actions/{action}")
    assert (at["status"], at["detailStatus"], at["forceType"]) == ("pending", "running", "forced")
    assert env.made("GET", f"targets/{who}")["updateStatus"] == "pending"
    assert env.made("GET", f"targets/{who}/assignedDS")["id"] == bundle["id"]
    assert env("GET", f"targets/{who}/installedDS").status == 204
    env.report(who, action, "proceeding", "none", "half of it")
    env.report(who, action, "closed", "success", "done")
    at = env.made("GET", f"targets/{who}/actions/{action}")
    assert (at["status"], at["detailStatus"]) == ("finished", "finished")
    notes = env.made("GET", f"targets/{who}/actions/{action}/status?sort=id:DESC")["content"]
    assert [(it["type"], it["messages"][-1]) for it in notes[:2]] == [
        ("finished", "done"),
        ("running", "half of it"),
    ]
    assert env.made("GET", f"targets/{who}")["updateStatus"] == "in_sync"
    assert env.made("GET", f"targets/{who}/installedDS")["id"] == bundle["id"]
    again = env.assign(bundle["id"], who)
    assert (again["assigned"], again["alreadyAssigned"]) == (0, 1)
    assert len(env.rollouts_of(bundle["id"])) == 1


def test_a_failure(env):
    bundle, (who,) = env.bundle(), env.targets()
    action = env.assign(bundle, who)["assignedActions"][0]["id"]
    env.report(who, action, "closed", "failure", "no room")
    notes = env.made("GET", f"targets/{who}/actions/{action}/status?sort=id:DESC")["content"]
    assert (notes[0]["type"], notes[0]["messages"]) == ("error", ["no room"])
    assert env.made("GET", f"targets/{who}")["updateStatus"] == "error"
    assert env("GET", f"targets/{who}/assignedDS").status == 204
    assert env.assign(bundle, who)["assigned"] == 1, "what failed may be assigned again"


def test_a_cancel_by_force(env):
    bundle, (who,) = env.bundle(), env.targets()
    action = env.assign(bundle, who)["assignedActions"][0]["id"]
    place = f"targets/{who}/actions/{action}"
    is_error(env("DELETE", f"{place}?force=true"), 405, "ForceQuitActionNotAllowedException")
    assert env("DELETE", place).status == 204
    it = env.made("GET", place)
    assert (it["type"], it["status"], it["detailStatus"]) == ("cancel", "pending", "canceling")
    is_error(env("DELETE", place), 405, "CancelActionNotAllowedException")
    assert env("DELETE", f"{place}?force=true").status == 204
    assert env.made("GET", place)["detailStatus"] == "canceled"
    is_error(env("DELETE", place), 405, "CancelActionNotAllowedException")


def test_a_cancel_that_the_device_rejects(env):
    bundle, (who,) = env.bundle(), env.targets()
    action = env.assign(bundle, who)["assignedActions"][0]["id"]
    assert env("DELETE", f"targets/{who}/actions/{action}").status == 204
    env.report(who, action, "rejected", which="cancelAction")
    notes = env.made("GET", f"targets/{who}/actions/{action}/status")["content"]
    assert [it["type"] for it in notes] == ["running", "cancel_rejected"]
    assert env.made("GET", f"targets/{who}/actions/{action}")["detailStatus"] == "running"


def test_a_newer_assignment_asks_the_older_back(env):
    old, new, (who,) = env.bundle(), env.bundle(), env.targets()
    first = env.assign(old, who)["assignedActions"][0]["id"]
    second = env.assign(new, who)["assignedActions"][0]["id"]
    held = env.made("GET", f"targets/{who}/actions?sort=id:ASC")["content"]
    assert [(it["id"], it["detailStatus"]) for it in held] == [
        (first, "canceling"),
        (second, "running"),
    ]
    assert env.made("GET", f"targets/{who}/assignedDS")["id"] == new


def test_an_assignment_by_the_target(env):
    bundle, (who,) = env.bundle(), env.targets()
    told = env.made("POST", f"targets/{who}/assignedDS", {"id": bundle, "type": "forced"})
    assert told["assigned"] == 1
    is_error(
        env("POST", f"targets/{who}/assignedDS", [{"id": 1}, {"id": 2}]),
        501,
        "OperationNotSupportedException",
    )
    is_error(env("POST", f"targets/{who}/assignedDS", {"id": 999}), 404, "EntityNotFoundException")


def test_kinds_are_for_those_who_come_by_the_gateway(env):
    bundle, (who,) = env.bundle(("a.swu", b"kinds")), env.targets()
    is_error(
        env("POST", f"distributionsets/{bundle}/assignedTargets", [{"id": who, "type": "soft"}]),
        501,
        "OperationNotSupportedException",
    )
    assert env.rollouts_of(bundle) == []
    token = env.made("GET", f"targets/{who}")["securityToken"]
    fields = {"Authorization": f"TargetToken {token}"}
    put = env.devices("PUT", f"{stage.B}/{who}/configData", {"data": {"os": "x"}}, **fields)
    assert put.status == 200
    assert env.made("GET", f"targets/{who}/attributes") == {"os": "x"}
    for kind, ways in (("soft", ("attempt", "attempt")), ("downloadonly", ("forced", "skip"))):
        bundle = env.bundle((f"{kind}.swu", kind.encode()))
        action = env.assign(bundle, who, type=kind)["assignedActions"][0]["id"]
        assert env.made("GET", f"targets/{who}/actions/{action}")["forceType"] == kind
        if kind == "soft":
            told = env.devices("GET", f"{stage.B}/{who}/deploymentBase/{action}", **fields)
            it = told.json()["deployment"]
            assert (it["download"], it["update"]) == ways
    plan = {"name": env.name(), "distributionSetId": bundle, "targetFilterQuery": f"id=={who}"}
    made = env.made("POST", "rollouts", plan | {"type": "soft", "amountGroups": 1})
    assert (made["type"], made["totalTargets"]) == ("soft", 1)


@pytest.mark.parametrize(
    "more",
    [
        {"maintenanceWindow": {"schedule": "0 0 0 1 1 ? 2030", "duration": "00:01:00"}},
        {"weight": 500},
        {"type": "timeforced", "forcetime": 5},
        {"type": "timeforced"},
        {"confirmationRequired": True},
        {"type": ["forced"]},
    ],
)
def test_what_an_assignment_can_not_be(env, more):
    bundle, (who,) = env.bundle(), env.targets()
    told = env("POST", f"distributionsets/{bundle}/assignedTargets", [{"id": who} | more])
    is_error(told, 501, "OperationNotSupportedException")
    assert env.rollouts_of(bundle) == []


# --- targets, attributes, tags


def test_targets(env):
    who = env.name()
    row = {"controllerId": who, "name": "Pump", "securityToken": "tok-of-its-own"}
    (made,) = env.made("POST", "targets", [row])
    assert (made["securityToken"], made["name"], made["requestAttributes"]) == (
        "tok-of-its-own",
        "Pump",
        True,
    )
    is_error(env("POST", "targets", [row]), 409, "EntityAlreadyExistsException")
    is_error(env("POST", "targets", [{"controllerId": "a b"}]), 400, "ConstraintViolationException")
    is_error(env("POST", "targets", [{"name": "x"}]), 400, "ConstraintViolationException")
    is_error(
        env("POST", "targets", [row | {"securityToken": "short"}]),
        400,
        "ConstraintViolationException",
    )
    assert "securityToken" not in env.made("GET", f"targets/{who}"), "the desk shows no token"
    is_error(env("PUT", f"targets/{who}", {"name": "Pump 2"}), 403, "EntityReadOnlyException")
    told = env.made("PUT", f"targets/{who}", {"name": "Pump 2", "securityToken": "tok-of-its-own"})
    assert told["name"] == "Pump 2" == env.made("GET", f"targets/{who}")["name"]
    (own,) = env.targets()
    token = env.made("GET", f"targets/{own}")["securityToken"]
    assert len(token) == 32
    assert env.made("PUT", f"targets/{own}", {"name": "Named"})["name"] == "Named"
    assert env.made("GET", f"targets/{own}")["securityToken"] == token
    assert "securityToken" not in env.made("GET", f"targets/{own}", may="look")
    is_error(env("GET", "targets/nobody"), 404, "EntityNotFoundException")
    is_error(env("GET", "targets/a%20b"), 404, "EntityNotFoundException")
    is_error(env("DELETE", f"targets/{own}"), 501, "OperationNotSupportedException")


@pytest.mark.parametrize("count", [1, 110])
def test_targets_that_are_imported_meanwhile_are_left_as_they_are(env, count):
    """Behind the look that found none, and before the write, which is one of a list or of a file."""
    name = env.name()
    ids = [f"{name}-{it}" for it in range(count)]
    row = f"{ids[-1]},Of the file,tok-of-the-file,file\n".encode()

    def rule(call):
        if call.startswith("POST "):
            env.between.rule = None
            path, text = "/desk/v1/import", b"controllerid,name,token,tags\n" + row
            assert ask(env.desk.way, "POST", path, text).status == 200

    env.between.rule = rule
    told = env("POST", "targets", [{"controllerId": it} for it in ids])
    is_error(told, 409, "EntityAlreadyExistsException")
    it = env.desk.ask("GET", f"/targets/{ids[-1]}")
    assert (it["name"], it["tags"]) == ("Of the file", ["file"])
    assert env.desk.ask("GET", f"/targets?q=controllerid=={name}-*")["total"] == 1
    fields = {"Authorization": "TargetToken tok-of-the-file"}
    assert env.devices("GET", f"{stage.B}/{ids[-1]}", **fields).status == 200


def test_a_renaming_writes_over_no_token_that_is_imported_meanwhile(env):
    (who,) = env.targets()

    def rule(call):
        if call == "POST /rest/v1/targets":
            env.between.rule = None
            text = f"controllerid,name,token,tags\n{who},Of the file,tok-of-the-file,\n".encode()
            assert ask(env.desk.way, "POST", "/desk/v1/import", text).status == 200

    env.between.rule = rule
    is_error(env("PUT", f"targets/{who}", {"name": "Late"}), 403, "EntityReadOnlyException")
    assert env.desk.ask("GET", f"/targets/{who}")["name"] == "Of the file"


def test_tags(env):
    name, (one, two) = env.name(), env.targets(2)
    (tag,) = env.made("POST", "targettags", [{"name": name, "description": "x"}])
    is_error(env("POST", "targettags", [{"name": name}]), 409, "EntityAlreadyExistsException")
    is_error(env("POST", "targettags", [{"name": "hb.gone"}]), 400, "ConstraintViolationException")
    is_error(
        env("POST", "targettags", [{"name": "red", "colour": "red"}]),
        501,
        "OperationNotSupportedException",
    )
    place = f"targettags/{tag['id']}"
    assert env.made("GET", place)["name"] == name
    assert env.made("GET", f"{place}/assigned")["total"] == 0
    told = env.made("POST", f"{place}/assigned", [{"controllerId": one}, {"controllerId": two}])
    assert {it["controllerId"] for it in told["content"]} == {one, two}
    assert [it["name"] for it in env.made("GET", f"targets/{one}/tags")] == [name]
    assert env.made("GET", f"targets?q=tag=={name}")["total"] == 2
    assert env("DELETE", f"{place}/assigned/{one}").status == 200
    assert env.desk.ask("GET", f"/targets?q=tag=={name}")["total"] == 1
    assert env("POST", f"{place}/assigned/{one}").status == 200
    is_error(env("POST", f"{place}/assigned", ["nobody"]), 404, "EntityNotFoundException")
    assert env("DELETE", place).status == 200
    assert env.desk.ask("GET", f"/targets?q=tag=={name}")["total"] == 0
    is_error(env("GET", place), 404, "EntityNotFoundException")


def test_tags_that_nobody_has_outlive_the_gateway(env):
    name = env.name()
    gateway = env.start("tagging")
    (tag,) = env.made("POST", "targettags", [{"name": name}], gateway=gateway)
    gateway.kill()
    gateway.start()
    assert env.made("GET", f"targettags/{tag['id']}", gateway=gateway)["name"] == name


# --- paging, q and sort


def test_paging_q_and_sort(env):
    name = env.name()
    rows = [{"controllerId": f"{name}-{it}", "name": f"N{it % 3}"} for it in range(9)]
    env.made("POST", "targets", rows)

    def get(query):
        told = env.made("GET", f"targets?{query}")
        assert told["size"] == len(told["content"])
        return [it["controllerId"].rpartition("-")[2] for it in told["content"]], told["total"]

    mine = f"q=controllerId=={name}-*"
    assert get(f"{mine}&limit=3") == (["0", "1", "2"], 9)
    assert get(f"{mine}&offset=7&limit=5") == (["7", "8"], 9)
    assert get(f"{mine}&sort=controllerId:DESC&limit=2") == (["8", "7"], 9)
    assert get(f"{mine}&sort=name:ASC,controllerId:DESC&limit=4") == (["6", "3", "0", "7"], 9)
    assert get(f"{mine};name==n1") == (["1", "4", "7"], 3), "letters count as hawkBit takes them"
    assert get(f"q=id=in=({name}-1,{name.upper()}-2)") == (["1", "2"], 2)
    assert get(f"{mine};name!=N0;updatestatus==unknown")[1] == 6
    for query, wanted in (
        ("q=colour==red", "RSQLParameterUnsupportedFieldException"),
        ("q=name==", "RSQLParameterSyntaxException"),
        ("q=((((name==a", "RSQLParameterSyntaxException"),
        ("sort=colour:ASC", "SortParameterUnsupportedFieldException"),
        ("sort=name:UP", "SortParameterUnsupportedFieldException"),
        ("limit=x", "MessageNotReadableException"),
        ("offset=-1", "MessageNotReadableException"),
        (f"offset={10**30}", "MessageNotReadableException"),
    ):
        is_error(env("GET", f"targets?{query}"), 400, wanted)
    for path in ("softwaremodules", "distributionsets", "rollouts", "targettags"):
        told = env.made("GET", f"{path}?limit=1&sort=id:DESC")
        assert told["size"] == len(told["content"]) <= 1, path
        if told["content"]:
            first = told["content"][0]
            assert env.made("GET", f"{path}?q=id=={first['id']}")["total"] == 1
        is_error(
            env("GET", f"{path}?q=nothing==x;name==y,nothing==z"),
            400,
            "RSQLParameterUnsupportedFieldException",
        ) if told["total"] else None


def test_links_are_of_the_host_that_was_asked(env):
    module = env.module()
    fields = {"X_Forwarded_Proto": "https", "X_Forwarded_Host": "desk.example:8445"}
    told = env.made("GET", f"softwaremodules/{module}", **fields)
    base = f"https://desk.example:8445{R}/softwaremodules/{module}"
    assert told["_links"]["self"]["href"] == base
    assert told["_links"]["artifacts"]["href"] == f"{base}/artifacts"
    assert (
        env("GET", f"softwaremodules/{module}", Accept="application/hal+json")
        .fields["content-type"]
        .startswith("application/hal+json")
    )
    assert env("GET", f"softwaremodules/{module}", X_Forwarded_Host="a b").status == 400


# --- modules, uploads and sets


def test_modules_and_sets(env):
    name = env.name()
    row = {"name": name, "type": "application", "version": "1"}
    (made,) = env.made("POST", "softwaremodules", [row | {"vendor": "ignored"}])
    is_error(env("POST", "softwaremodules", [row]), 409, "EntityAlreadyExistsException")
    # a part of it was made before a death: the rest is
    two = env.made("POST", "softwaremodules", [row, row | {"version": "2"}])
    assert two[0]["id"] == made["id"] and two[1]["version"] == "2"
    is_error(env("POST", "softwaremodules", [{"name": "x"}]), 400, "ConstraintViolationException")
    is_error(env("GET", "softwaremodules/2000000000"), 404, "EntityNotFoundException")
    is_error(env("GET", "softwaremodules/9999999999"), 404, "EntityNotFoundException")
    is_error(env("DELETE", f"softwaremodules/{made['id']}"), 501, "OperationNotSupportedException")
    bundle = {"name": name, "version": "1", "modules": [{"id": it["id"]} for it in two]}
    (of,) = env.made("POST", "distributionsets", [bundle])
    assert of["type"] == "app"
    is_error(env("POST", "distributionsets", [bundle]), 409, "EntityAlreadyExistsException")
    other = bundle | {"modules": [{"id": made["id"]}]}
    is_error(env("POST", "distributionsets", [other]), 409, "EntityAlreadyExistsException")
    lone = {"name": name, "version": "2"}
    is_error(env("POST", "distributionsets", [lone]), 501, "OperationNotSupportedException")
    assert env.made("GET", f"distributionsets/{of['id']}/assignedSM")["total"] == 2
    is_error(
        env("POST", "distributionsets", [lone | {"modules": [{"id": 999}]}]),
        404,
        "EntityNotFoundException",
    )


def test_uploads_and_their_sums(env):
    module, data = env.module(), payload("sums", 3000)
    for kind, name in (("md5", "MD5"), ("sha1", "SHA1"), ("sha256", "SHA256")):
        body = form((f"{kind}sum", None, b"00"), ("file", "a.swu", data))
        told = env("POST", f"softwaremodules/{module}/artifacts", body, **KIND)
        is_error(told, 400, f"Invalid{name}HashException")
    assert env.made("GET", f"softwaremodules/{module}/artifacts") == []
    right = {f"{kind}sum": it.upper() for kind, it in sums_of(data).items()}
    made = env.upload(module, "ignored.swu", data, filename="b.swu", **right)
    assert made["providedFilename"] == "b.swu"
    assert env.upload(module, "x", data, query="?filename=c.swu")["providedFilename"] == "c.swu"
    told = env("POST", f"softwaremodules/{module}/artifacts", form(("file", "b.swu", data)), **KIND)
    is_error(told, 409, "EntityAlreadyExistsException")
    env.upload(module, "empty.swu", b"x")
    assert not list(env.images.glob(".upload-*"))


def test_a_large_upload_lies_with_the_proxy(env):
    module, data, name = env.module(), payload("large-up", 5_000_000), f"{env.name()}.raucb"
    made = env.upload(module, name, data)
    assert made["hashes"] == sums_of(data) and made["size"] == len(data)
    assert (env.images / name).read_bytes() == data
    assert (env.images / name).stat().st_mode & 0o777 == 0o644
    (held,) = env.desk.ask("GET", f"/softwaremodules/{module}/artifacts")["content"]
    assert held["size"] == 65 and held["hashes"]["sha256"] == sums_of(stub(data))["sha256"]
    got = env("GET", f"softwaremodules/{module}/artifacts/{made['id']}/download")
    assert got.body == data
    again = form(("file", name, data))
    is_error(
        env("POST", f"softwaremodules/{module}/artifacts", again, **KIND),
        409,
        "EntityAlreadyExistsException",
    )
    other = form(("file", name, data[:-1] + b"?"))
    told = env("POST", f"softwaremodules/{env.module()}/artifacts", other, **KIND)
    is_error(told, 409, "EntityAlreadyExistsException")
    assert (env.images / name).read_bytes() == data
    assert env.upload(env.module(), name, data)["size"] == len(data), "the same file elsewhere"


def test_an_upload_that_is_too_large(env):
    small = env.start("small", "--largest", "100000")
    module = env.module()
    body = form(("file", "a.swu", b"x" * 100_001))
    told = env("POST", f"softwaremodules/{module}/artifacts", body, gateway=small, **KIND)
    is_error(told, 403, "FileSizeQuotaExceededException")
    assert not list(env.images.glob(".upload-*"))


def test_a_form_whose_client_goes_away(env):
    module, body = env.module(), form(("file", "gone.swu", b"x" * 500_000))
    it = socket.create_connection((HOST, env.gateway.port))
    head = f"POST {R}/softwaremodules/{module}/artifacts HTTP/1.1\r\nHost: x\r\n"
    head += f"Content-Type: {KIND['Content-Type']}\r\nContent-Length: {len(body)}\r\n\r\n"
    it.sendall(head.encode() + body[:200_000])
    it.close()
    stage.eventually("nothing is left", lambda: not list(env.images.glob(".upload-*")), 20)
    assert env.made("GET", f"softwaremodules/{module}/artifacts") == []


# --- rollouts


def test_a_rollout(env):
    name, bundle = env.name(), env.bundle()
    ids = env.targets(4, name)
    plan = {
        "name": name,
        "distributionSetId": bundle,
        "targetFilterQuery": f"controllerId=={name}-*",
    }
    plan |= {"amountGroups": 2, "successCondition": {"condition": "THRESHOLD", "expression": "100"}}
    plan |= {"errorCondition": {"condition": "THRESHOLD", "expression": "50"}, "description": "x"}
    plan |= {
        "successAction": {"action": "NEXTGROUP", "expression": ""},
        "errorAction": {"action": "PAUSE"},
    }
    made = env.made("POST", "rollouts", plan)
    place = f"rollouts/{made['id']}"
    assert (made["status"], made["totalTargets"], made["totalTargetsPerStatus"]["notstarted"]) == (
        "ready",
        4,
        4,
    )
    assert made["_links"]["start"]["href"].endswith(f"{place}/start")
    is_error(env("POST", "rollouts", plan), 409, "EntityAlreadyExistsException")
    assert env("POST", f"{place}/start").status == 200
    is_error(env("POST", f"{place}/start"), 400, "RolloutIllegalStateException")
    told = env.made("GET", place)
    assert told["status"] == "running"
    assert (
        told["totalTargetsPerStatus"] | {"running": 2, "scheduled": 2}
        == told["totalTargetsPerStatus"]
    )
    groups = env.made("GET", f"{place}/deploygroups")["content"]
    assert [(it["status"], it["totalTargets"]) for it in groups] == [
        ("running", 2),
        ("scheduled", 2),
    ]
    assert env.made("GET", f"{place}/deploygroups/1")["successCondition"]["expression"] == "100"
    held = env.made("GET", f"{place}/deploygroups/1/targets")
    assert [it["controllerId"] for it in held["content"]] == ids[:2]
    it = env.made("GET", f"targets/{ids[0]}/actions")["content"][0]
    assert (it["rollout"], it["rolloutName"]) == (made["id"], name)
    assert env.made("GET", f"actions?q=rolloutname=={name}")["total"] == 4
    assert env.made("GET", f"actions/{it['id']}")["target"]["controllerId"] == ids[0]
    assert env("POST", f"{place}/pause").status == 200
    assert env.made("GET", place)["status"] == "paused"
    assert env("POST", f"{place}/resume").status == 200
    for who in ids[:2]:
        action = env.made("GET", f"targets/{who}/actions")["content"][0]["id"]
        env.report(who, action, "closed", "success")
    counts = env.made("GET", place)["totalTargetsPerStatus"]
    assert (counts["finished"], counts["running"]) == (2, 2)
    assert env.made("GET", f"rollouts?q=name=={name}")["content"][0]["id"] == made["id"]
    is_error(env("DELETE", place), 501, "OperationNotSupportedException")
    is_error(env("POST", f"{place}/retry"), 501, "OperationNotSupportedException")
    is_error(env("GET", "rollouts/9999"), 404, "EntityNotFoundException")


def test_a_rollout_whose_members_only_hawkbits_filter_finds(env):
    name, bundle = env.name(), env.bundle()
    env.targets(3, name)
    plan = {"name": name, "distributionSetId": bundle, "amountGroups": 1}
    made = env.made(
        "POST", "rollouts", plan | {"targetFilterQuery": f"controllerId=={name.upper()}-*"}
    )
    assert made["totalTargets"] == 3
    assert env.desk.ask("GET", "/targets?q=tag==hb.*")["total"] == 0
    none = env(
        "POST", "rollouts", plan | {"name": env.name(), "targetFilterQuery": "id==none-such"}
    )
    assert none.status == 400


def test_a_rollout_by_percentages(env):
    name, bundle = env.name(), env.bundle()
    env.targets(5, name)
    groups = [{"targetPercentage": 20}, {"targetPercentage": 100.0}]
    plan = {
        "name": name,
        "distributionSetId": bundle,
        "targetFilterQuery": f"id=={name}-*",
        "groups": groups,
    }
    made = env.made("POST", "rollouts", plan)
    held = env.made("GET", f"rollouts/{made['id']}/deploygroups")["content"]
    assert [it["totalTargets"] for it in held] == [1, 4]
    for more in (
        {"startAt": 5},
        {"dynamic": True},
        {"weight": 5},
        {"type": "timeforced"},
        {"groups": [{"targetPercentage": 33.3}, {"targetPercentage": 100}]},
        {"groups": [{"targetPercentage": 100, "targetFilterQuery": "id==x"}]},
        {"errorAction": {"action": "CONTINUE"}},
    ):
        told = env("POST", "rollouts", plan | {"name": env.name()} | more)
        is_error(told, 501, "OperationNotSupportedException")


def test_assignments_are_shown_as_no_rollouts(env):
    bundle, (who,) = env.bundle(), env.targets()
    env.assign(bundle, who)
    (plan,) = env.rollouts_of(bundle)
    is_error(env("GET", f"rollouts/{plan['id']}"), 404, "EntityNotFoundException")
    held = env.made("GET", "rollouts?limit=500")["content"]
    assert not any(it["name"].startswith("hb.") for it in held)


# --- what isn't served, and what is hidden


def test_hiding(env):
    """Only where --hide says so, and it says at its start what that means."""
    assert "room in the desk stays taken" in env.hiding.child.log.read_text()
    call = lambda method, path, body=None: env(method, path, body, gateway=env.hiding)
    module = env.module()
    artifact = env.upload(module, "a.swu", b"hidden")["id"]
    row = {"name": env.name(), "version": "1", "modules": [{"id": module}]}
    bundle = env.made("POST", "distributionsets", [row])[0]["id"]
    (who,) = env.targets()
    action = env.assign(bundle, who)["assignedActions"][0]["id"]
    for path in (
        f"distributionsets/{bundle}",
        f"softwaremodules/{module}/artifacts/{artifact}",
        f"softwaremodules/{module}",
        f"targets/{who}",
    ):
        assert call("DELETE", path).status == 200, path
        assert call("GET", path).status == 404, path
        assert call("DELETE", path).status == 404, path
    assert call("GET", f"targets?q=id=={who}").json()["total"] == 0
    assert env.desk.actions(who)[-1]["status"] == "canceled", action
    told = env.devices("GET", f"{stage.B}/{who}", Authorization=f"TargetToken {'0' * 32}")
    assert told.status == 401
    # it is there again when somebody makes it again
    assert call("POST", "targets", [{"controllerId": who}]).status == 201
    assert call("GET", f"targets/{who}").status == 200


def test_who_has_logged_in(env):
    fields = stage.http_client.login("anna", "x")
    assert env.made("GET", "userinfo", **fields) == {"tenant": "DEFAULT", "username": "anna"}
    assert env.made("GET", "userinfo", Authorization="Basic %%%") == {
        "tenant": "DEFAULT",
        "username": "",
    }


# --- the desk, and the proxy


@pytest.mark.parametrize(
    "how", ["before", "after", (503, "application/json", b'{"error":"stopped"}')]
)
def test_a_desk_that_dies(env, how):
    """What else a desk may do wrongly is in tests/unit/hawkbit."""
    env.between.rule = lambda _: how
    told = env("GET", "softwaremodules")
    assert told.status == 503 and told.json()["errorCode"].startswith("hawkbit."), told
    env.between.rule = None
    assert env("GET", "softwaremodules").status == 200


def test_a_desk_that_answers_late(env):
    env.between.rule = lambda _: 2
    assert env("GET", "softwaremodules/1").status == 200


@pytest.fixture(scope="module")
def proxied(env):
    """The gateway on its socket behind HAProxy's port of hawkBit, and before the way that the package's unit has."""
    edge, way = env.haproxy.edge, env.haproxy.edge.run / "fwdesk/hawkbit-manage.sock"
    words = [str(stage.GATEWAY), "--manage", "--desk", str(way), "--door", str(edge.devices)]
    words += env.own()
    child = env.processes.start("door", [*words, "--listen", str(env.haproxy.door)])
    stage.eventually("the door", env.haproxy.door.exists, child=child)
    port = env.haproxy.hawkbit

    def call(login, method, path, body=None, **fields):
        own = env.haproxy.login(login) if login else {}
        return ask(port, method, R + path, body, own | fields, tls=True)

    return call


def test_logins_and_roles(env, proxied):
    assert proxied(None, "GET", "/targets").status == 401
    assert proxied(None, "POST", "/targets", [{"controllerId": "x"}]).status == 401
    (who,) = env.targets()
    assert proxied("lou", "GET", f"/targets/{who}").status == 200
    assert "securityToken" not in proxied("lou", "GET", f"/targets/{who}").json()
    assert proxied("anna", "GET", f"/targets/{who}").json()["securityToken"]
    assert (
        "securityToken"
        not in proxied("lou", "GET", f"/targets/{who}", **{"X-Fwdesk-May": "steer"}).json()
    )
    assert proxied("none", "GET", "/targets").status == 403
    bundle = env.bundle()
    rows = [{"id": who}]
    for login in ("lou", "ann", "none"):
        for method, path, body in (
            ("POST", f"/distributionsets/{bundle}/assignedTargets", rows),
            ("POST", "/softwaremodules", [{"name": "x", "type": "os", "version": "1"}]),
            ("POST", "/targets", [{"controllerId": "x"}]),
            ("PUT", f"/targets/{who}", {"name": "x"}),
            ("DELETE", f"/targets/{who}/actions/1", None),
            ("POST", "/rollouts/1/start", None),
            ("POST", "/targettags", [{"name": "x"}]),
        ):
            assert proxied(login, method, path, body).status == 403, (login, method, path)
    assert proxied("lou", "POST", "/rollouts/1/approve").status == 403
    assert proxied("ann", "POST", "/rollouts/1/approve").status != 403
    assert env.rollouts_of(bundle) == []
    told = proxied("anna", "POST", f"/distributionsets/{bundle}/assignedTargets", rows)
    assert told.json()["assigned"] == 1
    base = f"https://{HOST}:{env.haproxy.hawkbit}{R}"
    assert told.json()["assignedActions"][0]["_links"]["self"]["href"].startswith(base)
    audit = [it for it in env.haproxy.edge.audit() if "assignedTargets" in it]
    assert any(it.startswith("audit 200 ") and '"anna"' in it for it in audit), audit
    assert any(it.startswith("audit 403 ") and '"lou"' in it for it in audit), audit


# of each login what it is answered by the service alone, where HAProxy before that let everything by
ROLES = [
    ("anna", "GET", "/targets", None, 200),
    ("anna", "POST", "/targettags", [{"name": "own"}], 201),
    ("anna", "POST", "/softwaremodules", [{"name": "own", "type": "os", "version": "1"}], 201),
    ("lou", "GET", "/targets", None, 200),
    ("lou", "POST", "/softwaremodules", [{"name": "lou", "type": "os", "version": "1"}], 403),
    ("lou", "POST", "/targets", [{"controllerId": "lou"}], 403),
    ("lou", "POST", "/rollouts/{}/approve", None, 403),
    ("ann", "POST", "/rollouts/{}/start", None, 403),
    ("ann", "POST", "/targets", [{"controllerId": "ann"}], 403),
    ("none", "GET", "/targets", None, 403),
    (None, "GET", "/targets", None, 401),
    (None, "POST", "/targets", [{"controllerId": "nobody"}], 401),
]


@pytest.mark.parametrize("login, method, path, body, wanted", ROLES)
def test_the_service_has_no_other_rights_than_who_asks_it(
    env, proxied, login, method, path, body, wanted
):
    """Asked past HAProxy's first look: what it then asks the desk is judged by the login that it was asked with."""
    if "{}" in path:
        path = path.format(
            env.desk.plan(env.name(), env.bundle(), f"controllerid=={env.targets()[0]}")
        )
    fields = env.haproxy.login(login) if login else {}
    fields |= {"X-Fwdesk-May": "look,steer,approve"}
    told = ask(env.haproxy.door, method, R + path, body, fields)
    if told.status == 503 and body is not None and wanted in (401, 403):
        # HAProxy refuses before it has read a body: the service may see no more than that the connection ends
        is_error(told, 503, "GenericSpServerException")
    elif wanted in (401, 403):
        is_error(told, wanted, "InsufficientPermissionException")
    else:
        assert told.status == wanted, told.body
    if wanted in (401, 403):
        assert env.desk.ask("GET", f"/targets?q=controllerid=={login or 'nobody'}")["total"] == 0


def test_a_wrong_password_opens_nothing_behind_the_service(env, proxied):
    fields = {"X-Fwdesk-May": "look,steer"} | stage.http_client.login("anna", "wrong")
    assert ask(env.haproxy.door, "GET", f"{R}/targets", fields=fields).status == 401
    assert proxied("anna", "GET", "/targets").status == 200


WAY = ("/fwdesk/brake", "/page/", "/DEFAULT/controller/v1/x", "/desk/v1/rollouts/1/report", "/x")


@pytest.mark.parametrize("path", WAY)
def test_the_ways_of_the_service_lead_nowhere_else(env, proxied, path):
    way, login = env.haproxy.edge.run / "fwdesk/hawkbit-manage.sock", env.haproxy.login("anna")
    for method in ("GET", "POST", "PUT", "DELETE"):
        assert ask(way, method, path, fields=login).status == 403, method
    assert ask(way, "GET", f"{R}/targets").status == 401
    assert ask(env.haproxy.edge.devices, "GET", f"{R}/targets", fields=login).status == 404


def test_the_audit_names_who_asked_at_both_ways(env, proxied):
    name = env.name()
    row = {"name": name, "type": "os", "version": "1"}
    assert proxied("anna", "POST", "/softwaremodules", [row]).status == 201
    audit = [it for it in env.haproxy.edge.audit() if it.endswith(" POST /rest/v1/softwaremodules")]
    assert audit[-2].startswith('audit 201 unix "anna"'), audit
    assert re.match(r'audit 201 [0-9.]+ "anna"', audit[-1]), audit


def test_what_a_process_left_at_targets_goes_with_the_first_order(env):
    (who,) = env.targets()
    bundle = env.bundle()
    env.assign(bundle, who)
    (plan,) = env.rollouts_of(bundle)
    env.desk.ask("POST", f"/targets/{who}/tags/{plan['name']}")
    fresh = env.start("fresh")
    env.made("GET", "targets?limit=1", gateway=fresh)
    env.made("POST", "targettags", [{"name": env.name()}], gateway=fresh, may="look,approve")
    assert env.desk.ask("GET", f"/targets/{who}")["tags"] == [plan["name"]]
    env.made("POST", "targettags", [{"name": env.name()}], gateway=fresh)
    assert env.desk.ask("GET", f"/targets/{who}")["tags"] == []


def test_the_port_of_hawkbit_has_no_other_paths(env, proxied):
    port, login = env.haproxy.hawkbit, env.haproxy.login("anna")
    for path in (
        "/",
        "/page/",
        "/desk/v1/rollouts/1/report",
        "/DEFAULT/controller/v1/x",
        "/fwdesk/brake",
    ):
        assert ask(port, "GET", path, fields=login, tls=True).status in (302, 404), path
    fields = login | {"Origin": "https://evil.example"}
    assert (
        ask(port, "POST", f"{R}/targets", [{"controllerId": "evil"}], fields, tls=True).status
        == 403
    )


def test_an_upload_through_haproxy(env, proxied):
    module, data = env.module(), payload("through", 5_000_000)
    name = f"{env.name()}.swu"
    body = form(("file", name, data))
    told = proxied("anna", "POST", f"/softwaremodules/{module}/artifacts", body, **KIND)
    assert told.status == 201 and told.json()["hashes"] == sums_of(data)


def test_json_is_json(env):
    reply = ask(env.gateway.port, "GET", f"{R}/targets?limit=1")
    assert reply.fields["content-type"].startswith("application/json") and reply.json()
