"""Both halves before many fleets: of one machine, where the path or the host says which, or how a device's id begins, and of
a node of a cluster, where the address does. Two programs, both HAProxys with the files of deploy/, and a service of each half
before them by the ways that the package's units have."""

import re
import subprocess

import pytest
from harness import http_client
from harness.tls import make_certificate

from . import stage
from .stage import HOST, B, HAProxy, R, ask, sums_of
from .test_manage import KIND, form, is_error

KEY, TOKEN = b"k" * 40, "gateway-token-of-32-letters-or-more"
FLEETS = {"acme": "127.0.0.1", "other": "127.0.0.2"}


def ask_by_tls(address, port, method, path, body, fields):
    """One request to an address of this machine, over a connection of its own."""
    trusted = http_client.trust_all()
    return http_client.ask(method, path, body, fields, port=port, host=address, trusted=trusted)


class Fleets:
    """Two desks of one form, and what is asked of each by its operators."""

    def __init__(self, folder, processes, form):
        self.folder, self.form, self.processes = folder, form, processes
        for it in (*FLEETS, "images"):
            (folder / it).mkdir()
        make_certificate(folder)
        (folder / "key").write_bytes(KEY)
        self.desks = {it: stage.Desk(folder / it, processes) for it in FLEETS}
        # asked by any address of this machine, as a node's floating ones are
        port = stage.free_port()
        more = {"FWDESK_HAWKBIT_BIND": f"0.0.0.0:{port}", "FWDESK_HAWKBIT_REGISTERS": "1"}
        ports = {name: it.port for name, it in self.desks.items()}
        self.haproxy = HAProxy(folder, 0, more, form, ports, self.prepare)
        self.port, self.edge = port, self.haproxy.edge
        way = str(self.edge.run / "fwdesk/hawkbit-manage.sock")
        words = ["--door", str(self.edge.devices), "--key", str(folder / "key"), "--hide"]
        words += ["--firmware", str(folder / "images"), "--kept", str(folder / "kept")]
        self.words = [str(stage.GATEWAY), "--manage", "--desk", way, *words]
        self.words += ["--listen", str(self.haproxy.door)]
        self.start()

    def start(self):
        self.child = self.processes.start(f"service-{self.form}", self.words)
        stage.eventually("the service", self.listens, child=self.child)

    def listens(self):
        try:
            return ask(self.haproxy.door, "GET", f"{R}/userinfo").status == 200
        except OSError:
            return False

    def prepare(self, edge):
        """The addresses of both fleets, and an operator of one alone."""
        lines = "".join(f"{address} {name}\n" for name, address in FLEETS.items())
        (edge.folder / "addresses.map").write_text(lines)
        if self.form == "fleets":
            maps = edge.folder / "maps/operators.map"
            kept = [it for it in maps.read_text().splitlines() if not it.startswith("lou@other")]
            maps.write_text("\n".join(kept) + "\n")

    def base(self, fleet):
        return f"/fleets/{fleet}" if self.form == "fleets" else ""

    def __call__(self, fleet, method, path, body=None, login="anna", host=None, **fields):
        """What is answered at the port of hawkBit: by the path, by a host's name, or by the address."""
        address = FLEETS[fleet] if self.form == "failover" else HOST
        told = self.haproxy.login(login) | {"Connection": "close"}
        told |= {"Host": host} if host else {}
        told |= {k.replace("_", "-"): v for k, v in fields.items()}
        place = f"{'' if host else self.base(fleet)}{R}/{path}"
        return ask_by_tls(address, self.port, method, place, body, told)

    def made(self, fleet, method, path, body=None, **more):
        told = self(fleet, method, path, body, **more)
        assert told.status in (200, 201, 204), f"{method} {path}: {told.status} {told.body[:300]!r}"
        return told.json() if told.body else None

    def device(self, fleet, who, token, rest="", method="GET", body=None):
        """What a device is answered by its fleet's desk."""
        path, fields = f"/fleets/{fleet}{B}/{who}{rest}", {"Authorization": f"TargetToken {token}"}
        return ask(self.edge.devices, method, path, body, fields)

    def bundle(self, fleet, name):
        """A set with one file."""
        row = {"name": name, "type": "os", "version": "1"}
        module = self.made(fleet, "POST", "softwaremodules", [row])[0]["id"]
        body = form(("file", f"{name}.swu", name.encode()))
        self.made(fleet, "POST", f"softwaremodules/{module}/artifacts", body, **KIND)
        row = {"name": name, "version": "1", "modules": [{"id": module}]}
        return self.made(fleet, "POST", "distributionsets", [row])[0]["id"]


@pytest.fixture(scope="module", params=["fleets", "failover"])
def fleets(request, tmp_path_factory):
    folder = tmp_path_factory.mktemp(request.param)
    processes = stage.Processes(folder)
    made = Fleets(folder, processes, request.param)
    yield made
    made.edge.end()
    processes.end_all()


def test_a_pipeline_in_each_fleet(fleets):
    """The same names in both, and neither sees what is the other one's."""
    for fleet in FLEETS:
        # no number is the same in both
        for at in range(list(FLEETS).index(fleet)):
            fleets.bundle(fleet, f"before-{at}")
        bundle = fleets.bundle(fleet, f"pump-{fleet}")
        (made,) = fleets.made(fleet, "POST", "targets", [{"controllerId": "pump-1"}])
        rows = [{"id": "pump-1"}]
        told = fleets.made(fleet, "POST", f"distributionsets/{bundle}/assignedTargets", rows)
        action = told["assignedActions"][0]["id"]
        token = made["securityToken"]
        offered = fleets.device(fleet, "pump-1", token, f"/deploymentBase/{action}")
        assert f"pump-{fleet}.swu" in offered.body.decode()
        ended = {"status": {"execution": "closed", "result": {"finished": "success"}}}
        path = f"/deploymentBase/{action}/feedback"
        assert fleets.device(fleet, "pump-1", token, path, "POST", ended).status == 200
        assert fleets.made(fleet, "GET", "targets/pump-1/installedDS")["id"] == bundle
        assert fleets.made(fleet, "GET", "targets/pump-1")["securityToken"] == token
    names = {
        fleet: {it["name"] for it in fleets.made(fleet, "GET", "softwaremodules")["content"]}
        for fleet in FLEETS
    }
    assert names == {"acme": {"pump-acme"}, "other": {"before-0", "pump-other"}}
    (held,) = fleets.made("acme", "GET", "softwaremodules/1/artifacts")
    assert held["hashes"] == sums_of(b"pump-acme")


def test_a_token_of_one_fleet_is_none_of_another(fleets):
    """Of one id: who steers the one fleet is shown its token, and makes one of any id."""
    tokens = {}
    for fleet in FLEETS:
        (made,) = fleets.made(fleet, "POST", "targets", [{"controllerId": "both"}])
        tokens[fleet] = made["securityToken"]
        assert fleets.device(fleet, "both", tokens[fleet]).status == 200
        words = [str(stage.GATEWAY), "--tokens", "both", "--key", str(fleets.folder / "key")]
        told = subprocess.run([*words, "--fleet", fleet], capture_output=True, text=True)
        assert told.stdout.splitlines()[1] == f"both,both,{tokens[fleet]},"
    assert tokens["acme"] != tokens["other"]
    assert fleets.device("acme", "both", tokens["other"]).status == 401


def test_links_lead_to_the_same_fleet(fleets):
    for fleet in FLEETS:
        (made,) = fleets.made(fleet, "POST", "targets", [{"controllerId": "linked"}])
        href = made["_links"]["self"]["href"]
        address = FLEETS[fleet] if fleets.form == "failover" else HOST
        assert href == f"https://{address}:{fleets.port}{fleets.base(fleet)}{R}/targets/linked"
    if fleets.form == "fleets":
        host = f"acme.desk.example:{fleets.port}"
        told = fleets.made("acme", "GET", "targets/linked", host=host)
        assert told["_links"]["self"]["href"] == f"https://{host}{R}/targets/linked"


def test_what_is_kept_beside_the_desks_is_of_each_fleet(fleets):
    """Names of tags and what is hidden, also by another process; and counts of rollouts that have ended."""
    for fleet in FLEETS:
        bundle = fleets.bundle(fleet, "kept")
        fleets.made(fleet, "POST", "targets", [{"controllerId": "kept"}])
        plan = {"name": "kept", "distributionSetId": bundle, "amountGroups": 1}
        plan |= {"targetFilterQuery": "id==kept"}
        fleets.made(fleet, "POST", "rollouts", plan)
    (tag,) = fleets.made("acme", "POST", "targettags", [{"name": "acme-alone"}])
    hidden = {}
    for fleet in FLEETS:
        held = fleets.made(fleet, "GET", "rollouts?q=name==kept")["content"]
        hidden[fleet] = held[0]["id"]
    assert fleets("acme", "DELETE", f"rollouts/{hidden['acme']}").status == 200
    # the other one's rollouts of these numbers
    fleets.made("other", "GET", f"rollouts/{hidden['other']}")
    for again in (False, True):
        if again:
            fleets.processes.end(fleets.child)
            fleets.haproxy.door.unlink()
            fleets.start()
        assert fleets.made("acme", "GET", f"targettags/{tag['id']}")["name"] == "acme-alone"
        is_error(fleets("other", "GET", f"targettags/{tag['id']}"), 404, "EntityNotFoundException")
        held = {
            fleet: fleets.made(fleet, "GET", "rollouts?q=name==kept")["total"] for fleet in FLEETS
        }
        assert held == {"acme": 0, "other": 1}


def test_counts_of_an_ended_rollout_are_those_of_its_fleet(fleets):
    """Rollouts of one number in both: the service knows an ended one's actions without asking."""
    counts = {}
    for fleet, members in (("acme", 1), ("other", 2)):
        bundle = fleets.bundle(fleet, "counted")
        ids = [f"counted-{it}" for it in range(members)]
        rows = fleets.made(fleet, "POST", "targets", [{"controllerId": it} for it in ids])
        number = 0
        plan = {
            "distributionSetId": bundle,
            "amountGroups": 1,
            "targetFilterQuery": "id==counted-*",
        }
        while number < 9:
            made = fleets.made(fleet, "POST", "rollouts", plan | {"name": f"counted-{number}"})
            number = made["id"]
        fleets.made(fleet, "POST", f"rollouts/{number}/start")
        for it in rows:
            who, token = it["controllerId"], it["securityToken"]
            action = fleets.made(fleet, "GET", f"targets/{who}/actions")["content"][-1]["id"]
            ended = {"status": {"execution": "closed", "result": {"finished": "success"}}}
            path = f"/deploymentBase/{action}/feedback"
            assert fleets.device(fleet, who, token, path, "POST", ended).status == 200
        told = fleets.made(fleet, "GET", f"rollouts/{number}")
        assert (number, told["status"]) == (9, "finished")
        counts[fleet] = told["totalTargetsPerStatus"]["finished"]
    assert counts == {"acme": 1, "other": 2}


def test_an_operator_of_one_fleet_alone(fleets):
    """Where a machine has many, roles are those of each; a cluster's operators are the same for all of its fleets."""
    assert fleets("acme", "GET", "targets", login="lou").status == 200
    wanted = 403 if fleets.form == "fleets" else 200
    assert fleets("other", "GET", "targets", login="lou").status == wanted
    # at the service itself, past HAProxy's first look: it has no rights of its own
    fields = fleets.haproxy.login("lou") | {"X-Fwdesk-May": "look,steer", "X-Fleet": "other"}
    told = ask(fleets.haproxy.door, "GET", f"{R}/targets", fields=fields)
    assert told.status == wanted
    row = [{"controllerId": "lou"}]
    assert ask(fleets.haproxy.door, "POST", f"{R}/targets", row, fields).status in (403, 503)
    assert fleets("other", "GET", "targets/lou").status == 404


def test_no_client_names_a_fleet_by_a_field(fleets):
    fleets.made("acme", "POST", "targets", [{"controllerId": "named"}])
    for fields in ({"X_Fleet": "other"}, {"X_Forwarded_Prefix": "/fleets/other"}):
        told = fleets.made("acme", "GET", "targets/named", **fields)
        assert "/fleets/other" not in told["_links"]["self"]["href"]
    assert fleets("other", "GET", "targets/named").status == 404


@pytest.mark.parametrize("fleet", ["", "nobody", "no/fleet", "UPPER", "a" * 25])
def test_a_fleet_that_is_none(fleets, fleet):
    """At the service itself, since HAProxy lets none by."""
    fields = fleets.haproxy.login("anna") | {"X-Fwdesk-May": "look,steer", "X-Fleet": fleet}
    told = ask(fleets.haproxy.door, "GET", f"{R}/targets", fields=fields)
    assert told.status in (400, 403, 404, 503), told
    assert not (fleets.folder / "kept/fleets" / (fleet or "-")).exists()
    if fleets.form == "fleets":
        for place in (f"{R}/targets", f"/fleets/nobody{R}/targets"):
            login = fleets.haproxy.login("anna")
            assert ask(fleets.port, "GET", place, fields=login, tls=True).status in (403, 404)


def test_the_audit_names_the_fleet(fleets):
    row = [{"name": "audited", "type": "os", "version": "1"}]
    fleets.made("other", "POST", "softwaremodules", row)
    audit = [it for it in fleets.edge.audit() if "/rest/v1/softwaremodules" in it]
    # the service's call comes first
    for it, comes in zip(audit[-2:], ("unix", "127[.]0[.]0[.][12]")):
        form = rf'audit 201 {comes} "anna" POST \S*/rest/v1/softwaremodules fleet=other'
        assert re.fullmatch(form, it), audit[-2:]


class Doors:
    """The device half behind nginx, with the files of deploy/."""

    def __init__(self, fleets, processes, folder):
        self.fleets, door = fleets, folder / "devices.sock"
        (folder / "token").write_text(TOKEN)
        words = [str(stage.GATEWAY), "--devices", "--desk", str(fleets.edge.devices)]
        words += ["--reads", str(fleets.haproxy.reads), "--firmware", str(fleets.folder / "images")]
        words += ["--key", str(fleets.folder / "key"), "--gateway-token", str(folder / "token")]
        child = processes.start("devices", [*words, "--register", "--listen", str(door)])
        stage.eventually("the device half", door.exists, child=child)
        make_certificate(folder)
        polls, images, more = fleets.edge.devices, fleets.folder / "images", {}
        if fleets.form == "failover":
            lines = "".join(f"{address} {name};" for name, address in FLEETS.items())
            more = {"#192.0.2.11 acme;": lines, f"listen {HOST}:": "listen 0.0.0.0:"}
        self.port = stage.start_nginx(folder, processes, door, polls, images, more)

    def __call__(self, fleet, who, token, rest="", method="GET", body=None, **fields):
        address = FLEETS[fleet] if self.fleets.form == "failover" else HOST
        told = {"Authorization": token, "Connection": "close"} | fields
        return ask_by_tls(address, self.port, method, f"{B}/{who}{rest}", body, told)

    def ids(self, fleet):
        """A device of a fleet, as its id has to begin where that says which."""
        return f"{fleet}-dev" if self.fleets.form == "fleets" else "dev"


@pytest.fixture(scope="module")
def doors(fleets, tmp_path_factory):
    folder = tmp_path_factory.mktemp(f"doors-{fleets.form}")
    processes = stage.Processes(folder)
    yield Doors(fleets, processes, folder)
    processes.end_all()


def test_devices_are_led_to_their_fleet(fleets, doors):
    """Polls past the service, and all else by it: of the same id in both, where the address says which."""
    for fleet in FLEETS:
        bundle, who = fleets.bundle(fleet, f"led-{fleet}"), doors.ids(fleet)
        (made,) = fleets.made(fleet, "POST", "targets", [{"controllerId": who}])
        token = f"TargetToken {made['securityToken']}"
        rows = [{"id": who}]
        told = fleets.made(fleet, "POST", f"distributionsets/{bundle}/assignedTargets", rows)
        action = told["assignedActions"][0]["id"]
        poll = doors(fleet, who, token)
        href = poll.json()["_links"]["deploymentBase"]["href"]
        assert href.endswith(f":{doors.port}{B}/{who}/deploymentBase/{action}"), href
        it = doors(fleet, who, token, f"/deploymentBase/{action}").json()["deployment"]
        (artifact,) = it["chunks"][0]["artifacts"]
        assert artifact["hashes"] == sums_of(f"led-{fleet}".encode())
        place = artifact["_links"]["download"]["href"].partition(f"/{who}/")[2]
        assert doors(fleet, who, token, f"/{place}").body == f"led-{fleet}".encode()
        data = {"data": {"os": "linux"}}
        assert doors(fleet, who, token, "/configData", "PUT", data).status == 200
        ended = {"status": {"execution": "closed", "result": {"finished": "success"}}}
        path = f"/deploymentBase/{action}/feedback"
        assert doors(fleet, who, token, path, "POST", ended).status == 200
        assert doors(fleet, who, token, f"/installedBase/{action}").status == 200
        # what another device of this id said in another fleet isn't what this one said
        assert fleets.made(fleet, "GET", f"targets/{who}/attributes") == {"os": "linux"}
        other = next(it for it in FLEETS if it != fleet)
        if fleets.form == "failover":
            assert doors(other, who, token).status == 401
        # no device names a fleet
        for rest in ("", f"/installedBase/{action}"):
            assert doors(fleet, who, token, rest, **{"X-Fleet": other}).status == 200, rest


def test_a_device_registers_with_its_fleet(fleets, doors):
    """By one gateway token; the token that the key makes is another one in each fleet."""
    shown = {}
    for fleet in FLEETS:
        who = f"{doors.ids(fleet)}-new"
        assert doors(fleet, who, f"GatewayToken {TOKEN}", "/deploymentBase/1").status == 404
        shown[fleet] = fleets.made(fleet, "GET", f"targets/{who}")["securityToken"]
        assert doors(fleet, who, f"TargetToken {shown[fleet]}").status == 200
        assert doors(fleet, who, f"GatewayToken {TOKEN}").status == 200
    assert shown["acme"] != shown["other"]
    if fleets.form == "fleets":
        assert doors("acme", "nobody-1", f"GatewayToken {TOKEN}").status in (401, 404)
        assert {fleets(it, "GET", "targets/nobody-1").status for it in FLEETS} == {404}
