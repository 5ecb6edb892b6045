"""`fwdesk-hawkbit --lab` as the server of a device client's own tests: what those of rauc-hawkbit-updater do, with the real
program. Each begins as its fixtures do, with settings and a target, and ends as they do: a cancel by force, and deletions.

The updater is Debian unstable's, with its own libraries, as tests/e2e/devices fetches it; RAUC is run there too."""

import configparser
import os
import re
import uuid

import pytest

from . import stage
from .stage import HOST, PROGRAM, R, ask, payload
from .test_manage import KIND, form


from harness import packages

UPDATER = packages.Path("~/.cache/fwdesk-devices").expanduser()
BUS = """<busconfig><type>system</type><listen>unix:path={0}/bus</listen><policy context="default">
<allow own="*"/><allow send_destination="*"/><allow receive_sender="*"/><allow user="*"/></policy></busconfig>"""


@pytest.fixture(scope="module")
def lab(folder, processes):
    """A desk with both halves, by one command; its first line says where."""
    words = [str(stage.GATEWAY), "--lab", "--hide", "--program", PROGRAM]
    child = processes.start("lab", words)

    def where():
        return re.search(rf"http://{HOST}:(\d+)", child.log.read_text())

    return int(stage.eventually("the lab", where, child=child)[1])


@pytest.fixture(scope="module", autouse=True)
def updater_is_there():
    if lacks := packages.get({"dbus-daemon", "python3-gi", packages.UPDATER}, UPDATER):
        pytest.skip(f"couldn't be had: {', '.join(lacks)}")


class Scenario:
    """A target, the updater's settings, bundles, and what is to be taken away in the end."""

    def __init__(self, port, processes, folder):
        self.port, self.processes, self.folder = port, processes, folder
        self.children, self.actions, self.things = [], [], []
        self.installed = folder / "installed"
        self.key = uuid.uuid4().hex
        for key, value in {
            "pollingTime": "00:00:02",
            "pollingOverdueTime": "00:03:00",
            "authentication.targettoken.enabled": True,
            "authentication.gatewaytoken.enabled": True,
            "authentication.gatewaytoken.key": self.key,
        }.items():
            self.call("PUT", f"system/configs/{key}", {"value": value})
        self.who = f"test-{uuid.uuid4().hex[:12]}"
        self.call("POST", "targets", [{"controllerId": self.who, "name": self.who}])
        told = self.call("GET", f"targets/{self.who}")
        self.config = configparser.ConfigParser()
        self.config["client"] = {
            "hawkbit_server": f"{HOST}:{port}",
            "ssl": "false",
            "tenant_id": "DEFAULT",
            "target_name": told["name"],
            "auth_token": told["securityToken"],
            "bundle_download_location": f"{folder}/bundle.raucb",
            "retry_wait": "60",
            "log_level": "debug",
        }
        device = {"product": "Terminator", "model": "T-1000", "mac_address": "ff:ff:ff:ff:ff:ff"}
        self.config["device"] = device

    def call(self, method, path, body=None, wanted=(200, 201, 204), **fields):
        told = ask(self.port, method, f"{R}/{path}", body, fields | {"Authorization": "Basic YTph"})
        assert told.status in wanted, f"{method} {path}: {told.status} {told.body[:200]!r}"
        return told.json() if told.body else None

    def bundle(self, size, is_right):
        held = payload(uuid.uuid4().hex, size)
        return held + stage.hashlib.sha256(held + b"?" * (not is_right)).digest()

    def assign(self, modules=1, artifacts=1, is_right=True, size=300_000, **more):
        """New firmware for the target, and the number of its action."""
        ids = []
        for _ in range(modules):
            row = {"name": f"module {uuid.uuid4()}", "version": "1.0", "type": "os"}
            ids.append(self.call("POST", "softwaremodules", [row])[0]["id"])
            for at in range(artifacts):
                self.data = self.bundle(size, is_right)
                name = f"bundle.raucb_{ids[-1]}_{at}"
                place = f"softwaremodules/{ids[-1]}/artifacts"
                made = self.call("POST", place, form(("file", name, self.data)), **{**KIND})
                self.things.append(f"{place}/{made['id']}")
            self.things.append(f"softwaremodules/{ids[-1]}")
        row = {"name": f"set {uuid.uuid4()}", "version": "1.0", "type": "os"}
        row |= {"modules": [{"id": it} for it in ids]}
        bundle = self.call("POST", "distributionsets", [row])[0]["id"]
        self.things.insert(0, f"distributionsets/{bundle}")
        rows = [{"id": self.who} | more]
        told = self.call("POST", f"distributionsets/{bundle}/assignedTargets", rows)
        self.actions.append(told["assignedActions"][-1]["id"])
        return self.actions[-1]

    def action(self):
        return self.call("GET", f"targets/{self.who}/actions/{self.actions[-1]}")

    def last(self):
        path = f"targets/{self.who}/actions/{self.actions[-1]}/status"
        return self.call("GET", f"{path}?offset=0&limit=50&sort=id:DESC")["content"][0]

    def end(self):
        """What fixtures do in the end: a cancel may be refused, a deletion may not."""
        for it in self.children:
            if it in self.processes.running:
                self.processes.end(it)
        for it in self.actions:
            path = f"targets/{self.who}/actions/{it}"
            self.call("DELETE", path, wanted=(204, 405))
            self.call("DELETE", f"{path}?force=true", wanted=(204, 405))
        for it in [*self.things, f"targets/{self.who}"]:
            self.call("DELETE", it, wanted=(200,))

    def rauc(self, seconds=0):
        """A bus with what runs RAUC on it."""
        own = {**os.environ, "DBUS_SYSTEM_BUS_ADDRESS": f"unix:path={self.folder}/bus"}
        (self.folder / "bus.conf").write_text(BUS.format(self.folder))
        words = ["dbus-daemon", "--nofork", f"--config-file={self.folder}/bus.conf"]
        self.children.append(self.processes.start("bus", words))
        stage.eventually("the bus", (self.folder / "bus").exists, 30)
        stand_in = [str(stage.ROOT / "tests/e2e/devices/rauc"), str(self.installed), str(seconds)]
        self.children.append(self.processes.start("rauc", stand_in, env=own))
        stage.time.sleep(1)
        return own

    def start(self, env=None, once=True, **client):
        for key, value in client.items():
            self.config["client"].pop(key, None)
            if value is not None:
                self.config["client"][key] = value
        with open(self.folder / "config.conf", "w", encoding="utf-8") as file:
            self.config.write(file)
        words = [*packages.updater(UPDATER), "-c", f"{self.folder}/config.conf", *["-r"] * once]
        bus = {**os.environ, "DBUS_SYSTEM_BUS_ADDRESS": f"unix:path={self.folder}/none"}
        self.child = self.processes.start(self.who, words, env=env or bus)
        self.children.append(self.child)

    def said(self):
        return self.child.log.read_text(errors="replace")

    def runs(self, env=None, **client):
        """What it says in one run."""
        self.start(env, **client)
        self.child.wait(90)
        return self.said()


@pytest.fixture
def it(lab, processes, tmp_path):
    made = Scenario(lab, processes, tmp_path)
    yield made
    made.end()


def has(text, *words):
    for word in words:
        assert word in text, text[-600:]


def test_tokens(it):
    assert "Failed to authenticate" not in it.runs()
    has(
        it.runs(auth_token="ThisIsInvalid"),
        "Failed to authenticate. Check if auth_token is correct?",
    )


def test_gateway_tokens(it):
    told = it.runs(auth_token=None, gateway_token=it.key)
    has(told, "Checking for new software")
    assert "Failed to authenticate" not in told
    told = it.runs(gateway_token="ThisIsInvalid")
    has(told, "Failed to authenticate. Check if gateway_token is correct?")


def test_that_it_tells_of_itself(it):
    has(it.runs(), "Providing meta information to hawkbit server")
    assert it.call("GET", f"targets/{it.who}/attributes") == dict(it.config["device"])


@pytest.mark.parametrize("size", [300_000, 4_500_000])
def test_an_installation(it, size):
    it.assign(size=size)
    told = it.runs(it.rauc())
    has(told, "New software ready for download", "Download complete", "File checksum OK")
    has(told, "Software bundle installed successfully")
    assert it.last()["type"] == "finished" and it.action()["detailStatus"] == "finished"
    assert it.installed.read_bytes() == it.data
    assert it.call("GET", f"targets/{it.who}")["updateStatus"] == "in_sync"


def test_an_installation_that_fails(it):
    it.assign(is_right=False)
    has(it.runs(it.rauc()), "Failed to install software bundle")
    assert it.last()["type"] == "error"
    has(",".join(it.last()["messages"]), "Failed to install software bundle.")


@pytest.mark.parametrize("more", [{}, {"modules": 2}, {"artifacts": 2}])
def test_what_it_can_not_install(it, more):
    """Without RAUC, of two modules, of two artifacts."""
    it.assign(**more)
    it.runs()
    assert it.last()["type"] == "error"


def test_a_download_alone(it):
    it.assign(type="downloadonly")
    told = it.runs(it.rauc())
    has(told, "hawkBit requested to skip installation, not invoking RAUC yet", "File checksum OK")
    assert not it.installed.exists()
    has(",".join(it.last()["messages"]), "File checksum OK.")


def test_a_soft_one(it):
    it.assign(type="soft")
    has(it.runs(it.rauc()), "Software bundle installed successfully")
    assert it.action()["forceType"] == "soft"


def test_a_cancel_before_the_poll(it):
    action = it.assign()
    it.call("DELETE", f"targets/{it.who}/actions/{action}")
    told = it.runs(it.rauc())
    has(told, f"Received cancelation for unprocessed action {action}, acknowledging.")
    shown = it.action()
    assert (shown["type"], shown["status"], it.last()["type"]) == ("cancel", "finished", "canceled")


def test_a_cancel_within_the_installation(it):
    """It is rejected, and the installation goes on."""
    action = it.assign()
    it.start(it.rauc(8), once=False)
    stage.eventually("the download", lambda: "File checksum OK" in it.said(), child=it.child)
    it.call("DELETE", f"targets/{it.who}/actions/{action}")
    stage.eventually("the end", lambda: it.action()["detailStatus"] == "finished", child=it.child)
    notes = it.call("GET", f"targets/{it.who}/actions/{action}/status?limit=50")["content"]
    assert "cancel_rejected" in [one["type"] for one in notes]


def test_a_newer_assignment(it):
    """It asks the first one back, and is installed."""
    first, second = it.assign(), it.assign()
    it.start(it.rauc(), once=False)
    stage.eventually("the end", lambda: it.action()["detailStatus"] == "finished", child=it.child)
    told = it.call("GET", f"targets/{it.who}/actions?sort=id:ASC")["content"]
    states = [(one["id"], one["detailStatus"]) for one in told]
    assert states == [(first, "canceled"), (second, "finished")]
    assert it.installed.read_bytes() == it.data


def test_a_lab_without_hiding_deletes_nothing(processes):
    child = processes.start("plain-lab", [str(stage.GATEWAY), "--lab", "--program", PROGRAM])
    found = stage.eventually(
        "the lab", lambda: re.search(rf"http://{HOST}:(\d+)", child.log.read_text()), child=child
    )
    port = int(found[1])
    assert ask(port, "POST", f"{R}/targets", [{"controllerId": "x"}]).status == 201
    assert ask(port, "DELETE", f"{R}/targets/x").status == 501
    assert ask(port, "PUT", f"{R}/system/configs/pollingTime", {"value": 5}).status == 400
    assert ask(port, "PUT", f"{R}/system/configs/unknown", {"value": "5"}).status == 400
    off = {"value": False}
    key = "authentication.targettoken.enabled"
    assert ask(port, "PUT", f"{R}/system/configs/{key}", off).status == 501
    assert ask(port, "GET", f"{R}/system/configs/{key}").json()["value"] is True
