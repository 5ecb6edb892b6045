"""Two fleets on one machine, each with a desk and a console of its own behind one edge: what one has the other doesn't show."""
import json

import pytest

from .browser import Browser
from .environment import PROGRAM, ROOT, Environment
from harness.edge import ALL, Edge
from harness.http_client import ask
from harness.processes import HOST, Processes, eventually, free_port

FLEETS = ("acme", "other")


class Fleet(Environment):
    """One fleet of two, as its operators and devices see it."""

    def __init__(self, room, name):
        self.room, self.name = room, name
        self.edge, self.port, self.run = room.edge, room.port, room.run
        self.folder = room.folder / name
        self.folder.mkdir()
        self.processes = Processes(self.folder)
        self.desk_port = room.desk_ports[name]
        self.approval = False

    def ask(self, path, *rest, **more):
        return super().ask(f"/fleets/{self.name}{path}", *rest, **more)

    def start_console(self):
        run = self.run / "fwdesk-console" / self.name
        run.mkdir(exist_ok=True)
        told = {
            "listen": f"{run}/http.sock",
            "audit": f"{run}/audit.sock",
            "looks": f"{self.run}/haproxy/fwdesk-looks.sock",
            "table": f"{self.run}/haproxy/fwdesk-table.sock",
            "records": f"{self.folder}/console.db",
            "link": f"https://{HOST}:{self.port}/page/",
            "table_every": 1,
        }
        lines = [f"{key} = {json.dumps(it)}\n" for key, it in told.items()]
        (self.folder / "console.toml").write_text("".join(lines))
        words = ["/usr/bin/python3", ROOT / "console/fwdesk-console", "--fleet", self.name]
        child = self.processes.start("console", [*map(str, words), f"{self.folder}/console.toml"])
        answers = lambda: self.ask("/fwdesk/state")[0] == 200
        eventually("the console answers", answers, 20, child=child)
        return child


class Room:
    def __init__(self, folder):
        folder.chmod(0o755)
        self.folder, self.processes = folder, Processes(folder)
        *ports, self.metrics = (free_port() for _ in range(len(FLEETS) + 1))
        self.desk_ports = dict(zip(FLEETS, ports))
        self.edge = Edge(
            folder,
            ports[0],
            operators={"anna": ALL},
            password="secret",
            form="fleets",
            more={"FWDESK_CONSOLE": "1", "FWDESK_CONSOLE_METRICS": f"{HOST}:{self.metrics}"},
            fleets=self.desk_ports,
        )
        self.port, self.run = self.edge.port, self.edge.run
        (self.run / "fwdesk-console").mkdir()
        self.fleets = {it: Fleet(self, it) for it in FLEETS}
        try:
            for it in self.fleets.values():
                it.desk = it.start_desk()
            self.edge.start()
            self.lead = self.start_lead()
            for it in self.fleets.values():
                it.console = it.start_console()
        except BaseException:
            self.end()
            raise

    def start_lead(self):
        run = self.run / "fwdesk-console"
        told = {"listen": f"{run}/http.sock", "audit": f"{run}/audit.sock"}
        (self.folder / "lead.toml").write_text(
            "".join(f"{key} = {json.dumps(it)}\n" for key, it in told.items())
        )
        words = ["/usr/bin/python3", ROOT / "console/fwdesk-console", "--lead"]
        child = self.processes.start("lead", [*map(str, words), f"{self.folder}/lead.toml"])
        eventually("it leads", (run / "audit.sock").exists, child=child)
        return child

    def end(self):
        for it in (*self.fleets.values(), self):
            it.processes.end_all()
        self.edge.end()


@pytest.fixture(scope="module")
def room(tmp_path_factory):
    assert PROGRAM.exists(), f"{PROGRAM} isn't there: FWDESK_PROGRAM names the program"
    made = Room(tmp_path_factory.mktemp("room"))
    for it in made.fleets.values():
        it.make_fleet(10)
    yield made
    made.end()


def test_each_fleet_has_a_console_that_knows_it_alone(room):
    acme, other = room.fleets.values()
    rollout = acme.plan("of acme", groups=1, error=20)
    acme.fail(rollout, 2, "disk full")
    paused = lambda: "paused" in acme.state(rollout)["rollout"]["acts"]
    known = lambda: acme.ask(f"/fwdesk/state?rollout={rollout}")[0] == 200 and paused()
    eventually("it is known to be paused", known, 20)
    acts = acme.state(rollout)["rollout"]["acts"]
    assert acts["start"]["who"] == "anna" and acts["paused"]["by"] == "itself"
    seen = lambda it: it.api("/fwdesk/seen?device=dev-00001")["at"]
    eventually("a device's last poll is known", lambda: seen(acme), 20)
    # the other fleet has devices of the same ids, and knows nothing of any of this
    assert other.state()["rollouts"] == [] and other.ask("/fwdesk/state?rollout=1")[0] == 404
    assert seen(other) is None
    paths = [it["path"] for it in other.api("/fwdesk/audit?limit=500")]
    assert paths and not any("/start" in it for it in paths)
    assert any("/start" in it["path"] for it in acme.api("/fwdesk/audit?limit=500"))


def test_the_page_of_a_fleet_shows_its_console(room):
    browser = Browser(room.fleets["acme"])
    try:
        browser.driver.get(f"https://anna:secret@{HOST}:{room.port}/fleets/acme/page/#/now")
        browser.until("of acme", "#needs", 30)
        browser.driver.get(f"https://anna:secret@{HOST}:{room.port}/fleets/other/page/#/now")
        browser.until("Nothing needs attention.", "#needs")
        assert "of acme" not in browser.text()
        assert not browser.faults()
    finally:
        browser.end()


def test_each_fleets_metrics_are_told_by_its_name(room):
    text = lambda name: ask("GET", f"/fleets/{name}/metrics", port=room.metrics).text
    assert 'status="paused"' in text("acme")
    told = text("other")
    assert "fwdesk_up 1" in told and 'status="paused"' not in told


def test_no_looks_are_let_by_that_name_no_fleet_or_give_an_order(room):
    acme = room.fleets["acme"]
    assert acme.look("/fleets/acme/rest/v1/rollouts")[0] == 200
    for path in (
        "/rest/v1/rollouts",
        "/fleets/none/rest/v1/rollouts",
        "/fleets/acme/DEFAULT/controller/v1/dev-00001",
        "/fleets/acme/rest/v1/rollouts/1/start",
        "/fleets/acme/fleets/other/rest/v1/rollouts",
        "/fleets/acme//rest/v1/rollouts",
    ):
        assert acme.look(path)[0] == 403, path
    assert acme.look("/fleets/acme/rest/v1/rollouts", "POST")[0] == 405


def test_one_console_dead_the_others_go_on(room):
    acme, other = room.fleets.values()
    acme.kill(acme.console)
    status, _, body = acme.ask("/fwdesk/state")
    assert status == 503 and json.loads(body)["words"] == "the console is away"
    assert other.ask("/fwdesk/state")[0] == 200 and acme.poll("dev-00001")[0] == 200
    acme.console = acme.start_console()
    room.processes.end(room.lead)
    assert acme.ask("/fwdesk/state")[0] == 503 and acme.poll("dev-00001")[0] == 200
    room.lead = room.start_lead()
    eventually("it leads again", lambda: acme.ask("/fwdesk/state")[0] == 200, 10)
