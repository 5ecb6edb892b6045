"""Turns before a slow desk: many devices wait in both HAProxys, and no operator waits behind them in either. Nobody gets
an operator's turn by naming a path."""

import csv
import socket
import threading
from collections.abc import Iterator
from pathlib import Path

import pytest
from harness.processes import HOST, eventually
from harness.stand_in import StandIn, send_reply
from .stage import Before, Link, Stage, login, token

pytestmark = [pytest.mark.e2e, pytest.mark.gate]
# of devices' polls so many are before the desk at once (deploy/haproxy/edge/40-onwards.cfg); the edge keeps the others
PLACES = 64
POLLS = 80
POLL, TARGETS = "/DEFAULT/controller/v1/turn-{0}", "/rest/v1/targets"


class Slow(StandIn):
    """A desk that answers nobody until it is free, and keeps the paths in the order in which they came."""

    def __init__(self, port: int) -> None:
        self.came: list[str] = []
        self.free = threading.Event()
        super().__init__(port)

    def answer(self, link: socket.socket, request: bytes) -> bool:
        self.came.append(request.split(b" ", 2)[1].decode().partition("?")[0])
        self.free.wait()
        send_reply(link)
        return True


def count_waiting(admin: Path) -> int:
    """How many requests wait in the queues of a HAProxy, of its backends and of their servers."""
    with socket.socket(socket.AF_UNIX) as it:
        it.settimeout(20)
        it.connect(str(admin))
        it.sendall(b"show stat -1 6 -1\n")
        told = b"".join(iter(lambda: it.recv(65536), b"")).decode()
    return sum(int(it["qcur"] or 0) for it in csv.DictReader(told.removeprefix("# ").splitlines()))


class Crowd:
    """Devices whose polls wait before a slow desk, each over a connection of its own."""

    def __init__(self, stage: Stage, desk: Slow) -> None:
        self.stage, self.desk, self.links = stage, desk, []
        self.admins = [stage.edge.admin, stage.edge.run / "haproxy-desks/admin.sock"]
        desk.came.clear()
        desk.free.clear()

    def fill(self) -> None:
        """Has all of them ask, and waits until all but the one that the desk has are in a queue."""
        for number in range(POLLS):
            self.begin(self.stage.open(), self.stage.base + POLL.format(number), token(1))
        self.wait_for(POLLS - 1)
        if not isinstance(self.stage, Before):
            assert [count_waiting(it) for it in self.admins] == [POLLS - PLACES, PLACES - 1]

    def begin(self, link: Link, path: str, fields: str = "") -> None:
        """Sends a request, whose reply is read later."""
        self.links.append(link)
        link.send(f"GET {path} HTTP/1.1\r\nHost: localhost\r\n{fields}\r\n")

    def waiting(self) -> int:
        """How many requests wait in all queues."""
        return sum(count_waiting(it) for it in self.admins if it.exists())

    def wait_for(self, count: int) -> None:
        """Waits until so many requests are in queues."""
        eventually(f"{count} that wait", lambda: self.waiting() == count)

    def told(self) -> list[int]:
        """What each request is told, once the desk is free."""
        self.desk.free.set()
        return [it.reply()[0] for it in self.links]

    def end(self) -> None:
        self.desk.free.set()
        for it in self.links:
            it.close()
        self.wait_for(0)


@pytest.fixture(scope="module")
def slow(stage: Stage, tmp_path_factory: pytest.TempPathFactory) -> Iterator[tuple[Stage, Slow]]:
    """The form before such a desk."""
    made = stage.bare(tmp_path_factory.mktemp("turns"))
    desk = Slow(made.behind)
    yield made, desk
    desk.end()
    made.end()


@pytest.fixture
def crowd(slow: tuple[Stage, Slow]) -> Iterator[Crowd]:
    """The form before a desk that answers nobody yet, with eighty polls of which all but one wait."""
    made = Crowd(*slow)
    try:
        made.fill()
        yield made
    finally:
        made.end()


def test_operator_waits_behind_no_device(crowd: Crowd) -> None:
    """The desk has one poll when it is free; then come the operators, by each way in, and then the devices that waited
    before them. A login gives a device's path no such turn."""
    stage = crowd.stage
    crowd.begin(stage.open(), stage.base + POLL.format("late"), login("zoe"))
    crowd.wait_for(POLLS)
    crowd.begin(stage.open(), stage.base + TARGETS, login("zoe"))
    crowd.begin(stage.open_near(), stage.near_base + TARGETS)
    first = [TARGETS, TARGETS]
    if stage.form == "pod":
        # the probe of a pod asks for this one
        crowd.begin(Link(socket.create_connection((HOST, stage.edge.health), 30)), "/ready")
        first.append("/rest/v1/softwaremodules")
    crowd.wait_for(POLLS + len(first))
    told, came = crowd.told(), crowd.desk.came
    places = sorted(came.index(it) for it in {*first})
    print(f"{stage.form}: operators behind {places} of {len(came)} requests")
    assert sorted(came[1 : 1 + len(first)]) == sorted(first), places
    assert came.index(POLL.format("late")) > PLACES
    assert told == [200] * (POLLS + 1 + len(first))


def test_converter_has_the_turn_of_its_device(crowd: Crowd) -> None:
    """What fwdesk-hawkbit looks at for a device waits behind the devices that came before it. By the field that names such a
    device nobody else comes later than an operator does."""
    stage = crowd.stage
    named, looked = "X-Fwdesk-Device: turn-1\r\n", f"{TARGETS}/turn-1"
    way_in = stage.open_path(stage.edge.run / "fwdesk/hawkbit.sock")
    crowd.begin(way_in, stage.near_base + looked, named)
    crowd.wait_for(POLLS)
    crowd.begin(stage.open(), stage.base + TARGETS, named + login("zoe"))
    crowd.begin(stage.open_near(), stage.near_base + TARGETS, named)
    crowd.wait_for(POLLS + 2)
    told, came = crowd.told(), crowd.desk.came
    print(f"{stage.form}: behind {came.index(looked)} of {len(came)} requests")
    assert came[1:3] == [TARGETS, TARGETS]
    assert came.index(looked) > PLACES
    assert told == [200] * (POLLS + 3)


def test_stranger_comes_to_no_queue(crowd: Crowd) -> None:
    """Who has no right login is refused, while the desk answers nobody: a request for an operator's path takes nobody's turn."""
    stage = crowd.stage
    told = [
        stage.ask("GET", path, fields)[0]
        for path, fields in (
            (TARGETS, ""),
            (TARGETS, login("zoe", "wrong")),
            (TARGETS, login("nobody", "wrong")),
            (TARGETS, token(1)),
            (f"/DEFAULT/..{TARGETS}", token(1)),
            (f"/DEFAULT/%2e%2e{TARGETS}", token(1)),
        )
    ]
    assert told == [401, 401, 401, 401, 404, 404]
    assert crowd.waiting() == POLLS - 1
    assert crowd.told() == [200] * POLLS
    assert sorted(crowd.desk.came) == sorted(POLL.format(it) for it in range(POLLS))
