"""The brake: it holds, or that it doesn't is told within ten seconds, under a flood and where something is broken."""

import contextlib
import fcntl
import json
import os
import selectors
import shutil
import socket
import subprocess
import time
from collections import Counter
from typing import Callable, Iterator

import pytest
from .crowd import attacked, hold, load, make_sources
from harness.edge import FLEET
from harness.processes import HOST, PATIENCE, eventually
from .stage import GUESSED, ROOT, Link, Stage, login
from .test_floods import waiting_head

pytestmark = [pytest.mark.e2e]


@contextlib.contextmanager
def brake_of(stage: Stage, *before: str) -> Iterator[None]:
    """fwdesk-brake behind its socket, as fwdesk-brake.socket has it, by a command before it."""
    path = stage.edge.run / "fwdesk-brake.sock"
    own = (
        f"FWDESK_BRAKE_FILE={stage.edge.held}",
        f"FWDESK_BRAKE_SOCKETS={stage.edge.desks_master}",
    )
    words = [*before, "systemd-socket-activate", "--accept", "--inetd", "-l", str(path)]
    words += [it for name in own for it in ("-E", name)]
    words += [str(ROOT / "cli/fwdesk-brake"), "serve"]
    path.unlink(missing_ok=True)
    child = subprocess.Popen(words, stderr=subprocess.DEVNULL)
    try:
        eventually("the brake's socket", path.exists)
        yield
    finally:
        child.terminate()
        child.wait()


@pytest.fixture
def braked(quiet: Stage) -> Iterator[Stage]:
    """A form with its brake, which is released in the end."""
    if not shutil.which("systemd-socket-activate"):
        pytest.skip("there is no systemd-socket-activate")
    with brake_of(quiet):
        yield quiet
    # (a test may have taken its socket)
    with brake_of(quiet):
        for kind in ("brake", "quiet"):
            eventually("the release", lambda kind=kind: press(quiet, "DELETE", kind)[0] == 200)


def press(stage: Stage, method: str, kind: str = "brake", near: bool = True) -> tuple[int, bytes]:
    """Holds or releases, by the machine's own way in or by a login: the status and what is told."""
    path = f"/fwdesk/brake?kind={kind}&reason=it%20burns"
    opened = stage.open_near(40) if near else stage.open("127.7.0.2", timeout=40)
    with opened as link:
        base, fields = (stage.near_base, "") if near else (stage.base, login("cleo"))
        status, _, told = link.ask(method, base + path, fields, b"")
    return status, told


def order(
    stage: Stage, method: str, kind: str = "brake", near: bool = True
) -> tuple[int, bytes, float]:
    """The same, again as long as it is told that it isn't done: the slowest answer too, which comes within ten seconds. A machine
    that is busy otherwise may take longer than that to start fwdesk-brake."""
    slowest = 0.0
    for _ in range(10):
        began = time.monotonic()
        status, told = press(stage, method, kind, near)
        slowest = max(slowest, time.monotonic() - began)
        if status not in (503, 504):
            break
    assert slowest < 10, (status, told)
    return status, told, slowest


def offered(stage: Stage) -> bool:
    """Whether a device that has a deployment is told of it."""
    with stage.open("127.7.0.1", timeout=20) as link:
        status, _, told = stage.poll(link, 1)
        assert status == 200
        return b"deploymentBase" in told


@pytest.mark.gate
@pytest.mark.timed
@pytest.mark.forms("single", "fleets", "failover", "port")
@pytest.mark.parametrize("near", [False, True], ids=["login", "near"])
def test_brake_under_a_thousand_connections(braked: Stage, near: bool) -> None:
    """Beside a thousand connections of one address that say nothing, an order is done, told within ten seconds, and holds at the
    next poll."""
    assert offered(braked)
    links: list[Link] = []

    def idle() -> Link:
        it = socket.socket()
        it.settimeout(PATIENCE)
        it.bind(("127.7.1.1", 0))
        it.connect((HOST, braked.port))
        return Link(it)

    try:
        hold(links, idle, 1000)
        held = order(braked, "POST", near=near)
        assert held[0] == 200 and not offered(braked), held
        released = order(braked, "DELETE", near=near)
        assert released[0] == 200 and offered(braked), released
    finally:
        for it in links:
            it.close()
    print(
        f"{braked.form}: {len(links)} connections, {held[2]:.1f} and {released[2]:.1f} s; {load()}"
    )
    assert len(links) == 1000


def guess(stage: Stage, source: str) -> Link:
    """A wrong login whose answer isn't waited for."""
    link = stage.open(source, timeout=1)
    fields = f"Host: localhost\r\n{login(GUESSED, 'wrong')}"
    link.send(f"GET {stage.base}/rest/v1/targets HTTP/1.1\r\n{fields}\r\n")
    return link


@pytest.mark.gate
@pytest.mark.timed
@pytest.mark.forms("single", "fleets", "failover", "port")
@pytest.mark.parametrize("kind", [waiting_head, guess])
def test_brake_beside_a_flood(braked: Stage, kind: Callable[..., Link]) -> None:
    """Beside heads that never end, and wrong passwords, of five hundred addresses an order is done, and told within ten seconds:
    of an operator who has logged in before, and by the machine's own way in."""

    def flood(until: float) -> None:
        links: list[Link] = []
        sources = make_sources(125)
        while time.monotonic() < until:
            hold(links, lambda: kind(braked, next(sources)), 1)
            if len(links) > 50:
                links.pop(0).close()

    assert order(braked, "DELETE", near=False)[0] == 200
    with attacked(flood, 4):
        held = order(braked, "POST", near=False)
        with braked.open_near() as link:
            _, _, told = link.ask("GET", f"{braked.near_base}/fwdesk/brake")
        released = order(braked, "DELETE")
    print(f"{braked.form}: {held[2]:.1f} and {released[2]:.1f} s; {load()}")
    assert (held[0], released[0]) == (200, 200), (held, released)
    assert json.loads(told)["brake"], told


@pytest.mark.gate
@pytest.mark.timed
@pytest.mark.forms("single", "fleets", "failover", "port")
def test_each_of_many_orders_is_told(braked: Stage, size: int) -> None:
    """A hundred orders at once (a thousand at full size): each is done or refused, and that is told within ten seconds."""
    head = (
        f"POST {braked.near_base}/fwdesk/brake?kind=brake&reason=x HTTP/1.1\r\nHost: localhost\r\n"
    )
    told: Counter[int] = Counter()
    slowest = 0.0
    with selectors.DefaultSelector() as those:
        for _ in range(100 * size):
            link = braked.open_near(PATIENCE)
            link.send(f"{head}Content-Length: 0\r\n\r\n")
            those.register(link.it, selectors.EVENT_READ, (link, time.monotonic()))
        while those.get_map():
            for key, _ in those.select():
                link, began = key.data
                slowest = max(slowest, time.monotonic() - began)
                told[link.reply()[0]] += 1
                those.unregister(key.fileobj)
                link.close()
    print(f"{braked.form}: {dict(told)}, the slowest after {slowest:.1f} s; {load()}")
    assert not told.keys() - {200, 500, 503, 504}, told
    assert slowest < 10
    # on a machine at rest the first ones of a thousand are done
    assert told[200] or size == 1
    assert order(braked, "POST")[0] == 200 and not offered(braked)


@pytest.mark.gate
@pytest.mark.timed
@pytest.mark.forms("single", "fleets", "failover", "port")
def test_locked_holds_are_told(braked: Stage) -> None:
    """Where another program keeps the holds for itself that is told within ten seconds, and nothing is held."""
    with open(braked.edge.held.parent / ".lock", "wb") as lock:
        os.fchmod(lock.fileno(), 0o600)
        fcntl.flock(lock, fcntl.LOCK_EX)
        status, told, _ = order(braked, "POST")
        assert status == 500 and b"another program is changing" in told, (status, told)
        assert offered(braked)
    assert order(braked, "POST")[0] == 200


@pytest.mark.gate
@pytest.mark.timed
@pytest.mark.forms("single", "fleets", "failover", "port")
def test_hold_that_cannot_be_written_is_told(braked: Stage) -> None:
    """Where no byte can be written it is held all the same, and told within ten seconds that a restart forgets it."""
    with brake_of(braked, "prlimit", "--fsize=0"):
        status, told, _ = order(braked, "POST")
        assert status == 500 and b"holds until HAProxy is restarted" in told, (status, told)
        assert not offered(braked)
    with brake_of(braked):
        assert order(braked, "DELETE")[0] == 200
        assert offered(braked)


@pytest.mark.gate
@pytest.mark.forms("single", "fleets", "failover", "port")
@pytest.mark.parametrize("broken", ['{"who":"anna","sin', "", "7", "%ff"])
def test_broken_map_holds(braked: Stage, broken: str) -> None:
    """A line that a hand broke holds from the next order on, also one of the other kind, and is told as broken."""
    fleet = f"{FLEET}/" if braked.edge.named else ""
    braked.edge.held.write_text(f"# a hand\n{fleet}brake {broken}\n\n")
    status, told, _ = order(braked, "POST", "quiet")
    assert status == 200 and "broken line" in json.loads(told)["brake"]["reason"], told
    assert order(braked, "DELETE", "quiet")[0] == 200
    assert not offered(braked)


@pytest.mark.gate
@pytest.mark.forms("single", "fleets", "failover", "port")
@pytest.mark.parametrize(
    "broken",
    [
        '{"who":"anna","sin',
        "",
        "7",
        "%22",
        '{"who":"a"b","since":"2026-11-30T00:00:00Z","reason":""}',
    ],
)
def test_broken_map_is_told_from_the_start(
    stage: Stage, tmp_path_factory: pytest.TempPathFactory, broken: str
) -> None:
    """HAProxy that starts with a broken line tells of a hold, as JSON; of the other kind it tells what holds."""
    folder = tmp_path_factory.mktemp("broken")
    fleet = f"{FLEET}/" if stage.edge.named else ""
    whole = '{"who":"an%5c%22na","since":"2026-11-30T00:00:00Z","reason":"it%20burns%5cu00e9"}'
    (folder / "held.map").write_text(f"{fleet}brake {broken}\n{fleet}quiet {whole}\n")
    made = Stage(folder, None, stage.form)
    try:
        with made.open_near() as link:
            status, _, told = link.ask("GET", f"{made.near_base}/fwdesk/brake")
    finally:
        made.end()
    held = json.loads(told)
    assert status == 200 and "broken line" in held["brake"]["reason"], told
    assert (held["quiet"]["who"], held["quiet"]["reason"]) == ('an"na', "it burns\u00e9"), told
