"""Connections that cost memory or places without a login, and downloads of one device: what both HAProxys take by them, and
what is left to others."""

import csv
import itertools
import os
import re
import socket
import threading
import time
from typing import Iterator

import pytest
from .crowd import compare, ended, hold, load, lost, make_sources, silent
from harness.processes import HOST, eventually, free_port
from harness.stand_in import StandIn
from .stage import DEVICES, Link, Plain, Stage, token

pytestmark = [pytest.mark.e2e]
MEGABYTE = 1 << 20
# of the ids that strangers name, each another one: what one id may have under way isn't what bounds them
NUMBERS = itertools.count()
LINE = "X: " + "a" * 8000 + "\r\n"
# bytes that a connection costs the edge at the most, and that it has without any, as docs/PROXIES.md reckons
CONNECTION, AT_REST = 100_000, 20_000_000
DOWNLOAD = "/DEFAULT/controller/v1/dev-{0:02}/softwaremodules/1/artifacts/abc.bin"


def unfinished_head(stage: Stage, source: str = HOST) -> Link:
    """A head of 4 MB that never ends, to a device's path, without a token. What isn't taken isn't waited for."""
    link = stage.open(source, timeout=1)
    path = f"{stage.base}/DEFAULT/controller/v1/x{next(NUMBERS)}"
    try:
        link.send(f"GET {path} HTTP/1.1\r\nHost: localhost\r\n" + LINE * 520 + "Y: ")
    except OSError:
        pass
    return link


def waiting_head(stage: Stage, source: str = HOST) -> Link:
    """A head of 24 KB, which is taken, and never ends."""
    link = stage.open(source, timeout=1)
    path = f"{stage.base}/DEFAULT/controller/v1/x{next(NUMBERS)}"
    try:
        link.send(f"GET {path} HTTP/1.1\r\nHost: localhost\r\n" + LINE * 3)
    except OSError:
        pass
    return link


def unfinished_body(stage: Stage, source: str = HOST) -> Link:
    """A body of 4 MB in chunks of which the last one never comes, without a token."""
    link = stage.open(source, timeout=1)
    path = f"{stage.base}/DEFAULT/controller/v1/x{next(NUMBERS)}/configData"
    try:
        link.send(
            f"POST {path} HTTP/1.1\r\nHost: localhost\r\nTransfer-Encoding: chunked\r\n\r\n",
            b"%x\r\n" % (8 << 20) + b"a" * (4 << 20),
        )
    except OSError:
        pass
    return link


def unfinished_length(stage: Stage, source: str = HOST) -> Link:
    """A body of 16 KB whose last byte never comes."""
    link = stage.open(source, timeout=1)
    path = f"{stage.base}/DEFAULT/controller/v1/x{next(NUMBERS)}/configData"
    head = f"POST {path} HTTP/1.1\r\nHost: localhost\r\nContent-Length: 16384\r\n\r\n"
    try:
        link.send(head, b"a" * 16000)
    except OSError:
        pass
    return link


def body_and_next(stage: Stage, source: str = HOST) -> Link:
    """A whole body of 16 KB, and what the edge takes of a next request meanwhile."""
    link = unfinished_length(stage, source)
    try:
        link.send("", b"a" * 384 + b"GET /" + b"b" * 40000)
    except OSError:
        pass
    return link


KINDS = {
    "head": unfinished_head,
    "waiting head": waiting_head,
    "body": unfinished_body,
    "length": unfinished_length,
}


class Mute(StandIn):
    """A desk that never answers."""

    def answer(self, link: socket.socket, request: bytes) -> bool:
        threading.Event().wait()
        return False


@pytest.fixture
def mute(stage: Stage, tmp_path_factory: pytest.TempPathFactory) -> Iterator[Stage]:
    """Such a form, which has served nobody yet: HAProxy keeps what it had to take. It is before a desk that never answers."""
    made = stage.bare(tmp_path_factory.mktemp("mute"))
    server = Mute(made.behind)
    yield made
    server.end()
    made.end()


@pytest.mark.gate
@pytest.mark.parametrize("kind", (*KINDS, "next"))
def test_memory_of_a_stranger(mute: Stage, size: int, kind: str) -> None:
    """Who has no login costs the edge no more a connection than the page reckons, whatever he sends."""
    # what is refused at once is less; and an address has a thousand connections
    count, links = min((60 if kind in ("head", "body") else 300) * size, 900), []
    make, behind = {**KINDS, "next": body_and_next}[kind], mute.edge.memory(mute.edge.desks)
    try:
        hold(links, lambda: make(mute), count)
        most = mute.edge.memory(mute.edge.edge)
        behind = mute.edge.memory(mute.edge.desks) - behind
    finally:
        for it in links:
            it.close()
    print(f"{mute.form}, {kind}: {most // MEGABYTE} MB for {count}, {behind // MEGABYTE} behind")
    assert len(links) >= count * 0.9
    # each thread of HAProxy keeps some of what is free
    assert most < AT_REST + count * CONNECTION + (os.cpu_count() or 1) * MEGABYTE
    assert behind < 16 * MEGABYTE


@pytest.mark.gate
@pytest.mark.timed
@pytest.mark.parametrize("kind", KINDS)
def test_polls_beside_a_stranger(quiet: Stage, seconds: float, least: float, kind: str) -> None:
    """Two hundred of such connections at once, from five hundred addresses, leave devices a share of their polls, each
    within ten seconds."""

    def flood(until: float) -> None:
        links: list[Link] = []
        sources = make_sources(125)
        while time.monotonic() < until:
            if len(links) < 50:
                hold(links, lambda: KINDS[kind](quiet, next(sources)), 1)
            else:
                links.pop(0).close()

    alone, under = compare(quiet, seconds, flood, 4)
    assert under.rate > alone.rate * least and under.slowest < 10, (alone, under)
    assert under.refused == 0


@pytest.mark.gate
@pytest.mark.parametrize(
    "length, wanted", [(200, (400, 401)), (16384, (400, 401)), (16385, (413,)), (60000, (413, 0))]
)
@pytest.mark.parametrize("chunked", [False, True])
def test_size_of_a_device_body(
    quiet: Stage, length: int, wanted: tuple[int, ...], chunked: bool
) -> None:
    """A device's body of 16,384 bytes comes to the desk, which judges it; one byte more is 413, its length said or
    not. One that is sent on meanwhile may find its connection ended."""
    path = f"{quiet.base}/DEFAULT/controller/v1/dev-02/configData"
    body = b"a" * length
    with quiet.open() as link:
        if not chunked:
            assert link.ask("PUT", path, token(2), body)[0] in wanted
            return
        head = f"PUT {path} HTTP/1.1\r\nHost: localhost\r\n{token(2)}Transfer-Encoding: chunked\r\n\r\n"
        try:
            link.send(head, b"%x\r\n" % length + body + b"\r\n0\r\n\r\n")
        except OSError:
            pass
        # the desk takes no chunks, so its own refusal is another one
        assert link.reply()[0] in (*wanted, 0 if length > 40000 else 413, 411, 501)


def slow_download(stage: Stage, device: int, source: str = HOST) -> Link:
    """A download that is hardly read."""
    link = stage.open(source, timeout=5, small=True)
    path = stage.base + DOWNLOAD.format(device)
    link.send(f"GET {path} HTTP/1.1\r\nHost: localhost\r\n{token(device)}\r\n")
    return link


@pytest.mark.gate
def test_slow_readers_of_one_device(stocked: Stage, size: int) -> None:
    """A device has four downloads at once: a hundred that are hardly read cost no more memory than those."""
    stocked.forget()
    before, links = stocked.memory(), []
    try:
        hold(links, lambda: slow_download(stocked, 1), 100 * size)
        time.sleep(1)
        most = stocked.memory()
    finally:
        for it in links:
            it.close()
    print(f"{stocked.form}: {(most - before) / MEGABYTE:.0f} MB for {len(links)} readers; {load()}")
    # four of 4 MiB each, which are held twice for a moment, and what connections cost
    assert most - before < (2 * 4 * 4 + len(links) / 4) * MEGABYTE
    stocked.forget()


@pytest.mark.gate
@pytest.mark.timed
def test_polls_beside_slow_readers(stocked: Stage, size: int, seconds: float, least: float) -> None:
    """Downloads of all devices from five hundred addresses, forty at once (four hundred at full size), which are hardly
    read, leave devices a share of their polls."""
    stocked.forget()

    def flood(until: float) -> None:
        links: list[Link] = []
        devices, sources = itertools.cycle(range(1, DEVICES + 1)), make_sources(125)
        while time.monotonic() < until:
            if len(links) < 10 * size:
                hold(links, lambda: slow_download(stocked, next(devices), next(sources)), 1)
            else:
                links.pop(0).close()

    alone, under = compare(stocked, seconds, flood, 4)
    assert under.rate > alone.rate * least and under.slowest < 10, (alone, under)
    assert under.refused == 0


@pytest.mark.gate
def test_address_has_half_of_all_downloads(narrow: Stage) -> None:
    """Of six downloads an address has three under way, of however many devices; another address has its own."""
    narrow.forget()
    links: list[Link] = []
    try:
        for device in range(1, 4):
            hold(links, lambda device=device: slow_download(narrow, device, "127.4.1.1"), 1)
        eventually("three downloads", lambda: narrow.connections() == 3)
        told = [narrow.ask("GET", DOWNLOAD.format(4), token(4), source="127.4.1.1")[0]]
        told += [narrow.ask("GET", DOWNLOAD.format(4), token(4), source="127.4.1.2")[0]]
    finally:
        for it in links:
            it.close()
    assert told == [429, 200]


@pytest.mark.gate
def test_device_has_eight_requests(quiet: Stage) -> None:
    """A device has eight requests under way at an address, and no poll beside them; another device there has one, and so
    has it at another address."""
    links: list[Link] = []
    path = f"{quiet.base}/DEFAULT/controller/v1/dev-01/configData"
    head = f"PUT {path} HTTP/1.1\r\nHost: localhost\r\n{token(1)}Content-Length: 2\r\n\r\n"

    def begin() -> Link:
        link = quiet.open("127.4.2.1")
        link.send(head)
        return link

    def polled(device: int, source: str) -> int:
        with quiet.open(source) as link:
            return quiet.poll(link, device)[0]

    try:
        hold(links, begin, 8)
        eventually("a ninth that is refused", lambda: polled(1, "127.4.2.1") == 429)
        assert (polled(2, "127.4.2.1"), polled(1, "127.4.2.2")) == (200, 200)
    finally:
        for it in links:
            it.close()


@pytest.mark.gate
@pytest.mark.timed
def test_address_has_a_thousand_connections(quiet: Stage) -> None:
    """One connection more than a thousand of an address is ended at once; another address is served. A silent one is ended
    after ten seconds, so all are opened within these."""
    links: list[socket.socket] = []
    try:
        hold(links, lambda: silent(quiet.port, "127.4.3.1"), 1000)
        eventually("a thousand connections", lambda: quiet.connections() == len(links) == 1000)
        hold(links, lambda: silent(quiet.port, "127.4.3.1"), 1)
        eventually("one that is ended", lambda: lost(links, 1001) == 1, 5)
        hold(links, lambda: silent(quiet.port, "127.4.3.2"), 1)
        time.sleep(0.5)
        assert (lost(links, 1002), ended(links[-1:])) == (1, 0)
    finally:
        for it in links:
            it.close()


@pytest.mark.gate
@pytest.mark.timed
def test_downloads_of_one_device_starve_nobody(quiet: Stage, seconds: float, least: float) -> None:
    """One device with a right token that downloads over twenty connections leaves others a share of their polls."""

    def downloads(until: float) -> None:
        # the last device, which polls too, from another address
        link = None
        while time.monotonic() < until:
            try:
                link = link or quiet.open("127.3.0.1", timeout=20)
                status = link.ask("GET", quiet.base + DOWNLOAD.format(1), token(1))[0]
            except OSError:
                status = 0
            if status == 0 and link:
                link.close()
                link = None

    alone, under = compare(quiet, seconds, downloads, 20)
    assert under.rate > alone.rate * least, (alone, under)
    assert under.refused == 0


@pytest.mark.gate
def test_device_has_twenty_downloads_of_late(stocked: Stage) -> None:
    """Twenty within ten seconds are served, one after the other; the next is 429, and that of another device isn't."""
    path = stocked.base + DOWNLOAD.format(1).replace("abc", "small")
    for _ in range(5):
        stocked.forget()
        began = time.monotonic()
        with stocked.open("127.0.0.91") as link:
            told = [link.ask("GET", path, token(1))[0] for _ in range(25)]
        # on a machine that stands still for seconds the first ones aren't of late any more
        if time.monotonic() - began < 8:
            break
    assert told == [200] * 20 + [429] * 5
    with stocked.open("127.0.0.91") as link:
        assert (
            link.ask("GET", stocked.base + DOWNLOAD.format(2).replace("abc", "small"), token(2))[0]
            == 200
        )
        assert stocked.poll(link, 1)[0] == 200
    # another address can't use a device's downloads up
    with stocked.open("127.0.0.92") as link:
        assert link.ask("GET", path, token(1))[0] == 200


@pytest.mark.gate
def test_door_counts_each_address_by_itself(stocked: Stage) -> None:
    """Of devices that come by another proxy of this machine too nobody uses a device's downloads up from another address."""
    path, told = stocked.near_base + DOWNLOAD.format(1).replace("abc", "small"), []
    for address in ("192.0.2.1", "192.0.2.2"):
        with stocked.open_path(stocked.edge.devices) as link:
            own = f"X-Real-IP: {address}\r\n{token(1)}"
            told.append([link.ask("GET", path, own)[0] for _ in range(21)])
    assert told == [[200] * 20 + [429]] * 2
    stocked.forget()


@pytest.mark.gate
def test_device_that_asks_on_waits(stocked: Stage) -> None:
    """A device that is refused is answered at once a hundred times within ten seconds, and then kept waiting. Its polls over
    another connection aren't, nor is another device."""
    path, refused = stocked.base + DOWNLOAD.format(1).replace("abc", "small"), 0
    for _ in range(5):
        stocked.forget()
        began, refused = time.monotonic(), 0
        with stocked.open("127.0.0.93", timeout=3) as link, pytest.raises(TimeoutError):
            assert [link.ask("GET", path, token(1))[0] for _ in range(20)] == [200] * 20
            while time.monotonic() < began + 60:
                assert link.ask("GET", path, token(1))[0] == 429
                refused += 1
        # on a machine that stands still for seconds the first ones aren't of late any more
        if time.monotonic() - began < 10:
            break
    assert refused == 100
    with stocked.open("127.0.0.93") as link:
        assert [stocked.poll(link, it)[0] for it in (1, 2)] == [200, 200]
    stocked.forget()


def keep_silent_ones(_: str, text: str) -> str:
    """A configuration that ends silent connections after a minute and a half."""
    return re.sub(r"timeout (client|http-request) 10s", r"timeout \1 90s", text)


@pytest.fixture(scope="module")
def narrow(
    request: pytest.FixtureRequest, tmp_path_factory: pytest.TempPathFactory
) -> Iterator[Stage]:
    """An edge for sixty connections and six downloads, before a stand-in whose artifacts have 4 MiB. A connection that says
    nothing is kept for longer than the test lasts."""
    if request.config.getoption("--before", None):
        pytest.skip("its numbers are in the text")
    folder = tmp_path_factory.mktemp("narrow")
    more = {"FWDESK_CONNECTIONS": "60", "FWDESK_DOWNLOADS": "6"}
    made = Stage(folder, None, "single", more, keep_silent_ones)
    server = Plain(made.behind)
    yield made
    server.end()
    made.end()


def is_open(link: Link) -> bool:
    """Whether the other side has neither ended a connection nor said anything."""
    try:
        link.it.recv(1, socket.MSG_DONTWAIT)
    except BlockingIOError:
        return True
    return False


@pytest.mark.gate
def test_way_in_of_the_machine_stays_open(narrow: Stage) -> None:
    """Where the port for all is full, the machine's own socket is served at once."""
    links: list[Link] = []
    try:
        hold(links, lambda: Link(socket.create_connection((HOST, narrow.port))), 90)
        eventually("a full port", lambda: narrow.connections() == 60)
        with narrow.open_near() as link:
            assert link.ask("GET", "/rest/v1/targets")[0] == 200
        with pytest.raises(TimeoutError):
            narrow.open(opening=1).close()
        # nobody's place was needed for that
        assert all(is_open(it) for it in links)
    finally:
        for it in links:
            it.close()


@pytest.mark.gate
@pytest.mark.parametrize("more", [{}, {"FWDESK_HAWKBIT_MANAGE": "1"}], ids=["", "with pipelines"])
def test_ports_leave_room_for_the_machine(
    stage: Stage, tmp_path_factory: pytest.TempPathFactory, more: dict[str, str]
) -> None:
    """All ports that are open to all take 100 connections less than the edge has."""
    own = more and {**more, "FWDESK_HAWKBIT_BIND": f"{HOST}:{free_port()}"}
    made = Stage(tmp_path_factory.mktemp("room"), None, stage.form, own)
    try:
        most = int(re.search(r"(?m)^Maxconn: (\d+)$", made.told("show info"))[1])
        rows = csv.DictReader(made.told("show stat -1 1 -1").removeprefix("# ").splitlines())
        limits = {it["pxname"]: int(it["slim"]) for it in rows}
    finally:
        made.end()
    open_ones = [limits[it] for it in ("fwdesk", "hawkbit") if it in limits]
    assert len(open_ones) == 1 + len(more) and sum(open_ones) + 100 <= most, (limits, most)


@pytest.mark.gate
def test_memory_keeps_its_bound(narrow: Stage) -> None:
    """Six downloads are under way at once: more slow readers, of as many devices, wait, and cost small buffers alone."""
    before, links = narrow.memory(), []
    try:
        for device in range(1, DEVICES + 1):
            hold(links, lambda: slow_download(narrow, device, f"127.4.0.{device}"), 4)
        time.sleep(1)
        most = narrow.memory()
    finally:
        for it in links:
            it.close()
    print(
        f"{(most - before) / MEGABYTE:.1f} MB for {len(links)} readers, of which 6 are served; {load()}"
    )
    assert len(links) == 4 * DEVICES
    assert most - before < (6 * 2 * 4.1 + len(links) / 4) * MEGABYTE
