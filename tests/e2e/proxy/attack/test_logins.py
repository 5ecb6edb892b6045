"""Wrong passwords: how many an address has, what they cost, and who is kept waiting by them."""

import itertools
import os
import socket
import subprocess
import time
from concurrent.futures import ThreadPoolExecutor
from typing import Iterator

import pytest
from .crowd import compare, ended, hold, load, lost, make_sources, silent
from harness.processes import HOST, eventually, free_port
from .stage import GUESSED, TLS, Link, Plain, Stage, login

pytestmark = [pytest.mark.e2e]
WRONG = login("ben", "wrong")


def wrong(stage: Stage, source: str = HOST, password: str = "wrong", name: str = "zoe") -> int:
    """The status that a wrong login is answered with."""
    return stage.ask("GET", "/rest/v1/targets", login(name, password), source=source)[0]


@pytest.mark.gate
@pytest.mark.timed
def test_guesser_waits(quiet: Stage) -> None:
    """Twenty a minute; then 429 after ten seconds, right logins too. Others and devices at that address aren't kept."""
    source = "127.0.0.77"
    assert [wrong(quiet, source) for _ in range(20)] == [401] * 20
    began = time.monotonic()
    with ThreadPoolExecutor() as those:
        late = those.submit(wrong, quiet, source)
        right = those.submit(
            lambda: quiet.ask("GET", "/rest/v1/targets", login("zoe"), source=source)[0]
        )
        with quiet.open(source) as link:
            assert quiet.poll(link, 1)[0] == 200
        assert quiet.ask("GET", "/rest/v1/targets", login("zoe"), source="127.0.0.78")[0] == 200
        assert not late.done() and not right.done()
        assert (late.result(), right.result()) == (429, 429)
    assert 9.5 < time.monotonic() - began < 20


def guess(stage: Stage, source: str) -> Link:
    """A wrong login over a connection of its own, whose answer isn't waited for."""
    link = stage.open(source)
    link.send(f"GET {stage.base}/rest/v1/targets HTTP/1.1\r\nHost: localhost\r\n{WRONG}\r\n")
    return link


def lets_in(stage: Stage, source: str) -> bool:
    """Whether an address gets as far as TLS."""
    try:
        stage.open(source).close()
    except OSError:
        return False
    return True


def serves_device(stage: Stage, device: int, source: str) -> bool:
    """Whether a poll over a connection of its own is answered."""
    with stage.open(source) as link:
        return stage.poll(link, device)[0] == 200


def use_up(stage: Stage, source: str) -> None:
    """All passwords that an address may try in a minute. Those of `ben` cost HAProxy little."""
    assert [wrong(stage, source, name="ben") for _ in range(20)] == [401] * 20


@pytest.mark.gate
@pytest.mark.timed
def test_stranger_who_guesses_gets_no_tls(stocked: Stage) -> None:
    """An address that was refused a hundred times unread within ten seconds isn't let in any more. One where a device was answered
    is, and so is one where an operator was, and any other."""
    stocked.forget()
    stranger, devices, operators, other = (f"127.12.0.{it}" for it in range(1, 5))
    assert serves_device(stocked, 1, devices)
    assert stocked.ask("GET", "/fwdesk/me", login("ben"), source=operators)[0] == 200
    links: list[Link] = []
    try:
        for it in (stranger, devices, operators):
            use_up(stocked, it)
            hold(links, lambda it=it: guess(stocked, it), 100)
        eventually("a stranger who isn't let in", lambda: not lets_in(stocked, stranger), 5)
        assert len(links) == 300
        assert [lets_in(stocked, it) for it in (devices, operators, other)] == [True] * 3
        assert serves_device(stocked, 2, devices)
    finally:
        for link in links:
            link.close()
    stocked.forget()
    assert serves_device(stocked, 1, stranger)


@pytest.mark.gate
@pytest.mark.timed
def test_strangers_get_no_tls_while_many_guess(stocked: Stage) -> None:
    """Where all together were refused unread a hundred times within ten seconds, a stranger is let in no more once he was.
    Who wasn't is."""
    stocked.forget()
    operators, links = "127.13.1.1", []
    assert stocked.ask("GET", "/fwdesk/me", login("ben"), source=operators)[0] == 200
    for it in range(1, 16):
        use_up(stocked, f"127.13.0.{it}")
    sources = [f"127.13.2.{it}" for it in range(1, 102)]
    try:
        for it in sources:
            hold(links, lambda it=it: guess(stocked, it), 1)
        eventually("strangers who aren't let in", lambda: not lets_in(stocked, sources[-1]), 5)
        assert len(links) == len(sources)
        assert not any(lets_in(stocked, it) for it in sources[:10])
        assert serves_device(stocked, 1, "127.13.1.2")
        assert stocked.ask("GET", "/fwdesk/me", login("ben"), source=operators)[0] == 200
    finally:
        for link in links:
            link.close()
    stocked.forget()


@pytest.mark.gate
def test_fleet_behind_one_router_is_served(stocked: Stage, size: int) -> None:
    """A hundred devices (a thousand at full size) that come back at the same moment, each by a connection of its own, from an
    address that nobody knows yet; then thirty (three hundred), one after the other, beside one who guesses there.
    """
    stocked.forget()
    router, links = "127.14.0.1", []

    def come(device: int) -> int:
        link = stocked.open(router)
        links.append(link)
        return stocked.poll(link, device)[0]

    try:
        with ThreadPoolExecutor(32) as those:
            told = list(those.map(come, range(1, 100 * size + 1)))
    finally:
        for link in links:
            link.close()
    assert told == [200] * len(told)
    use_up(stocked, router)
    guesses: list[Link] = []
    try:
        for device in range(1, 30 * size + 1):
            hold(guesses, lambda: guess(stocked, router), 2)
            assert serves_device(stocked, device, router)
            if len(guesses) > 100:
                guesses.pop(0).close()
    finally:
        for link in guesses:
            link.close()
    stocked.forget()


@pytest.mark.gate
@pytest.mark.timed
@pytest.mark.parametrize("letters", [200, 511, 4000])
def test_long_password_is_cheap(quiet: Stage, letters: int) -> None:
    """A password that is longer than any costs no more than a short one does, and counts as a wrong one."""
    spent, source = [], f"127.0.8.{letters % 250}"
    for password in ("short", "x" * letters):
        quiet.forget()
        began = quiet.processor()
        assert [wrong(quiet, source, password) for _ in range(19)] == [401] * 19
        spent.append(quiet.processor() - began)
    quiet.forget()
    assert spent[1] <= spent[0] * 1.5 + 0.03, spent
    for _ in range(20):
        wrong(quiet, source, "x" * letters)
    with quiet.open(source, timeout=1) as link:
        with pytest.raises(TimeoutError):
            link.ask("GET", quiet.base + "/rest/v1/targets", login("zoe"))


@pytest.mark.gate
@pytest.mark.timed
def test_time_tells_no_name(quiet: Stage) -> None:
    """A wrong login of a name that is there takes as long as one of a name that isn't: at its quickest, and of the processor."""
    names = (GUESSED, "absent")
    quickest, spent = dict.fromkeys(names, 90.0), dict.fromkeys(names, 0.0)
    for turn in range(6):
        for name in names:
            since = quiet.processor()
            for number in range(20):
                with quiet.open(f"127.10.{turn}.{number + 1}") as link:
                    began = time.perf_counter()
                    path = f"{quiet.base}/rest/v1/targets"
                    assert link.ask("GET", path, login(name, "wrong"))[0] == 401
                    quickest[name] = min(quickest[name], time.perf_counter() - began)
            spent[name] += quiet.processor() - since
    print(f"{quiet.form}: quickest {quickest}, of the processor {spent}; {load()}")
    # where the password of an absent name isn't checked these are a fifth and a third
    assert 0.5 < quickest["absent"] / quickest[GUESSED] < 2, quickest
    assert 0.7 < spent["absent"] / spent[GUESSED] < 1.4, spent


@pytest.mark.gate
@pytest.mark.timed
@pytest.mark.parametrize("letters", [5, 500])
def test_polls_beside_guessers(
    quiet: Stage, size: int, seconds: float, least: float, letters: int
) -> None:
    """Wrong passwords from five hundred addresses, which don't wait for their answers, leave devices a share of their polls."""
    head = f"GET {quiet.base}/rest/v1/targets HTTP/1.1\r\nHost: localhost\r\n{login('zoe', 'y' * letters)}\r\n"

    def guess(source: str) -> Link:
        link = quiet.open(source)
        link.send(head)
        return link

    def guesses(until: float) -> None:
        links: list[Link] = []
        sources = make_sources(50)
        while time.monotonic() < until:
            hold(links, lambda: guess(next(sources)), 1)
            if len(links) > 20 * size:
                links.pop(0).close()

    alone, under = compare(quiet, seconds, guesses, 10)
    assert under.rate > alone.rate * least, (alone, under)
    assert under.refused == 0


@pytest.fixture(scope="module")
def both(
    request: pytest.FixtureRequest, stage: Stage, tmp_path_factory: pytest.TempPathFactory
) -> Iterator[Stage]:
    """The same form with a port of IPv6 that takes IPv4 too, before a stand-in. A guesser waits for two seconds in place of ten."""
    folder = tmp_path_factory.mktemp("both")
    if before := request.config.getoption("--before", None):
        pytest.skip(f"{before.name} is tried by hand: its port is in the text")
    try:
        socket.create_server(("::1", 0), family=socket.AF_INET6).close()
    except OSError:
        pytest.skip("this machine has no IPv6")
    made = Stage.__new__(Stage)
    made.folder, made.program, made.form, made.server = folder, None, stage.form, None
    made.behind = free_port()
    port = free_port()
    made.edge = made.make_edge(
        {"FWDESK_BIND": f":::{port}", "FWDESK_BIND_OPTIONS": "v4v6 alpn http/1.1"},
        lambda _, text: text.replace("timeout tarpit 10s", "timeout tarpit 2s"),
    )
    made.edge.port, made.port, made.base = port, port, made.edge.base
    made.edge.start()
    server = Plain(made.behind)
    yield made
    server.end()
    made.end()


def tried(port: int, source: str) -> int:
    """The status of a wrong login from an address of either kind; 429 where it was kept waiting."""
    with Link(TLS.wrap_socket(silent(port, source))) as link:
        return link.ask("GET", "/fwdesk/me", login("zoe", "wrong"))[0]


def tried_at_once(port: int, sources: list[str]) -> list[int]:
    """The same of several addresses at the same time."""
    with ThreadPoolExecutor() as those:
        return list(those.map(lambda it: tried(port, it), sources))


@pytest.mark.gate
def test_both_kinds_of_addresses(both: Stage) -> None:
    """An IPv6 address has as many wrong logins as an IPv4 one, and each IPv4 address its own, behind one port for both. Devices
    are served at either."""
    both.forget()
    for it in ("::1", "127.0.0.5"):
        with Link(TLS.wrap_socket(silent(both.port, it))) as link:
            assert both.poll(link, 1)[0] == 200, it
    those = ["::1", "127.0.0.5"]
    for it in those:
        assert [tried(both.port, it) for _ in range(20)] == [401] * 20, it
    assert tried_at_once(both.port, [*those, "127.0.0.6"]) == [429, 429, 401]


@pytest.fixture(scope="module")
def network() -> Iterator[str]:
    """48 bits of IPv6 whose addresses this machine takes for its own."""
    # which no other run of this test on the machine gives and takes
    own = f"2001:db8:{os.getpid() & 0xFFFF:x}"
    route = ["local", f"{own}::/48", "dev", "lo"]
    try:
        words = ["ip", "-6", "route", "replace", *route]
        subprocess.run(words, check=True, capture_output=True)
    except (OSError, subprocess.CalledProcessError):
        pytest.skip("addresses can't be given to this machine")
    yield own
    subprocess.run(["ip", "-6", "route", "del", *route], check=False)


@pytest.mark.gate
def test_whole_network_is_one(both: Stage, network: str) -> None:
    """The addresses of 64 bits of IPv6 are one guesser; those of the next 64 are another."""
    own = [f"{network}:1::{it:x}" for it in range(1, 6)]
    both.forget()
    for turn in range(4):
        assert [tried(both.port, it) for it in own] == [401] * 5, turn
    assert tried_at_once(both.port, [*own[:2], f"{network}:2::1"]) == [429, 429, 401]


@pytest.mark.gate
def test_network_has_a_thousand_connections(both: Stage, network: str) -> None:
    """They have a thousand connections together: one more, of any of them, is ended at once."""
    links: list[socket.socket] = []
    try:
        for host in range(1, 6):
            hold(links, lambda: silent(both.port, f"{network}:3::{host}"), 200)
        eventually("a thousand connections", lambda: both.connections() == len(links) == 1000)
        hold(links, lambda: silent(both.port, f"{network}:3::6"), 1)
        eventually("one that is ended", lambda: lost(links, 1001) == 1, 5)
        hold(links, lambda: silent(both.port, f"{network}:4::6"), 1)
        time.sleep(0.5)
        assert (lost(links, 1002), ended(links[-1:])) == (1, 0)
    finally:
        for it in links:
            it.close()


@pytest.mark.gate
@pytest.mark.timed
@pytest.mark.parametrize("letters", [5, 500])
def test_polls_beside_guessers_of_ipv6(
    both: Stage, network: str, size: int, seconds: float, least: float, letters: int
) -> None:
    """Wrong passwords from five hundred addresses of a hundred networks of IPv6 leave devices a share of their polls."""
    both.forget()
    head = f"GET /rest/v1/targets HTTP/1.1\r\nHost: localhost\r\n{login('zoe', 'y' * letters)}\r\n"

    def guess(source: str) -> Link:
        link = Link(TLS.wrap_socket(silent(both.port, source)))
        link.send(head)
        return link

    def guesses(until: float) -> None:
        links: list[Link] = []
        own = os.getpid()
        sources = itertools.cycle(
            f"{network}:{0x1000 + own * 10 % 0x8000 + net:x}::{host:x}"
            for host in range(1, 6)
            for net in range(10)
        )
        while time.monotonic() < until:
            hold(links, lambda: guess(next(sources)), 1)
            if len(links) > 20 * size:
                links.pop(0).close()

    alone, under = compare(both, seconds, guesses, 10)
    assert under.rate > alone.rate * least, (alone, under)
    assert under.refused == 0
