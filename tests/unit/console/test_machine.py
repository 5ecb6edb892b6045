"""What this machine alone tells: commands to come, what became of others, and when the proxy's certificate ends."""
import asyncio
import datetime
import json
import os
import ssl
import subprocess

import pytest
from fakes import play
from fwdesk_console.clock import Clock
from fwdesk_console.machine import Machine, end_of
from fwdesk_ctl import systemd

ORDER = {
    "number": 4,
    "at": "2030-01-02T03:04:05+00:00",
    "words": ["start", "7", "<b>"],
    "zone": "UTC",
    "missed": "tell",
    "who": "anna",
    "url": "http://127.0.0.1:8081/fleets/acme",
}


@pytest.fixture
def clock_folder(tmp_path, monkeypatch):
    """A folder for timers and one for the book, as the console finds them."""
    for name in ("UNITS", "BOOK"):
        monkeypatch.setattr(systemd, name, tmp_path)
    text = systemd.format_timer("x", ["2030-01-02 03:04:05 UTC"], "x.service", ORDER)
    (tmp_path / "fwdesk-at-4.timer").write_text(text)
    ended = {**ORDER, "outcome": "refused", "told": "409", "ended": "2026-01-01T00:00:00+00:00"}
    book = {"last": 4, "begun": {}, "counts": {"refused": 2}, "ended": [ended]}
    (tmp_path / "orders.json").write_text(json.dumps(book))


def certificate(folder, *more):
    words = "req -x509 -nodes -newkey ec -pkeyopt ec_paramgen_curve:prime256v1 -subj /CN=x"
    files = ["-keyout", folder / "key", "-out", folder / "crt"]
    subprocess.run(["openssl", *words.split(), *files, *more], check=True, capture_output=True)
    said = subprocess.run(
        ["openssl", "x509", "-in", folder / "crt", "-noout", "-enddate"],
        check=True,
        stdout=subprocess.PIPE,
        text=True,
    ).stdout
    text = said.strip().removeprefix("notAfter=")
    ends = datetime.datetime.strptime(text, "%b %d %H:%M:%S %Y GMT")
    return ends.replace(tzinfo=datetime.timezone.utc).timestamp()


@pytest.mark.parametrize("days", ["2", "20000"])  # the second in 2080: the other form of a time
def test_the_end_of_a_certificate_is_what_openssl_says(tmp_path, days):
    ends = certificate(tmp_path, "-days", days)
    assert end_of(ssl.PEM_cert_to_DER_cert((tmp_path / "crt").read_text())) == ends


@pytest.mark.parametrize("cut", [0, 1, 2, 40, 60, 100])
def test_what_is_no_certificate_is_refused_and_never_taken_for_one(tmp_path, cut):
    certificate(tmp_path)
    whole = ssl.PEM_cert_to_DER_cert((tmp_path / "crt").read_text())
    for it in (whole[:cut], os.urandom(cut)):
        with pytest.raises((ValueError, KeyError)):
            end_of(it)


def test_the_certificate_is_that_of_the_port(tmp_path):
    async def course():
        ends = certificate(tmp_path, "-days", "3")
        server_side = ssl.create_default_context(ssl.Purpose.CLIENT_AUTH)
        server_side.load_cert_chain(tmp_path / "crt", tmp_path / "key")
        server = await asyncio.start_server(lambda *_: None, "127.0.0.1", 0, ssl=server_side)
        port = server.sockets[0].getsockname()[1]
        machine = Machine(Clock(), f"127.0.0.1:{port}")
        await machine.look_at_certificate()
        assert machine.certificate_ends == ends
        server.close()
        await machine.look_at_certificate()
        assert machine.certificate_ends is None

    asyncio.run(course())


def test_what_is_to_come_is_told_to_its_fleet_without_the_way_to_the_desk(tmp_path, clock_folder):
    async def course(stand):
        status, _, told = await stand.get("/fwdesk/coming")
        assert status == 200 and [it["words"] for it in told["orders"]] == ["start 7 <b>"]
        assert told["ended"][0]["outcome"] == "refused" and told["quiet"] is None
        assert "url" not in json.dumps(told) and "8081" not in json.dumps(told)
        assert (await stand.get("/fwdesk/coming?fleet=other"))[0] == 400

    play(tmp_path, course, fleet="acme")
    without = lambda stand: stand.get("/fwdesk/coming")

    async def other(stand):
        assert (await without(stand))[2] == {"orders": [], "ended": [], "quiet": None}

    play(tmp_path, other, fleet="other")


def test_metrics_have_the_commands_the_certificate_and_what_a_group_waits_for(
    tmp_path, clock_folder
):
    async def course(stand):
        await stand.look()
        stand.desk.finish(1, 1)
        await stand.look()
        stand.service.machine.certificate_ends = 1_900_000_000.0
        text = (await stand.get("/metrics"))[2].splitlines()
        for line in (
            "fwdesk_orders_waiting 1",
            'fwdesk_orders_total{outcome="refused"} 2',
            'fwdesk_orders_total{outcome="done"} 0',
            'fwdesk_certificate_ends{at=""} 1900000000',
            'fwdesk_group_targets{rollout="1",group="1",outcome="open"} 9',
            'fwdesk_group_needed{rollout="1",group="1"} 9',
        ):
            assert line in text, (line, text)
        stand.desk.groups[1][0]["status"] = "scheduled"
        await stand.look()
        text = (await stand.get("/metrics"))[2]
        assert "fwdesk_group_needed{" not in text and 'outcome="open"' not in text
        # a book that can't be read takes nothing else with it
        (tmp_path / "orders.json").write_text("{")
        text = (await stand.get("/metrics"))[2]
        assert "fwdesk_orders" not in text and "fwdesk_up 1" in text

    play(tmp_path, course)
