"""Of many fleets on one machine: each console hears, asks and shows its own fleet; what leads to them knows no more than names."""
import asyncio
import socket

import pytest
from aiohttp import web
from aiohttp.test_utils import TestClient, TestServer
from fakes import play
from fwdesk_console import settings
from fwdesk_console.lead import Lines, Questions, fleet_of


def test_a_console_hears_its_own_fleet_alone(tmp_path):
    async def course(stand):
        stand.desk.base = "/fleets/acme"
        await stand.look()
        start = '"anna" POST /fleets/acme/rest/v1/rollouts/1/start'
        stand.hear(f"audit 200 192.0.2.7 {start} fleet=other\n")
        stand.hear('audit 200 192.0.2.7 "anna" POST /rest/v1/rollouts/1/start\n')
        assert (await stand.get("/fwdesk/audit"))[2] == []
        stand.hear(f"audit 200 192.0.2.7 {start} fleet=acme\n")
        stand.hear('audit 200 192.0.2.7 "ben" POST /rest/v1/rollouts/1/pause fleet=acme\n')
        told = (await stand.get("/fwdesk/audit"))[2]
        assert [(it["who"], it["path"]) for it in told] == [
            ("ben", "/rest/v1/rollouts/1/pause"),
            ("anna", "/rest/v1/rollouts/1/start"),
        ]
        path = "/fleets/acme/DEFAULT/controller/v1/acme-1/deploymentBase/7/feedback"
        stand.hear(f"audit 200 192.0.2.7 - POST {path} fleet=acme\n")
        assert stand.service.ear.counts["report"] == 1

    play(tmp_path, course, fleet="acme")


def test_a_console_asks_for_its_own_fleet_and_knows_its_own_devices(tmp_path):
    async def course(stand):
        stand.desk.base = "/fleets/acme"
        stand.table.text += (
            "0x1: key=acme/pump-1 use=0 exp=2073600000 shard=0 http_req_cnt=1\n"
            "0x2: key=other/pump-2 use=0 exp=2073600000 shard=0 http_req_cnt=1\n"
            "0x3: key=acme-1 use=0 exp=2073600000 shard=0 http_req_cnt=1\n"
        )
        await stand.look()
        assert not stand.service.watch.away and "/rest/v1/rollouts" in stand.desk.asked
        assert list((await stand.get("/fwdesk/seen"))[2]) == ["pump-1"]

    play(tmp_path, course, fleet="acme")


def test_the_settings_of_a_fleet_have_records_and_an_address_of_its_own():
    told = settings.check_all({"link": "https://desk.example:8443/page/"})
    own = settings.of_fleet(told, "acme")
    assert own.records == "/var/lib/fwdesk-consoles/acme/console.db"
    assert own.link == "https://desk.example:8443/fleets/acme/page/"
    for name in ("", "../x", "Acme", "a" * 25, "a b"):
        with pytest.raises(settings.Wrong):
            settings.of_fleet(told, name)


@pytest.mark.parametrize(
    ("line", "fleet"),
    [
        (b'audit 200 192.0.2.7 "anna" POST /x fleet=acme\n', "acme"),
        (b'audit 200 192.0.2.7 "a fleet=other" POST /x fleet=acme', "acme"),
        (b'audit 401 192.0.2.7 "x" GET /?x= fleet=other fleet=\n', None),
        (b'audit 200 192.0.2.7 "anna" POST /x fleet=../acme\n', None),
        (b'audit 200 192.0.2.7 "anna" POST /x fleet=-\n', None),
        (b'audit 200 192.0.2.7 "anna" POST /x\n', None),
        (b"", None),
    ],
)
def test_a_line_is_of_the_fleet_that_haproxy_says_last(line, fleet):
    assert fleet_of(line) == fleet


def test_lines_are_led_to_the_console_of_their_fleet(tmp_path):
    (tmp_path / "acme").mkdir()
    with socket.socket(socket.AF_UNIX, socket.SOCK_DGRAM) as console:
        console.bind(str(tmp_path / "acme/audit.sock"))
        lines = Lines(tmp_path)
        for fleet in ("acme", "gone"):
            lines.datagram_received(b"audit .. fleet=%s\n" % fleet.encode(), None)
        console.setblocking(False)
        assert console.recv(100) == b"audit .. fleet=acme\n"
        with pytest.raises(BlockingIOError):
            console.recv(100)
        # one that takes none keeps nobody waiting
        for _ in range(1000):
            lines.datagram_received(b"audit .. fleet=acme\n", None)
        lines.out.close()


def test_questions_are_led_to_the_console_of_the_fleet_that_haproxy_names(tmp_path):
    async def course():
        asked = []

        async def answer(request):
            asked.append((request.path_qs, dict(request.headers)))
            if request.path == "/slow":
                await asyncio.sleep(9)
            told = {"ETag": '"7"', "Age": "2", "Set-Cookie": "x=1", "Location": "//evil.example"}
            return web.Response(
                text="{}", status=404 if request.path == "/none" else 200, headers=told
            )

        (tmp_path / "acme").mkdir()
        app = web.Application()
        app.router.add_get("/{path:.*}", answer)
        runner = web.AppRunner(app)
        await runner.setup()
        await web.UnixSite(runner, str(tmp_path / "acme/http.sock")).start()
        async with TestClient(TestServer(Questions(tmp_path).app())) as client:
            fields = {"x-fleet": "acme", "If-None-Match": '"6"', "Authorization": "Basic xyz"}
            reply = await client.get("/fwdesk/state?rollout=1", headers=fields)
            assert reply.status == 200 and await reply.text() == "{}"
            assert (reply.headers["ETag"], reply.headers["Age"]) == ('"7"', "2")
            assert reply.headers["Server"] == "fwdesk-console"
            assert not {"Set-Cookie", "Location"} & set(reply.headers)
            path, sent = asked[0]
            assert path == "/fwdesk/state?rollout=1" and sent["If-None-Match"] == '"6"'
            assert "Authorization" not in sent
            assert (await client.get("/none", headers=fields)).status == 404
            for fleet, status in (("gone", 503), ("../acme", 404), ("", 404)):
                reply = await client.get("/fwdesk/state", headers={"x-fleet": fleet})
                assert reply.status == status, fleet
            assert (await client.post("/fwdesk/state", headers=fields)).status == 405
            reply = await client.get("/slow", headers=fields)
            assert reply.status == 504 and (await reply.json())["error"] == "console"
        await runner.cleanup()

    asyncio.run(course())
