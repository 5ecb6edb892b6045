"""What is answered: GET alone, each parameter of its form, no version, the same for all by an ETag."""
import re

import pytest
from fakes import START, play
from fwdesk_console import polls
from fwdesk_console.texts import as_text


@pytest.mark.parametrize(
    "path",
    [
        "/fwdesk/state?rollout=x",
        "/fwdesk/state?rollout=0",
        "/fwdesk/state?rollout=1&rollout=2",
        "/fwdesk/state?since=1",
        "/fwdesk/devices?state=failed",
        "/fwdesk/devices?sort=token",
        "/fwdesk/devices?sort=--id",
        "/fwdesk/devices?offset=-1",
        "/fwdesk/devices?lacks=name",
        "/fwdesk/devices?q=",
        "/fwdesk/devices?q=name%3D%3Da%00",
        "/fwdesk/devices?q=name%3D%3Da&q=name%3D%3Da",
        "/fwdesk/audit?limit=x",
        "/fwdesk/audit?limit=-1",
        "/fwdesk/audit?before=99999999999999999999",
        "/fwdesk/audit?path=x",
        "/fwdesk/audit?refused=2",
        "/fwdesk/history?kind=PAUSED",
        "/fwdesk/history?format=html",
        "/fwdesk/seen?device=../../etc",
        "/fwdesk/seen?silent=nan",
        "/fwdesk/seen?silent=1e9",
        "/fwdesk/versions?set=1%27",
        "/fwdesk/versions?device=" + "a" * 65,
        "/metrics?x=1",
    ],
)
def test_a_parameter_that_is_not_taken_is_400_in_words(tmp_path, path):
    async def course(stand):
        status, _, told = await stand.get(path)
        assert status == 400 and told["error"] == "bad_request" and told["words"]

    play(tmp_path, course)


@pytest.mark.parametrize("method", ["POST", "PUT", "DELETE", "PATCH", "HEAD", "OPTIONS"])
def test_nothing_but_get_is_taken(tmp_path, method):
    async def course(stand):
        for path in ("/fwdesk/state", "/fwdesk/audit", "/metrics", "/fwdesk/brake"):
            reply = await stand.client.request(method, path)
            assert reply.status == (404 if path == "/fwdesk/brake" else 405)

    play(tmp_path, course)


def test_no_answer_names_a_version_and_each_is_sandboxed(tmp_path):
    async def course(stand):
        await stand.look()
        for path in ("/fwdesk/state", "/fwdesk/audit?x=1", "/nothing", "/metrics"):
            _, fields, _ = await stand.get(path)
            assert "/" not in fields["Server"] and "Python" not in str(fields)
            assert fields["Content-Security-Policy"] == "default-src 'none'; sandbox"
            assert fields["X-Content-Type-Options"] == "nosniff"

    play(tmp_path, course)


def test_a_fault_of_ours_is_500_in_words_that_tell_nothing_of_it(tmp_path, monkeypatch):
    async def course(stand):
        monkeypatch.setattr(stand.service.console.history, "of", lambda *_: 1 / 0)
        await stand.look()
        status, _, told = await stand.get("/fwdesk/state?rollout=1")
        assert status == 500 and "division" not in str(told)

    play(tmp_path, course)


def test_who_has_the_state_is_answered_304_with_its_age(tmp_path):
    async def course(stand):
        await stand.look()
        status, fields, _ = await stand.get("/fwdesk/state")
        tag = fields["ETag"]
        stand.clock.go(7)
        status, fields, text = await stand.get("/fwdesk/state", headers={"If-None-Match": tag})
        assert (status, text, fields["Age"]) == (304, "", "7")
        stand.desk.rollouts[0]["status"] = "paused"
        await stand.look()
        status, fields, told = await stand.get("/fwdesk/state", headers={"If-None-Match": tag})
        assert status == 200 and told["rollouts"][0]["status"] == "paused"

    play(tmp_path, course)


def test_a_rollout_that_is_not_there_is_404(tmp_path):
    async def course(stand):
        await stand.look()
        assert (await stand.get("/fwdesk/state?rollout=7"))[0] == 404

    play(tmp_path, course)


def test_the_table_is_read_once_in_ten_seconds(tmp_path):
    async def course(stand):
        left = int((polls.KEPT - 3600) * 1000)
        stand.table.text += f"0x55aa: key=dev-01 use=0 exp={left} http_req_cnt=3\n"
        stand.table.text += f"0x55ab: key=../x use=0 exp={left} http_req_cnt=3\n"
        for _ in range(5):
            _, _, told = await stand.get("/fwdesk/seen?device=dev-01")
        assert told["at"] == START - 3600 and stand.table.asked == 1
        assert list((await stand.get("/fwdesk/seen?silent=0.5"))[2]) == ["dev-01"]
        assert (await stand.get("/fwdesk/seen?silent=2"))[2] == {}
        stand.clock.go(11)
        await stand.get("/fwdesk/seen")
        assert stand.table.asked == 2

    play(tmp_path, course)


def test_a_haproxy_without_the_table_is_503_in_words(tmp_path):
    async def course(stand):
        stand.table.text = "Permission denied\n"
        status, _, told = await stand.get("/fwdesk/seen")
        assert status == 503 and told["words"] == "HAProxy has no table of last polls"
        stand.server.close()
        stand.clock.go(11)
        status, _, told = await stand.get("/fwdesk/seen?device=dev-01")
        assert status == 503 and told["words"].startswith("HAProxy doesn't tell it: ")

    play(tmp_path, course)


def test_kept_24_days_as_the_configuration_has_it():
    from harness import ROOT

    texts = [it.read_text() for it in (ROOT / "deploy/haproxy").rglob("*.cfg")]
    kept = [it for text in texts for it in re.findall(r"backend seen.*\n.* expire (\S+)", text)]
    assert set(kept) == {"24d"} and polls.KEPT == 24 * 86400


def test_metrics_have_the_names_that_the_rules_ask_for(tmp_path):
    async def course(stand):
        stand.desk.held["brake"] = {"who": "anna", "since": "2027-01-15T08:00:00Z", "reason": ""}
        await stand.look()
        await stand.service.fleet.count()
        await stand.service.fleet.look_for_silent()
        await stand.service.stock.count()
        text = (await stand.get("/metrics"))[2]
        for line in (
            "fwdesk_up 1",
            "fwdesk_targets 10",
            'fwdesk_rollout{rollout="1",name="spring",status="running"} 1',
            'fwdesk_group_targets{rollout="1",group="1",outcome="size"} 10',
            'fwdesk_silent_targets{hours="24"} 10',
            'fwdesk_held{kind="brake"} 1',
            'fwdesk_held_since{kind="brake"} 1800000000',
            'fwdesk_used{of="artifacts"} 6',
            'fwdesk_used{of="sets"} 2',
            'fwdesk_limit{of="targets"} 10000',
        ):
            assert line in text.splitlines(), text

    play(tmp_path, course)


def test_files_of_a_module_that_a_set_names_are_counted_once(tmp_path):
    async def course(stand):
        await stand.service.stock.count()
        stand.desk.asked.clear()
        stand.hear(
            'audit 201 192.0.2.7 "anna" POST /rest/v1/softwaremodules/2/artifacts?filename=a\n'
        )
        assert stand.service.stock.has_news
        await stand.service.stock.count()
        assert "/rest/v1/softwaremodules/1/artifacts" not in stand.desk.asked
        assert "/rest/v1/softwaremodules/2/artifacts" in stand.desk.asked
        stand.hear('audit 200 192.0.2.7 "anna" POST /rest/v1/rollouts/1/start\n')
        assert not stand.service.stock.has_news

    play(tmp_path, course)


def test_a_disk_that_is_nearly_full_is_told_once(tmp_path, monkeypatch):
    from types import SimpleNamespace

    async def course(stand):
        for left in (150, 140, 500, 100):
            found = SimpleNamespace(f_bavail=left * 2**8, f_frsize=2**12)
            monkeypatch.setattr("fwdesk_console.watch.os.statvfs", lambda _, it=found: it)
            stand.service._look_at_records()
        told = [it for it in stand.service.history.recent if it["kind"] == "console"]
        assert [as_text(it["parts"]).partition('" ')[2] for it in told] == [
            "has 150 MB left",
            "has 100 MB left",
        ]

    play(tmp_path, course)


def test_devices_are_listed_by_state_and_in_an_order_of_people(tmp_path):
    async def course(stand):
        assert (await stand.get("/fwdesk/devices"))[0] == 503
        made = (("dev-10", "b", "error"), ("dev-9", "C", "in_sync"), ("DEV-1", "a", "error"))
        stand.desk.targets = [
            {"controllerId": it, "name": name, "updateStatus": state, "tags": [], "attributes": {}}
            for it, name, state in made
        ]
        await stand.service.fleet.count()
        ask = lambda it: stand.get(f"/fwdesk/devices?{it}")
        ids = lambda told: [it["controllerId"] for it in told[2]["content"]]
        assert ids(await ask("sort=id")) == ["DEV-1", "dev-9", "dev-10"]
        assert ids(await ask("sort=-id")) == ["dev-10", "dev-9", "DEV-1"]
        assert ids(await ask("sort=name")) == ["DEV-1", "dev-10", "dev-9"]
        assert ids(await ask("sort=state&limit=2")) == ["dev-10", "DEV-1"]
        assert ids(await ask("sort=id&offset=1&limit=1")) == ["dev-9"]
        told = (await ask("state=error&sort=id"))[2]
        assert told["total"] == 2 and told["at"] == stand.clock.wall()
        assert told["content"][0] == stand.desk.targets[2]
        # without a known version, and never answered by HAProxy
        sql = "insert into device values('dev-9', 1, 1, 1, null)"
        stand.service.store.do(sql)
        assert ids(await ask("lacks=version&sort=id")) == ["DEV-1", "dev-10"]
        stand.table.text += "0x1: key=dev-10 use=0 exp=2073600000 shard=0 http_req_cnt=1\n"
        assert ids(await ask("lacks=poll&sort=id")) == ["DEV-1", "dev-9"]
        # counted anew the lists are others
        del stand.desk.targets[0]
        await stand.service.fleet.count()
        assert ids(await ask("state=error&sort=id")) == ["DEV-1"]

    play(tmp_path, course)


def test_devices_that_are_imported_are_counted_soon_however_long_a_count_takes(tmp_path):
    async def course(stand):
        fleet = stand.service.fleet
        await fleet.count()
        fleet._next = stand.clock.steady() + 600  # as after a count that took ten seconds
        stand.hear('audit 200 192.0.2.7 "anna" POST /rest/v1/rollouts/1/pause\n')
        assert fleet.has_news and fleet._next > stand.clock.steady() + 10
        stand.hear('audit 200 192.0.2.7 "anna" POST /desk/v1/import\n')
        assert fleet.has_news and fleet._next <= stand.clock.steady() + 10

    play(tmp_path, course)
