"""The desk's calls: by a socket, with what stands before a path, by pages; and a desk that answers wrongly."""

import asyncio
import json

import pytest
from aiohttp import web

from fwdesk_hawkbit.desk import Desk, OnBehalf
from fwdesk_hawkbit.faults import Fault


def served(tmp_path, answer, work, base="", patience=60.0):
    """What `work` makes of a desk that answers so."""
    path = tmp_path / "desk.sock"

    async def run():
        app = web.Application()
        app.router.add_route("*", "/{rest:.*}", answer)
        runner = web.AppRunner(app)
        await runner.setup()
        await web.UnixSite(runner, str(path)).start()
        desk = Desk(f"{path}{base}", 2, patience)
        try:
            return await work(desk)
        finally:
            await desk.close()
            await runner.cleanup()

    return asyncio.run(run())


@pytest.mark.parametrize("base", ["", "/fleets/acme"])
def test_a_socket_and_what_stands_before_a_path(tmp_path, base):
    async def answer(request):
        told = request.path, request.host, request.headers.get("Authorization")
        return web.json_response(told)

    async def work(desk):
        told = await desk.raw("GET", "/DEFAULT/x", token="tok-1234")
        return json.loads(told.body)

    wanted = [f"{base}/DEFAULT/x", "localhost", "TargetToken tok-1234"]
    assert served(tmp_path, answer, work, f":{base}" if base else "") == wanted


def test_all_pages_of_a_list(tmp_path):
    async def answer(request):
        offset, limit = int(request.query["offset"]), int(request.query["limit"])
        assert limit == 500 and request.query["q"] == "tag==a"
        rows = list(range(1201))[offset : offset + limit]
        return web.json_response({"content": rows, "total": 1201, "size": len(rows)})

    got = served(tmp_path, answer, lambda desk: desk.every("/rest/v1/targets", q="tag==a"))
    assert got == list(range(1201))


def test_a_list_that_grows_shorter_ends(tmp_path):
    async def answer(request):
        rows = [1] if request.query["offset"] == "0" else []
        return web.json_response({"content": rows, "total": 5, "size": len(rows)})

    assert served(tmp_path, answer, lambda desk: desk.every("/rest/v1/targets")) == [1]


@pytest.mark.parametrize(
    "status, body, kind",
    [
        (404, {"error": "not_found", "number": 3}, "not found"),
        (409, {"error": "exists", "number": 5}, "exists"),
        (409, {"error": "wrong_state", "number": 7}, "rollout"),
        (403, {"error": "quota", "number": 10}, "quota"),
        (400, {"error": "digest", "number": 13}, "digest sha256"),
        (500, {"error": "store", "number": 16}, "desk"),
        (503, {"error": "held"}, "desk"),
        (403, [], "desk"),
    ],
)
def test_a_refusal_in_the_words_of_hawkbit(tmp_path, status, body, kind):
    async def answer(_):
        return web.json_response(body, status=status)

    with pytest.raises(Fault) as why:
        served(tmp_path, answer, lambda desk: desk.ask("GET", "/rest/v1/targets"))
    assert why.value.kind == kind


def test_what_may_have_been_done_is_not_asked_again(tmp_path):
    calls = []

    async def answer(request):
        calls.append(request.method)
        request.transport.close()
        return web.Response()

    for method, times in (("GET", 2), ("POST", 1), ("PUT", 1), ("DELETE", 1)):
        calls.clear()
        with pytest.raises(Fault) as why:
            served(tmp_path, answer, lambda desk, it=method: desk.raw(it, "/x"))
        assert why.value.kind == "desk" and len(calls) == times, method


def test_a_desk_that_says_nothing_is_given_up(tmp_path):
    async def answer(_):
        await asyncio.sleep(5)
        return web.Response()

    with pytest.raises(Fault):
        served(tmp_path, answer, lambda desk: desk.raw("GET", "/x"), patience=0.2)


def test_who_is_asked_for_stands_in_each_request(tmp_path):
    asked = []

    async def answer(request):
        asked.append([request.headers.get(it) for it in ("X-Fwdesk-Device", "Authorization")])
        return web.json_response({"content": [], "total": 0}, headers={"X-Fleet": "acme"})

    async def work(desk):
        calls = OnBehalf(desk, {"X-Fwdesk-Device": "acme-1"})
        await calls.every("/rest/v1/targets")
        await desk.ask("GET", "/rest/v1/targets")
        return (await calls.success("POST", "/rest/v1/targets", [])).fleet

    assert served(tmp_path, answer, work) == "acme"
    assert asked == [["acme-1", None], [None, None], ["acme-1", None]]
