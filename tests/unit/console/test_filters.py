"""Filters by the console mean what they mean by the reference model, and no more time goes into one than there is."""
import asyncio

import pytest
from fakes import play
from fwdesk_console import filters, listing
from harness.filters import Target, sample

from model import filters as reference
from model.refusals import Refused

TARGETS, TEXTS = sample(1200)


def as_device(it: Target) -> dict:
    return {
        "controllerId": it.controller,
        "name": it.name,
        "updateStatus": "unknown",
        "tags": list(it.tags),
        "attributes": it.attributes,
    }


def as_target(it: Target) -> dict:
    return {"id": it.controller, "name": it.name, "tags": it.tags, "attributes": it.attributes}


def by_the_model(text: str) -> list[str] | None:
    """The ids that match, or None where the text is no filter."""
    try:
        tree = reference.read(text)
    except Refused:
        return None
    return [it.controller for it in TARGETS if reference.matches(tree, as_target(it))]


def by_the_console(text: str) -> list[str] | None:
    try:
        found = filters.parse(text)
    except filters.NoFilter:
        return None
    return [it.controller for it in TARGETS if found.matches(as_device(it))]


def test_each_text_means_what_it_means_by_the_model():
    expected = {it: by_the_model(it) for it in TEXTS}
    # the sample is worth something: texts that are none, and filters that tell targets apart
    assert sum(it is None for it in expected.values()) > 50
    assert sum(it is not None and 0 < len(it) < len(TARGETS) for it in expected.values()) > 300
    assert {it: by_the_console(it) for it in TEXTS} == expected


def test_each_letter_has_its_place_or_none():
    letters = [*map(chr, range(0x100)), "\u2028", "\ufeff", "🚀"]
    places = (
        "name==a{}",
        'name=="a{}"',
        "attribute.a{}==x",
        "{}name==x",
        "name{}==x",
        "name={}x",
        "(name==x){}",
    )
    texts = [place.replace("{}", it) for place in places for it in letters]
    assert {it: by_the_console(it) for it in texts} == {it: by_the_model(it) for it in texts}


@pytest.mark.parametrize("depth, is_filter", [(16, True), (17, False)])
def test_parentheses_nest_sixteen_deep(depth, is_filter):
    text = "(" * depth + "name==*" + ")" * depth
    assert (by_the_console(text) is not None) == is_filter == (by_the_model(text) is not None)


@pytest.mark.parametrize("letter", ["x", "é", "🚀"])
def test_a_filter_has_512_bytes(letter):
    fits = (512 - len('name==""')) // len(letter.encode())
    assert by_the_console(f'name=="{letter * fits}"') == []
    assert by_the_console(f'name=="{letter * (fits + 1)}"') is None


def devices_of(stand):
    stand.desk.targets = list(map(as_device, TARGETS))
    return stand.service.fleet.count()


def test_those_that_match_are_paged_in_any_order(tmp_path):
    async def course(stand):
        await devices_of(stand)
        ids = lambda told: [it["controllerId"] for it in told[2]["content"]]
        ask = lambda **it: stand.get("/fwdesk/devices", params=it)
        assert ids(await ask(q="controllerid==dev-*", sort="id")) == ["dev-1", "dev-10"]
        assert ids(await ask(q="controllerid==dev-*", sort="-id")) == ["dev-10", "dev-1"]
        status, _, told = await ask(q='name!="*"', sort="id", offset="7")
        assert status == 200 and told == {"at": stand.clock.wall(), "total": 0, "content": []}
        told = (await ask(q="tag==lab,tag!=lab", sort="-name", offset="40", limit="5"))[2]
        assert told["total"] == len(TARGETS) and len(told["content"]) == 5
        # as a form sends it: a plus is a space
        told = (await stand.get("/fwdesk/devices?q=name%3D%3D%22a+b%22"))[2]
        assert told["content"] and all(it["name"] == "a b" for it in told["content"])
        # of a state too
        stand.desk.targets[8]["updateStatus"] = "error"
        await stand.service.fleet.count()
        assert ids(await ask(q="controllerid==*", state="error")) == ["dev-1"]

    play(tmp_path, course)


def test_what_is_no_filter_is_refused_and_what_takes_too_long_is_left_to_the_desk(
    tmp_path, monkeypatch
):
    async def course(stand):
        await devices_of(stand)
        ask = lambda text: stand.get("/fwdesk/devices", params={"q": text})
        for text in ("name", "name==", "(name==*", "Name==x", "tag==" + "x" * 600, "", "a\nb"):
            status, _, told = await ask(text)
            assert (status, told["error"]) == (400, "bad_request"), text
        monkeypatch.setattr(listing, "LONGEST", -1.0)
        status, _, told = await ask("name==*")
        assert (status, told["error"]) == (503, "filter") and "desk" in told["words"]
        # it isn't tried again before the next count
        monkeypatch.setattr(listing, "LONGEST", 60.0)
        assert (await ask("name==*"))[0] == 503
        assert (await ask("name!=*"))[0] == 200
        await stand.service.fleet.count()
        assert (await ask("name==*"))[0] == 200

    play(tmp_path, course)


def test_however_many_filters_are_asked_for_few_are_kept(tmp_path):
    async def course(stand):
        await devices_of(stand)
        for k in range(3 * listing.FILTERS):
            status, _, told = await stand.get("/fwdesk/devices", params={"q": f"name==x{k}"})
            assert status == 200 and told["total"] == 0
        assert len(stand.service.fleet.listing._matching) == listing.FILTERS

    play(tmp_path, course)


def test_others_have_their_turn_while_a_filter_is_matched():
    devices = [as_device(it) for it in TARGETS] * 10
    turns = 0

    async def other() -> None:
        nonlocal turns
        while True:
            turns += 1
            await asyncio.sleep(0)

    async def course() -> None:
        beside = asyncio.create_task(other())
        await listing.Listing(0.0, devices).matching("name==*")
        beside.cancel()

    asyncio.run(course())
    assert turns >= len(devices) // listing.AT_ONCE


def test_who_looks_at_devices_has_them_counted_again(tmp_path):
    async def course(stand):
        await devices_of(stand)
        assert not stand.service.fleet.has_news
        await stand.get("/fwdesk/devices")
        assert stand.service.fleet.has_news

    play(tmp_path, course)
