"""hawkBit's way of paging, filtering and sorting, and the sets of a target by its actions."""

import pytest
from aiohttp import web
from aiohttp.test_utils import make_mocked_request

from fwdesk_hawkbit import calls
from fwdesk_hawkbit.actions import sets_of
from fwdesk_hawkbit.faults import Fault
from fwdesk_hawkbit.kept import Kept
from fwdesk_hawkbit.manage import reason_of
from fwdesk_hawkbit.words import cut

THINGS = [
    {"id": 1, "name": "b", "deep": {"size": 3}},
    {"id": 2, "name": "a", "deep": {"size": 10}},
    {"id": 10, "name": None, "deep": {"size": 3}},
]


def call(query="", **fields):
    app = web.Application()
    app[calls.GATEWAY] = calls.Gateway(None, None, Kept(None))  # type: ignore[arg-type]
    return calls.Call(make_mocked_request("GET", f"/rest/v1/x?{query}", headers=fields, app=app))


def ids(query):
    told = call(query).page(THINGS)
    assert told["size"] == len(told["content"])
    return [it["id"] for it in told["content"]], told["total"]


@pytest.mark.parametrize(
    "query, wanted",
    [
        ("", ([1, 2, 10], 3)),
        ("limit=2", ([1, 2], 3)),
        ("offset=2&limit=2", ([10], 3)),
        ("offset=9", ([], 3)),
        ("limit=0", ([1], 3)),
        ("sort=id:DESC", ([10, 2, 1], 3)),
        ("sort=name", ([10, 2, 1], 3)),
        ("sort=deep.size:ASC,id:DESC", ([10, 1, 2], 3)),
        ("q=id=gt=1", ([2, 10], 2)),
        ("q=deep.size==3;id!=1", ([10], 1)),
    ],
)
def test_pages(query, wanted):
    assert ids(query) == wanted


@pytest.mark.parametrize(
    "query, kind",
    [
        ("q=colour==x", "field"),
        ("q=deep==x", "field"),
        ("q=name=", "filter"),
        ("sort=colour", "sort"),
        ("sort=id:UP", "sort"),
        ("limit=-1", "body"),
        ("offset=a", "body"),
    ],
)
def test_queries_that_are_none(query, kind):
    with pytest.raises(Fault) as why:
        ids(query)
    assert why.value.kind == kind


def test_a_field_that_only_some_have():
    held = [{"id": 1, "rolloutName": "r"}, {"id": 2}]
    assert [it["id"] for it in call("q=rolloutname==r").chosen(held)] == [1]
    assert [it["id"] for it in call("q=rolloutname!=r").chosen(held)] == [2]
    assert [it["id"] for it in call("sort=rolloutName:DESC").chosen(held)] == [1, 2]


def test_who_is_shown_tokens():
    assert not call().may_steer(), "without a word of the proxy nobody is"
    assert call(**{"X-Fwdesk-May": "look,steer"}).may_steer()
    assert not call(**{"X-Fwdesk-May": "look,steering"}).may_steer()


def plan(number):
    return {"distributionSetId": number}


@pytest.mark.parametrize(
    "states, wanted",
    [
        ([], (None, None)),
        ([("running", 1)], (1, None)),
        ([("finished", 1)], (1, 1)),
        ([("finished", 1), ("running", 2)], (2, 1)),
        ([("finished", 1), ("canceled", 2)], (1, 1)),
        ([("finished", 1), ("canceling", 2)], (1, 1)),
        ([("finished", 1), ("error", 2)], (None, 1)),
        ([("finished", 1), ("scheduled", 2)], (1, 1)),
        ([("canceling", 1), ("running", 2)], (2, None)),
    ],
)
def test_the_sets_of_a_target(states, wanted):
    assert sets_of([({"status": state}, plan(ident)) for state, ident in states]) == wanted


def test_what_is_kept_is_there_again(tmp_path):
    kept = Kept(tmp_path)
    kept.add_tags({"b", "a"})
    kept.hide("rollouts", 5)
    again = Kept(tmp_path)
    assert again.tags == {"a", "b"} and again.hides("rollouts", 5) and not again.hides("targets", 5)
    again.drop_tag("a")
    assert Kept(tmp_path).tags == {"b"}


def test_reasons_are_of_the_call():
    assert "types" in reason_of("GET", "/rest/v1/softwaremoduletypes/1")
    assert "deletes" in reason_of("DELETE", "/rest/v1/distributionsets/1/assignedSM/1")
    assert "served" in reason_of("GET", "/rest/v1/unknown")


def test_numbers_of_names_are_numbers_of_hawkbit():
    assert all(1 <= calls.number_of(it) <= calls.GREATEST for it in ("", "a", "ä" * 60))


def test_letters_are_not_cut():
    assert cut("aä", 2) == ["a", "ä"] and cut("", 2) == [""]
