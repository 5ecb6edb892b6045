"""hawkBit's filters: what they find, what is no filter, and the same in the desk's words."""

import time

import pytest

from fwdesk_hawkbit import rsql

THINGS = {
    "a": {"name": "Pump 1", "number": 9, "tag": ["lab", "north"], "gone": None},
    "b": {"name": "valve*", "number": 10, "tag": [], "gone": None},
    "c": {"name": "PUMP 2", "number": -1, "tag": ["Lab"], "gone": None},
}


def find(text: str) -> str:
    def values(thing: dict) -> "callable":
        def get(field: str) -> list:
            if field not in thing:
                raise rsql.Wrong("no field", field)
            held = thing[field]
            return held if isinstance(held, list) else [held]

        return get

    found = rsql.read(text)
    return "".join(it for it, thing in THINGS.items() if rsql.holds(found, values(thing)))


@pytest.mark.parametrize(
    "text, wanted",
    [
        ("name==Pump*", "ac"),  # large and small letters are one
        ("name=='pump 1'", "a"),
        ('name=="pump 1"', "a"),
        ("name!=pump*", "b"),
        ("name==*", "abc"),
        ("number>9", "b"),  # as numbers, not as texts
        ("number=ge=9", "ab"),
        ("number<9.5", "ac"),
        ("number=lt=0", "c"),
        ("tag==lab", "ac"),
        ("tag!=lab", "b"),
        ("tag=in=(north,south)", "a"),
        ("tag=out=(north,south)", "bc"),
        ("gone==*", ""),  # what isn't there is nothing, not an empty text
        ("gone!=x", "abc"),
        ("name==pump*;tag==north", "a"),
        ("name==valve*,tag==north", "ab"),
        ("name==valve* or name==pump* and tag==north", "ab"),  # `and` before `or`
        ("(name==valve*,name==pump*);number>0", "ab"),
        ("name==valve**", "b"),
    ],
)
def test_what_a_filter_finds(text, wanted):
    assert find(text) == wanted


@pytest.mark.parametrize(
    "text",
    [
        "",
        "name",
        "name=",
        "name==",
        "==x",
        "name==a;",
        "name==a name==b",
        "(name==a",
        "name==a)",
        "name=in=a",
        "name=in=(a",
        "name=like=a",
        "name=='a",
        "(" * 17 + "name==a" + ")" * 17,
        "name==" + "a" * 5000,
    ],
)
def test_what_is_no_filter(text):
    with pytest.raises(rsql.Wrong):
        rsql.read(text)


def test_that_parentheses_may_be_16_deep():
    assert find("(" * 16 + "name==valve*" + ")" * 16) == "b"


def test_that_a_field_that_is_not_there_is_told():
    with pytest.raises(rsql.Wrong) as why:
        find("colour==red")
    assert why.value.field == "colour"


@pytest.mark.parametrize("value", ["*" * 1000 + "b", "a*" * 1000 + "b", "*a" * 60 + "*b"])
def test_that_many_stars_take_no_long_time(value):
    began = time.monotonic()
    assert not rsql.alike("a" * 20_000, value)
    assert time.monotonic() - began < 1


@pytest.mark.parametrize(
    "held, value, wanted",
    [
        ("abc", "a*c", True),
        ("abc", "*b*", True),
        ("abc", "a*b", False),
        ("aba", "ab*ba", False),  # no letter is counted twice
        ("abba", "ab*ba", True),
        ("a.c", "a?c", False),
        ("abab", "*ab*ab", True),
        ("ab", "*ab*ab", False),
        ("", "*", True),
    ],
)
def test_stars(held, value, wanted):
    assert rsql.alike(held, value) == wanted


@pytest.mark.parametrize(
    "text, wanted",
    [
        ("id==dev-1", "controllerid==dev-1"),
        ("controllerId==dev-*", "controllerid==dev-*"),
        ("tag.name==lab", "tag==lab"),
        ("attribute.os==linux", "attribute.os==linux"),
        ("name=='pump 1'", 'name=="pump 1"'),
        ("tag=in=(a,b)", "tag==a,tag==b"),
        ("tag=out=(a,b)", "tag!=a;tag!=b"),
        ("tag==a;name==b", "(tag==a);(name==b)"),
        ("lastModifiedAt>5", None),
        ("description==x", None),
        ("name==''", None),
    ],
)
def test_the_same_in_the_words_of_the_desk(text, wanted):
    assert rsql.as_desk(rsql.read(text)) == wanted
