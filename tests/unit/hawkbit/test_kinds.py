"""Which filters of rollouts say that they are soft, or for the download alone."""

import pytest

from fwdesk_hawkbit import kinds


@pytest.mark.parametrize(
    "text, wanted",
    [
        ("name==*", "forced"),
        ("attribute.hawkbit.kinds==*soft*", "soft"),
        ("tag==lab;attribute.hawkbit.kinds==*soft*", "soft"),
        ("(tag==lab,tag==north);attribute.hawkbit.kinds==*downloadonly*", "downloadonly"),
        # who isn't marked would be a member of these, and be told of it as forced
        ("tag==lab,attribute.hawkbit.kinds==*soft*", "forced"),
        ("tag==a,tag==b;attribute.hawkbit.kinds==*soft*", "forced"),
        ("attribute.hawkbit.kinds!=*soft*", "forced"),
        ("attribute.hawkbit.kinds==*", "forced"),
        ("no filter", "forced"),
    ],
)
def test_what_a_filter_says(text, wanted):
    assert kinds.kind_of(text) == wanted


@pytest.mark.parametrize("kind", ["forced", "soft", "downloadonly"])
def test_that_a_filter_with_a_kind_says_it(kind):
    assert kinds.kind_of(kinds.with_kind("tag==a,tag==b", kind)) == kind


def test_that_the_mark_finds_what_the_gateway_writes():
    assert all(it in kinds.VALUE.split() for it in kinds.KINDS)
    assert kinds.mark("soft") == f"attribute.{kinds.KEY}==*soft*"
