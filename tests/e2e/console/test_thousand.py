"""A desk that has all the rollouts of its life, with one browser and nineteen that ask as its page does: what runs is told, the views
are drawn in time, and the desk is asked as little as with a few."""
import time

import pytest
from harness.processes import eventually

from .environment import Environment
from .pages import Pages
from .test_large import slow_views

ROLLOUTS = 1000
# what the console may ask the desk in a minute: the list of rollouts by two pages each ten seconds, the groups of each that isn't over
# each thirty, devices and firmware now and then
REQUESTS = 60
VIEWS = (
    ("#/now", "Now", "last of all"),
    ("#/rollouts", "Rollouts", "last of all"),
    (f"#/rollouts/{ROLLOUTS}", "last of all", "Group 1"),
    ("#/history", "History", "last of all"),
)


@pytest.fixture(scope="module")
def full(tmp_path_factory):
    made = Environment(tmp_path_factory.mktemp("full"))
    made.make_fleet(ROLLOUTS + 10)
    for number in range(1, ROLLOUTS):
        # of one device each, whose success ends it
        made.plan(f"old {number}", groups=1, text=f"controllerid==dev-{number:05d}")
        made.report(f"dev-{number:05d}", number, "success", "done")
    last = made.plan("last of all", groups=2, error=20, text="controllerid==dev-010*")
    assert last == ROLLOUTS
    known = lambda: ROLLOUTS in {it["id"] for it in made.state()["rollouts"]}
    eventually("the last rollout is known", known, 60)
    yield made
    made.end()


def test_what_runs_is_told_among_a_thousand(full, open_browser):
    browser = open_browser(full, "#/firmware")
    browser.until("pump", "main")
    slow = slow_views(browser, VIEWS)
    assert not slow, slow
    with Pages(full, 19):
        time.sleep(10)
        before = full.desk_requests()
        time.sleep(60)
        asked = full.desk_requests() - before
        began = time.monotonic()
        full.fail(ROLLOUTS, 2)
        browser.go(f"#/rollouts/{ROLLOUTS}")
        browser.until("by itself", "main .cause", seconds=30)
        seconds = time.monotonic() - began
    print(
        f"20 pages: {asked} requests a minute to the desk; a pause is there after {seconds:.1f} s"
    )
    assert asked <= REQUESTS and seconds < 20
    assert not browser.faults()
