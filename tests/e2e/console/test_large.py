"""Views of 10,000 devices in 50 groups, in Chromium, with the console behind the edge: each is drawn within 0.3 seconds of the
click that leads to it. DEVICES names another number."""
import os
import time

import pytest

from .environment import Environment
from .pages import Pages
from harness.processes import eventually

DEVICES = int(os.environ.get("DEVICES", 10_000))
GROUPS = 50
LIMIT = 0.3
TRIES = 5

# from the click until what was asked for stands there and is painted: a heading, and a text that only the new view has
WATCH = """
const [address, title, words] = arguments, main = document.getElementById('main');
window.seen = null;
const began = performance.now();
const isThere = () => location.hash === address && !main.hasAttribute('aria-busy') &&
  main.querySelector('h1')?.innerText === title && main.innerText.includes(words);
const look = () => isThere() ? requestAnimationFrame(() => setTimeout(() => (window.seen = performance.now() - began))) :
  requestAnimationFrame(look);
location.hash = address;
look();
"""

# an address, its heading, and words of what it shows
VIEWS = (
    ("#/now", "Now", "Devices"),
    ("#/rollouts", "Rollouts", "large"),
    ("#/rollouts/1", "large", "Group 50"),
    ("#/rollouts/1/groups/1", "Group 1 of large", "disk full"),
    ("#/rollouts/1/groups/50", "Group 50 of large", "dev-"),
    ("#/rollouts/new", "New rollout", "Filter"),
    ("#/rollouts/new?like=1", "New rollout, like large", "Filter"),
    ("#/targets", "Fleet", "dev-00001"),
    ("#/targets?q=name%3D%3D*7*", "Fleet", "dev-00007"),
    ("#/targets?q=&offset=9950", "Fleet", "dev-10000"),
    ("#/targets?q=&offset=0&sort=-id", "Fleet", "dev-10000"),
    ("#/targets?q=&offset=0&sort=state", "Fleet", "failed"),
    # a word, a filter and a tag; each in another order, its second page, and the other way round
    ("#/targets?q=Device", "Fleet", "dev-00001"),
    ("#/targets?q=Device&offset=0&sort=name", "Fleet", "Device 1"),
    ("#/targets?q=Device&offset=50&sort=name", "Fleet", "Device 51"),
    ("#/targets?q=Device&offset=0&sort=-name", "Fleet", "Device 10000"),
    ("#/targets?q=name%3D%3D*7*&offset=0&sort=name", "Fleet", "Device 7"),
    ("#/targets?q=name%3D%3D*7*&offset=50&sort=name", "Fleet", "Device 275"),
    ("#/targets?q=name%3D%3D*7*&offset=0&sort=-name", "Fleet", "Device 9997"),
    ("#/targets?q=tag%3D%3Dlab&offset=0&sort=state", "Fleet", "failed"),
    ("#/targets?q=tag%3D%3Dlab&offset=50&sort=id", "Fleet", "dev-00051"),
    ("#/targets?q=tag%3D%3Dlab&offset=0&sort=-id", "Fleet", "dev-10000"),
    ("#/targets?q=name%3D%3D*7*%3Btag%3D%3Dlab&offset=0&sort=-state", "Fleet", "dev-"),
    ("#/devices?state=unknown", "Devices: no rollout yet", "dev-"),
    ("#/devices?state=error", "Devices: failed", "dev-"),
    ("#/devices?set=1", "Devices with pump 1.0", "dev-"),
    ("#/devices?silent=0", "Devices silent for 0 h or longer", "dev-"),
    ("#/targets/dev-00001", "dev-00001", "disk full"),
    ("#/firmware", "Firmware", "pump"),
    ("#/history", "History", "large"),
    ("#/history?of=audit", "History", "/start"),
)

BESIDE = ("#/now", "#/rollouts/1", "#/rollouts/1/groups/1", "#/targets?q=&offset=0&sort=state")


@pytest.fixture(scope="module")
def large(tmp_path_factory):
    made = Environment(tmp_path_factory.mktemp("large"))
    made.make_fleet(DEVICES)
    rollout = made.plan("large", groups=GROUPS, success=100, error=100)
    rows = made.table(rollout)
    for it in rows[:20]:
        made.report(it["controllerid"], int(it["action"]), "failure", "disk full")
    for it in rows[20:40]:
        made.poll(it["controllerid"])
        made.report(it["controllerid"], int(it["action"]), "success", "done")
    counted = lambda: (made.state()["fleet"] or {}).get("devices") == DEVICES
    eventually("the devices are counted", counted, 120)
    versions = lambda: made.state()["versions"]
    eventually("the versions are known", versions, 60)
    yield made
    made.end()


def seconds_to(browser, address, title, words):
    """How long a view takes, from the click on its link until it is painted."""
    browser.go("#/firmware" if address != "#/firmware" else "#/now")
    browser.until("Now" if address == "#/firmware" else "Firmware", "h1")
    time.sleep(0.4)
    browser.js(WATCH, address, title, words)
    seen = lambda: browser.js("return window.seen")
    return eventually(f"{address} is drawn", seen, 30) / 1000


def slow_views(browser, views, limit=LIMIT):
    """The views that take too long, with their times. The machine may have something else to do in between: the best of some
    tells what a view takes."""
    slow = {}
    for address, title, words in views:
        times = sorted(seconds_to(browser, address, title, words) for _ in range(TRIES))
        print(f"{address}: {times[0]:.2f} s, {times[TRIES // 2]:.2f} s in the middle")
        if times[0] >= limit:
            slow[address] = times
    return slow


def test_views_are_drawn_in_time(large, open_browser):
    browser = open_browser(large, "#/firmware")
    browser.until("pump", "main")
    slow = slow_views(browser, VIEWS)
    assert not slow, slow
    assert not browser.faults()


def test_views_are_drawn_in_time_beside_nineteen_windows(large, open_browser):
    """Each of these has the rollout of 50 groups in sight, while devices report on it."""
    browser = open_browser(large, "#/firmware")
    browser.until("pump", "main")
    rows = [it for it in large.table(1) if it["state"] == "running"]
    with Pages(large, 19, "/fwdesk/state?rollout=1") as pages:
        for it in rows[:20]:
            large.report(it["controllerid"], int(it["action"]), "success", "done")
        before, began = large.desk_requests(), time.monotonic()
        # each answer of the edge has a password checked, and this process is nineteen windows
        slow = slow_views(browser, [it for it in VIEWS if it[0] in BESIDE], 1.0)
        asked, minutes = large.desk_requests() - before, (time.monotonic() - began) / 60
    print(
        f"20 windows: {asked / minutes:.0f} requests a minute to the desk, the views' own among them"
    )
    assert not slow, slow
    assert set(pages.statuses) <= {200, 304} and len(pages.statuses) > 19 and not pages.sent_twice
    assert not browser.faults()
