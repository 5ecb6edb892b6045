"""Pictures of each view at three widths, light and dark, where PICTURES names a folder; that none is wider than its window, and
what a screen reader is told of it."""
import os

import pytest

from .environment import Environment
from harness.processes import eventually

NAMED = ("button", "link", "textbox", "searchbox", "combobox", "checkbox", "radio", "spinbutton")
WIDTHS = (1440, 1024, 390)
VIEWS = {
    "now": "#/now",
    "rollouts": "#/rollouts",
    "rollout": "#/rollouts/2",
    "members": "#/rollouts/2/groups/1?state=error",
    "plan": "#/rollouts/new?like=2",
    "fleet": "#/targets",
    "search": "#/targets?q=0003",
    "devices": "#/devices?set=1",
    "device": "#/targets/dev-00001",
    "action": "#/targets/dev-00001/actions/61",
    "firmware": "#/firmware",
    "module": "#/firmware/modules/1",
    "silent": "#/devices?silent=0",
    "happened": "#/history",
    "audit": "#/history?of=audit",
}


# the heading of the view before is marked, so that it isn't taken for that of the next one
GO = """if (location.hash !== arguments[0]) {
  document.querySelector('main h1').dataset.before = '';
  location.hash = arguments[0];
}"""
DRAWN = "return !!document.querySelector('main:not([aria-busy]) h1:not([data-before])')"


@pytest.fixture(scope="module")
def played(tmp_path_factory):
    """Sixty devices: a rollout that is over, one that paused by itself, one that is planned."""
    made = Environment(tmp_path_factory.mktemp("played"))
    made.make_fleet(60)
    first = made.plan("spring", groups=1, success=50, error=90, who="ben")
    for it in made.table(first):
        made.report(it["controllerid"], int(it["action"]), "success", "done")
    second = made.plan("summer", groups=3, success=80, error=20, set_=2)
    for it in made.table(second)[:9]:
        made.poll(it["controllerid"])
        made.report(it["controllerid"], int(it["action"]), "success", "installed")
    rows = made.table(second)[9:13]
    for it, words in zip(rows, ("disk full", "disk full", "no power", "disk full")):
        made.report(it["controllerid"], int(it["action"]), "failure", words)
    made.plan("autumn", groups=4, start=False)
    paused = lambda: made.ask("/fwdesk/state?rollout=2")[0] == 200 and (
        made.state(2)["rollout"]["status"] == "paused"
    )
    eventually("it is paused", paused, 30)
    counted = lambda: made.state()["versions"] and made.state()["fleet"]
    eventually("devices and versions are counted", counted, 60)
    yield made
    made.end()


def look_at_tree(browser):
    """What a screen reader is told: each control has a name, there is one main part, and a way to the others."""
    told = browser.driver.execute_cdp_cmd("Accessibility.getFullAXTree", {})["nodes"]
    tree = [it for it in told if not it["ignored"]]
    roles = [it["role"]["value"] for it in tree]
    named = lambda it: it.get("name", {}).get("value", "").strip()
    nameless = [
        it["role"]["value"] for it in tree if it["role"]["value"] in NAMED and not named(it)
    ]
    assert not nameless and roles.count("main") == 1 and "navigation" in roles, nameless
    assert roles.count("heading") >= 1


def test_no_view_is_wider_than_its_window_and_each_control_has_a_name(played, open_browser):
    browser = open_browser(played, "#/now")
    browser.until("summer", "#needs")
    scheme = lambda it: browser.driver.execute_cdp_cmd(
        "Emulation.setEmulatedMedia", {"features": [{"name": "prefers-color-scheme", "value": it}]}
    )
    whole = "return document.documentElement.scrollWidth <= innerWidth"
    for name, address in VIEWS.items():
        browser.js(GO, address)
        eventually(f"{name} is drawn", lambda: browser.js(DRAWN), 20)
        look_at_tree(browser)
        for width in WIDTHS:
            browser.wide(width)
            assert browser.js(whole), (name, width)
            for colours in ("light", "dark") if "PICTURES" in os.environ else ():
                scheme(colours)
                browser.whole_picture(f"{name}-{width}-{colours}")
        scheme("light")
    assert not browser.faults()
