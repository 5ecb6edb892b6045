"""An operator's day on the web UI, with its clicks and its fields counted: what is printed is what each task takes, and none
takes more than is said here."""
import csv

import pytest

from .browser import Browser
from .environment import Environment
from harness.processes import eventually

DEVICES = 1000


class Counting(Browser):
    """Counts what an operator does: each press, and each field that is filled in."""

    def __init__(self, env):
        super().__init__(env)
        self.clicks = self.fields = 0

    def press(self, selector):
        eventually(f"{selector} is there", lambda: self.js(FOUND, selector), 30)
        self.js("document.querySelector(arguments[0]).scrollIntoView({block: 'center'})", selector)
        self.click(selector)
        self.clicks += 1

    def link(self, words):
        """The link or button that says so."""
        found = eventually(f"{words!r} is there", lambda: self.js(BY_WORDS, words), 30)
        self.js("arguments[0].scrollIntoView({block: 'center'})", found)
        found.click()
        self.clicks += 1

    def fill(self, selector, value):
        eventually(f"{selector} is there", lambda: self.js(FOUND, selector), 30)
        self.type(selector, value)
        self.fields += 1

    def task(self, name, clicks, fields):
        """What was done since the last one, which takes no more than this."""
        print(f"{name}: {self.clicks} clicks, {self.fields} fields")
        assert self.clicks <= clicks and self.fields <= fields, (name, self.clicks, self.fields)
        self.clicks = self.fields = 0


FOUND = "return !!document.querySelector(arguments[0])?.getClientRects().length"
BY_WORDS = """return [...document.querySelectorAll('main a, main button, main summary, dialog button, header a')]
  .find((it) => it.innerText.trim() === arguments[0] && it.getClientRects().length)"""


@pytest.fixture
def day(tmp_path):
    made = Environment(tmp_path)
    yield made
    made.end()


def write_devices(path, wrong):
    with open(path, "w", newline="") as file:
        rows = csv.writer(file, lineterminator="\n")
        rows.writerow(("controllerid", "name", "token", "tags"))
        for k in range(1, DEVICES + 1):
            device = f"dev {k:05}" if wrong and k == 700 else f"dev-{k:05}"
            rows.writerow((device, f"Device {k}", f"tok-dev-{k:05}", "lab"))


def test_an_operators_day_takes_few_clicks(day, tmp_path):
    browser = Counting(day)
    try:
        write_devices(tmp_path / "wrong.csv", True)
        write_devices(tmp_path / "right.csv", False)
        browser.open("#/now")
        browser.link("Import your devices")
        browser.link("Import a file of devices")
        browser.fill("#import-file", str(tmp_path / "wrong.csv"))
        browser.press("main form:has(#import-file) button")
        browser.until("701", "#import-told")
        browser.fill("#import-file", str(tmp_path / "right.csv"))
        browser.press("main form:has(#import-file) button")
        browser.until("1\u202f000 devices", "#import-told", 60)
        browser.task("import 1,000 devices, one id wrong; mend; again", 4, 2)

        for version in ("2.0", "2.1"):
            (tmp_path / f"pump-{version}.bin").write_bytes(version.encode() * 5000)
            browser.link("Firmware")
            browser.fill("#ship-file", str(tmp_path / f"pump-{version}.bin"))
            browser.press("#ship button.main")
            browser.until(f"pump {version} is ready", "#ship-told")
            browser.task(f"firmware pump {version}", 2, 1)
        # over before: what a roll back goes back to
        first = day.plan("first", groups=1, set_=1, text="controllerid==dev-0000*")
        for it in day.table(first):
            day.report(it["controllerid"], int(it["action"]), "success", "installed")

        browser.link("plan a rollout with it")
        browser.fill("#rollout-name", "summer")
        browser.press("#way-canary")
        browser.press("#new-rollout button.main")
        browser.until("summer", "h1")
        browser.task("plan 1 % / 10 % / the rest", 3, 1)
        rollout = int(browser.js("return location.hash.split('/')[2]"))

        browser.press("[data-command=start]")
        browser.press("#dialog-yes")
        running = lambda: day.api(f"/rest/v1/rollouts/{rollout}")["status"] == "running"
        eventually("it runs", running, 30)
        browser.task("start", 2, 0)

        for it in day.table(rollout)[:10]:
            day.report(it["controllerid"], int(it["action"]), "success", "installed")
        for it in day.table(rollout)[10:110]:
            day.report(it["controllerid"], int(it["action"]), "failure", "disk full")
            if day.api(f"/rest/v1/rollouts/{rollout}")["status"] == "paused":
                break
        browser.until("by itself", "main .cause", 30)
        browser.until("“disk full”", "main .words", 30)
        browser.until("started by anna", "main .acts")
        browser.task("it pauses: why, by whom and when it was started", 0, 0)
        browser.press("#see-failed")
        browser.until("disk full", "main table")
        browser.task("which devices failed", 1, 0)

        browser.go(f"#/rollouts/{rollout}")
        browser.link("Roll back")
        browser.press("#dialog-yes")
        planned = lambda: day.api("/rest/v1/rollouts?limit=100")["total"] > rollout
        eventually("it is planned", planned, 60)
        browser.until("Started:", "body", 60)
        browser.task("back to the old version, for those that have the new one", 2, 0)

        browser.link("Fleet")
        browser.fill("#fleet-filter", "00900")
        browser.link("Search")
        browser.link("dev-00900")
        browser.until("Last words", "#device-now")
        browser.task("find a device by its id: version, last poll, last words", 3, 1)
        browser.link("New token")
        browser.press("#dialog-yes")
        browser.until("shown this once", "main")
        browser.task("replace its token", 2, 0)
        browser.link("Retire")
        browser.press("#dialog-yes")
        browser.until("is retired", "#notice", 60)
        browser.task("retire it", 2, 0)
        browser.link("History")
        browser.link("Audit log")
        browser.until("/start", "main table")
        browser.task("who pressed what", 2, 0)
        # the file that is wrong is refused, and before a large one the login is asked for at its address
        assert not [it for it in browser.faults() if "/desk/v1/import - Failed to load" not in it]
    finally:
        browser.end()
