"""The register of cases, and the steps that many of them take. Not run by itself."""
from harness.processes import wait_for
from harness.proxies import LOGIN

# each case by its name, with the ways of its environment
CASES = {}
# the UI's word for each state and count of the calls: the same for the same thing everywhere
WORDS = {
    "rollout": {
        "waiting_for_approval": "waiting for approval",
        "approval_denied": "denied",
        "ready": "planned",
        "running": "running",
        "paused": "paused",
        "finished": "finished",
    },
    "group": {
        "ready": "waiting",
        "scheduled": "waiting",
        "running": "in progress",
        "error": "failed",
        "finished": "finished",
    },
    "count": {"ok": "succeeded", "bad": "failed", "gone": "canceled"},
}


def case(**ways):
    def kept(function):
        CASES[function.__name__] = (function, ways)
        return function

    return kept


def entered(browser, env, place="", name=LOGIN[0]):
    """Logs in, and shows a place of the page."""
    browser.go(env.address().replace("//", f"//{name}:{LOGIN[1]}@"))
    browser.go("about:blank")
    browser.go(env.address(place))
    browser.until("document.querySelector('h1')")


def shown_counts(browser, selector):
    """The numbers that the page shows, by their parts."""
    of_part = "({part: it.dataset.count, count: Number(it.innerText.replace(/\\D/g, ''))})"
    parts = browser.js(
        f"return [...document.querySelectorAll(arguments[0] + ' [data-count]')].map((it) => {of_part})",
        selector,
    )
    return {it["part"]: it["count"] for it in parts}


def compared(browser, env, rollout=1):
    """Compares the numbers of a rollout's page with the server's, group by group, once the page has asked again."""
    path = f"/rest/v1/rollouts/{rollout}"
    status, groups = (
        env.api("GET", path)["status"],
        env.api("GET", f"{path}/deploygroups?limit=500")["content"],
    )
    total = {part: sum(it[part] for it in groups) for part in ("ok", "bad", "gone")}
    left = lambda it: it["size"] - it["ok"] - it["bad"] - it["gone"]
    waits = lambda it: it["status"] in ("ready", "scheduled")
    total |= {
        "open": sum(left(it) for it in groups if not waits(it)),
        "waiting": sum(left(it) for it in groups if waits(it)),
    }
    wait_for(lambda: shown_counts(browser, "main") == total, 12, 0.2)
    assert shown_counts(browser, "main") == total, (shown_counts(browser, "main"), total)
    browser.until(
        "document.querySelector('main .badge').innerText.includes(arguments[0])",
        WORDS["rollout"][status],
        seconds=8,
    )
    for it in groups:
        shown = browser.text(f"[data-group='{it['id']}']").replace("\u202f", "")
        word = WORDS["group"][it["status"]]
        assert word in shown and f"{it['size']} device" in shown, (it, shown)
        for part, word in WORDS["count"].items():
            assert not it[part] or f"{it[part]} {word}" in shown, (it, shown)
    return groups


def confirmed(browser, button, *words, wanted=True):
    """Presses a button, looks whether the dialog says these words, and says yes or goes back."""
    browser.click(button)
    browser.until("document.getElementById('dialog').open")
    said = browser.text("#dialog-words").replace("\u202f", "")
    assert all(it in said for it in words), (words, said)
    browser.click("#dialog-yes" if wanted else "#dialog button")
    browser.until("!document.getElementById('dialog').open")


def chosen(browser, button, way, *words, before=lambda: None):
    """Presses a button, looks whether the dialog says these words, takes one of its choices, and says yes."""
    browser.click(button)
    browser.until("document.getElementById('dialog').open")
    said = browser.text("#dialog-words").replace("\u202f", "")
    assert all(it in said for it in words), (words, said)
    before()
    browser.click(f"#dialog input[value={way}]")
    browser.click("#dialog-yes")
    browser.until("!document.getElementById('dialog').open")


def job_ended(browser):
    """What the last job says at its end, once it is there."""
    browser.until("document.querySelector('#work > :last-child [role=status]')", seconds=240)
    return browser.text("#work > :last-child [role=status] p").replace("\u202f", "")


# keeps what a button saves as a file
KEEP_FILES = """window.files = []; const make = URL.createObjectURL;
URL.createObjectURL = (it) => { it.text().then((text) => window.files.push(text)); return make.call(URL, it); };"""


def saved(browser, button):
    """The text of the file that a button saves."""
    browser.js(KEEP_FILES)
    browser.click(button)
    return browser.until("window.files[0]")


def commands(browser):
    return browser.js(
        "return [...document.querySelectorAll('[data-command]')].map((it) => it.dataset.command)"
    )
