"""Who may what: the page offers no button in vain, and shows the words of a refusal. Not run by itself."""
from harness.processes import HOST
from .steps import case, commands, confirmed, entered

OPERATORS = {
    "anna": "look,steer",
    "ben": "look,approve",
    "cleo": "look,hold",
    "wall": "look",
    "otto": "",
    "zoe": "look,steer,approve,hold",
}
# where the page has what changes something: the place, and what is there for who plans and steers
STEERED = {
    "#/rollouts": ("a[href='#/rollouts/new']", "#pause-all"),
    "#/rollouts/1": ("#cancel-open", "[data-command=pause]", "a[href='#/rollouts/new?like=1']"),
    "#/rollouts/1/groups/1": ("#cancel-open", "#tag-members"),
    "#/rollouts/new": ("#new-rollout button.main",),
    "#/targets": ("#import-file", "#tag-list", "#tag-matching"),
    "#/targets/dev-00001": ("[data-key='cancel 1']", "#tag", "[aria-label='Remove the tag lab']"),
    "#/targets/dev-00001/actions/1": ("[data-key='cancel 1']",),
    "#/firmware": ("#new-module", "#new-set"),
    "#/firmware/modules/2": ("#upload-file",),
}
# what may be pressed by whoever looks: ways to show or save something
SHOWS = ("Search", "save-groups", "save-devices")


def shown(browser, place):
    """Goes to a place, and waits until it is there."""
    browser.js("location.hash = '#/nowhere'")
    browser.until("document.querySelector('h1')?.innerText === 'Not shown'")
    browser.js("location.hash = arguments[0]", place)
    browser.until(
        "document.querySelector('h1') && document.querySelector('h1').innerText !== 'Not shown'"
    )


def buttons(browser):
    """The buttons and forms of what is shown, but for those that only show something."""
    found = (
        "return [...document.querySelectorAll('main button, main form:not([role=search]), "
        "main input[type=file]')].map((it) => it.id || it.innerText)"
    )
    return [it for it in browser.js(found) if it and not it.startswith(SHOWS)]


def is_offered(browser, name):
    """Looks at each place, whether what changes something is there for a login."""
    for place, parts in STEERED.items():
        shown(browser, place)
        for part in parts:
            there = browser.js("return Boolean(document.querySelector(arguments[0]))", part)
            assert there == (name in ("anna", "zoe")), (name, place, part, there)
        assert name in ("anna", "zoe") or not buttons(browser), (name, place, buttons(browser))


def holds(browser, env):
    """The buttons of the brake, once the page has asked for it."""
    browser.until(
        "performance.getEntriesByName(arguments[0]).length",
        f"https://{HOST}:{env.port}/fwdesk/brake",
    )
    return browser.texts("#held button")


@case(approval=True, operators=OPERATORS)
def roles(browser, env):
    """Each login is offered what it may press, and is told what it may not."""
    env.brake()
    env.login = ("zoe", env.login[1])
    env.fleet(3)
    env.plan(groups=1, start=False)
    env.api("POST", "/rest/v1/rollouts/1/approve")
    env.api("POST", "/rest/v1/rollouts/1/start")
    env.api("POST", "/rest/v1/softwaremodules", [{"name": "app", "type": "os", "version": "2.0"}])
    env.plan(name="summer", groups=1, start=False)
    who = {
        "anna": "anna may look, steer",
        "ben": "ben may look, approve",
        "cleo": "cleo may look, hold",
        "wall": "wall may look",
        "zoe": "zoe",
    }
    offered = {
        "anna": [],
        "ben": ["approve", "deny"],
        "cleo": [],
        "wall": [],
        "zoe": ["approve", "deny"],
    }
    for name, words in who.items():
        entered(browser, env, "#/rollouts/2", name)
        assert browser.text("#who") == words, browser.text("#who")
        assert commands(browser) == offered[name], (name, commands(browser))
        assert holds(browser, env) == (["Hold everything"] if name in ("cleo", "zoe") else []), name
        is_offered(browser, name)
    # whoever holds releases, and others see that it is held
    env.api("POST", "/fwdesk/brake?kind=brake&reason=smoke")
    for name in ("cleo", "ben"):
        entered(browser, env, "#/rollouts/2", name)
        browser.until("document.querySelector('#held .notice')")
        assert holds(browser, env) == (["Release"] if name == "cleo" else []), name
    env.api("DELETE", "/fwdesk/brake?kind=brake")
    # a page that is open while somebody's groups are taken away
    entered(browser, env, "#/rollouts/2", "ben")
    browser.js(
        "window.fetch = new Proxy(window.fetch, {apply: "
        "(it, of, [at, how]) => it.call(of, at.replace('approve', 'start'), how)})"
    )
    confirmed(browser, "[data-command=approve]", "Lets summer be started.")
    browser.until(
        "document.querySelector('#notice').innerText.includes('Not done: this login may not plan or steer.')"
    )
    assert not browser.text("#banner"), browser.text("#banner")
    assert env.api("GET", "/rest/v1/rollouts/2")["status"] == "waiting_for_approval"
    # what one may only approve, and another may only start
    entered(browser, env, "#/rollouts/2", "ben")
    confirmed(browser, "[data-command=approve]", "Lets summer be started.")
    browser.until("!document.querySelector('[data-command]')")
    entered(browser, env, "#/rollouts/2", "anna")
    assert commands(browser) == ["start"], commands(browser)
    # who is in no group sees why
    entered(browser, env, "#/rollouts", "otto")
    browser.until(
        "document.querySelector('main').innerText.includes('Not done: this login may not look.')"
    )
    assert browser.text("#who") == "otto may do nothing" and not browser.text(
        "#banner"
    ), browser.text("#who")
