"""The brake: pressed, shown to all who look, released. Not run by itself."""
from harness.browser import Browser
from harness.proxies import LOGIN

from .steps import case, confirmed, entered

PLACES = (
    "#/rollouts",
    "#/rollouts/new",
    "#/rollouts/1",
    "#/rollouts/1/groups/1",
    "#/targets",
    "#/targets/dev-00001",
    "#/firmware",
)


def polled(env):
    """What a device with an open offer is told, and what its deployment is answered."""
    token = {"Authorization": "TargetToken tok-dev-00001"}
    links = env.asked("/DEFAULT/controller/v1/dev-00001", token)["_links"]
    return [*links], env.ask(
        "GET", "/DEFAULT/controller/v1/dev-00001/deploymentBase/1", fields=token
    )[0]


@case()
def the_brake(browser, env):
    """It is pressed with a reason, and a second browser shows who, since when and why, on each view; released there,
    the first one shows that."""
    env.brake()
    env.fleet(2)
    env.plan(groups=1)
    other = Browser()
    try:
        entered(browser, env, "#/rollouts/1")
        entered(other, env, "#/targets")
        for it in (browser, other):
            it.until("document.getElementById('hold')")
            assert it.texts("#held .notice") == []
        # not now: nothing is held
        confirmed(browser, "#hold", "no device is told of a deployment", wanted=False)
        assert (
            polled(env) == (["deploymentBase"], 200)
            and env.api("GET", "/fwdesk/brake")["brake"] is None
        )
        browser.click("#hold")
        browser.until("document.getElementById('dialog').open")
        browser.type("#reason", 'it "doesn\'t" boot <b>&')
        browser.click("#dialog-yes")
        browser.until("document.querySelector('#held .notice') && !document.getElementById('hold')")
        assert polled(env) == ([], 503)
        told = env.api("GET", "/fwdesk/brake")
        assert (told["brake"]["who"], told["brake"]["reason"], told["quiet"]) == (
            LOGIN[0],
            'it "doesn\'t" boot <b>&',
            None,
        ), told
        since = other.js("return new Date(arguments[0]).toLocaleString()", told["brake"]["since"])
        words = (
            f"Everything is held: by {LOGIN[0]}, since {since}: "
            'it "doesn\'t" boot <b>&. No device is told of a deployment.'
        )
        other.until("document.querySelector('#held .notice') && !document.getElementById('hold')")
        for place in PLACES:
            entered(other, env, place)
            other.until("document.querySelector('#held .notice')")
            assert other.text("#held .notice").startswith(words), (
                place,
                other.text("#held .notice"),
            )
        # quiet hours are a hold of their own, and stay
        env.api("POST", "/fwdesk/brake?kind=quiet&reason=night")
        other.until("document.querySelectorAll('#held .notice').length === 2")
        confirmed(
            other,
            "#held [data-key=brake] button",
            words.removesuffix(" No device is told of a deployment."),
        )
        browser.until(
            "document.querySelectorAll('#held .notice').length === 1 && document.getElementById('hold')"
        )
        assert browser.text("#held").startswith("Quiet hours: by anna") and polled(env) == ([], 503)
        confirmed(browser, "#held [data-key=quiet] button", "night")
        other.until("!document.querySelector('#held .notice')")
        assert polled(env) == (["deploymentBase"], 200)
    finally:
        other.end()


@case()
def the_brake_out_of_reach(browser, env):
    """Where nobody answers behind the proxy the page says so, and what is shown stays what holds."""
    env.fleet(1)
    env.plan(groups=1)
    entered(browser, env, "#/rollouts/1")
    confirmed(browser, "#hold")
    browser.until(
        "document.getElementById('notice').innerText.includes('nobody answers at fwdesk-brake.socket')"
    )
    assert browser.texts("#held .notice") == [] and polled(env) == (["deploymentBase"], 200)


@case(proxy="nginx")
def no_brake_behind_nginx(browser, env):
    """nginx alone has none: the page offers none, and doesn't go on asking for it."""
    env.fleet(1)
    entered(browser, env, "#/targets")
    browser.until(
        "performance.getEntriesByType('resource').filter((it) => "
        "it.name.endsWith('/v1/targets?offset=0&limit=50')).length >= 3 || "
        "performance.getEntriesByType('resource').filter((it) => "
        "it.name.includes('/rest/v1/targets')).length >= 3"
    )
    asked = "performance.getEntriesByType('resource').filter((it) => it.name.includes('/fwdesk/brake')).length"
    assert browser.js(f"return {asked}") == 1 and not browser.js(
        "return document.getElementById('hold')"
    )
