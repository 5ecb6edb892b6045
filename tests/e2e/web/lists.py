"""Lists: parts of them by a press, their order, and the way back. Not run by itself."""
import time

from .steps import case, entered

LONG = "a-pump-with-a-long-id.of-site-0000000000000000000000000000000001"


def named(count):
    """Lines of so many devices, whose names are the other way round; every third one is tagged north."""
    tags = lambda k: "lab north" if k % 3 == 0 else "lab"
    return "".join(
        f"dev-{k:05},Pump {1000 - k},tok-dev-{k:05},{tags(k)}\n" for k in range(1, count + 1)
    )


def first_column(browser):
    return browser.texts("tbody td:first-child")


@case()
def chips_and_order(browser, env):
    """A press on a tag narrows the list and another one takes it back; the order holds over pages and all devices."""
    env.fleet(0, named(120))
    env.plan(groups=2)
    env.report(1, "failure")
    env.report(2, "success")
    entered(browser, env, "#/targets")
    tags = browser.texts("#tags a")
    assert tags == ["lab", "north"], tags
    browser.click("#tags a:nth-of-type(2)")
    browser.until("document.querySelectorAll('tbody tr').length === 40")
    assert first_column(browser)[0] == "dev-00003"
    ground = lambda k: browser.js(
        f"return getComputedStyle(document.querySelector('#tags a:nth-of-type({k})')).backgroundColor"
    )
    assert ground(1) != ground(2), "nothing shows which tag is chosen"
    browser.click("#tags a:nth-of-type(2)")
    browser.until("document.querySelectorAll('tbody tr').length === 50")
    # a word is searched for, and a tag narrows what it finds
    entered(browser, env, "#/targets?q=dev-0000")
    browser.until("document.querySelectorAll('tbody tr').length === 9")
    browser.click("#tags a:nth-of-type(2)")
    browser.until("document.querySelectorAll('tbody tr').length === 3")
    entered(browser, env, "#/targets")
    browser.click("[data-sort=name]")
    browser.until("document.querySelector('tbody td').innerText === 'dev-00120'")
    assert first_column(browser) == [f"dev-{k:05}" for k in range(120, 70, -1)]
    browser.click("nav.pager a:last-child")
    browser.until("document.querySelector('tbody td').innerText === 'dev-00070'")
    browser.click("[data-sort=name]")
    browser.until("document.querySelector('tbody td').innerText === 'dev-00001'")
    browser.click("[data-sort=state]")
    browser.until("document.querySelector('tbody tr').innerText.includes('failed')")
    states = [browser.texts(f"tbody tr:nth-child({k}) td:nth-child(3)")[0] for k in (1, 2, 50)]
    assert [it.split("\n")[-1] for it in states] == ["failed", "in progress", "in progress"], states
    browser.click("#states a:nth-of-type(3)")
    browser.until("document.querySelector('h1').innerText === 'Devices: succeeded'")
    assert first_column(browser) == ["dev-00002"]
    entered(browser, env, "#/rollouts/1/groups/1?sort=-id")
    assert first_column(browser)[0] == "dev-00060"


@case()
def the_way_back(browser, env):
    """Behind a device the list is where it was, in its order; a look at the server doesn't move it."""
    env.fleet(120)
    entered(browser, env, "#/targets?sort=-id")
    browser.until("document.querySelectorAll('tbody tr').length === 50")
    browser.js("scrollTo(0, 900)")
    time.sleep(0.3)
    browser.js("document.querySelector('tbody tr:nth-child(30) a').click()")
    browser.until("document.querySelector('h1').innerText === 'dev-00091'")
    assert browser.js("return scrollY") == 0
    browser.js("history.back()")
    browser.until("document.querySelector('h1').innerText === 'Fleet' && scrollY > 0")
    assert abs(browser.js("return scrollY") - 900) < 5
    time.sleep(6)
    assert abs(browser.js("return scrollY") - 900) < 5
    browser.js("history.forward()")
    browser.until("document.querySelector('h1').innerText === 'dev-00091'")


@case()
def an_id_in_one_line(browser, env):
    """The longest id is in one line at each width, and whole for who points at it or hears it."""
    env.fleet(1, f"{LONG},a name,tok-dev-long,\n")
    for width in (1440, 1024, 390):
        browser.size(width, 844)
        entered(browser, env, "#/targets")
        lines = browser.js(
            "const it = [...document.querySelectorAll('tbody a')].find((one) => one.innerText === arguments[0]);"
            "return it.getBoundingClientRect().height / parseFloat(getComputedStyle(it).lineHeight)",
            LONG,
        )
        assert lines < 1.5, (width, lines)
        assert browser.js("return document.documentElement.scrollWidth") <= width, width
    browser.size(1100, 900)


@case()
def a_sign_of_loading(browser, env):
    """While a view is asked for on a slow line a bar and words say so, and go when it is there."""
    env.fleet(20)
    entered(browser, env, "#/firmware")
    browser.devtools("Network.enable")
    slow = lambda latency: browser.devtools(
        "Network.emulateNetworkConditions",
        offline=False,
        latency=latency,
        downloadThroughput=-1,
        uploadThroughput=-1,
    )
    slow(1500)
    try:
        browser.js("location.hash = '#/targets'")
        busy = "document.getElementById('main').getAttribute('aria-busy') === 'true'"
        browser.until(
            f"{busy} && document.getElementById('asked').innerText === 'Loading…'", seconds=1
        )
        shown = browser.js(
            "return getComputedStyle(document.getElementById('main'), '::before').height"
        )
        assert shown == "3px", shown
        browser.until(f"!({busy}) && document.querySelector('h1').innerText === 'Fleet'")
        assert browser.text("#asked").startswith("as of ")
    finally:
        slow(0)
