"""The groups of a new rollout: even, one by one, and by a preset. Not run by itself."""
from .steps import case, confirmed, entered


def groups_of(env, rollout):
    return [
        (it["size"], it["success"], it["error"])
        for it in env.api("GET", f"/rest/v1/rollouts/{rollout}/deploygroups")["content"]
    ]


def drawn(browser):
    return [it.strip().replace("\u202f", "") for it in browser.texts("#plan li")]


def opened(browser, env, count, place="#/rollouts/new"):
    entered(browser, env, place)
    browser.until(f"document.querySelector(\"[data-matching='{count}']\")")


@case()
def a_canary_in_four_clicks(browser, env):
    """New rollout, the preset, create, start: 1 %, 10 % of what is left, the rest, each with thresholds of its own."""
    env.fleet(205)
    entered(browser, env, "#/rollouts")
    browser.click("a.button.main")
    browser.until("document.querySelector(\"[data-matching='205']\")")
    browser.type("#rollout-name", "canary")
    browser.click("#way-canary")
    # 2.05 and 20.2 are rounded up
    browser.until("document.querySelectorAll('#plan li').length === 3")
    assert drawn(browser) == ["1 · 3 devices", "2 · 21 devices", "3 · 181 devices"], drawn(browser)
    marks = browser.js(
        "return [...document.querySelectorAll('#plan .bar')].map((it) => it.getAttribute('aria-label'))"
    )
    assert marks == [
        f"Group {k}: {size} waiting, of {size}; success at {success} %, a pause at {error} % failed"
        for k, size, success, error in ((1, 3, 90, 5), (2, 21, 90, 5), (3, 181, 80, 10))
    ], marks
    browser.click("#new-rollout button.main")
    confirmed(
        browser,
        "[data-command=start]",
        "Starts group 1: 3 devices are offered r2 1.0.",
        "Later: 202 devices in 2 groups.",
    )
    browser.until("document.querySelector('[data-command=pause]')")
    assert groups_of(env, 1) == [(3, 90, 5), (21, 90, 5), (181, 80, 10)], groups_of(env, 1)
    assert env.api("GET", "/rest/v1/rollouts/1")["status"] == "running"


def typed_in(browser, group, **values):
    for name, value in values.items():
        browser.type(f"[data-row='{group}'] .{name}", str(value))


@case()
def groups_one_by_one(browser, env):
    """Groups are added, taken out and drawn as the server cuts them, with the thresholds that each was given; what it
    would refuse is said before."""
    env.fleet(10)
    opened(browser, env, 10)
    browser.type("#rollout-name", "own")
    browser.click("#way-own")
    browser.click("#add-group")
    browser.click("#add-group")
    browser.click("#add-group")
    assert browser.js("return document.querySelectorAll('.own li').length") == 4
    assert browser.js(
        "return document.activeElement === document.querySelector(\"[data-row='3'] .percentage\")"
    ), "the new group isn't where one types"
    typed_in(browser, 1, percentage=10, success=100, error=1)
    typed_in(browser, 2, percentage=50, success=40, error=34)
    browser.click("[aria-label='Take group 3 out']")
    typed_in(browser, 3, success=60, error=20)
    # of ten members 1, 5 and 4, as docs/API.md has it
    assert drawn(browser) == ["1 · 1 device", "2 · 5 devices", "3 · 4 devices"], drawn(browser)
    assert browser.js("return document.querySelector(\"[data-row='3'] .percentage\").disabled")
    browser.click("#new-rollout button.main")
    browser.until("location.hash === '#/rollouts/1'")
    assert groups_of(env, 1) == [(1, 100, 1), (5, 40, 34), (4, 60, 20)], groups_of(env, 1)
    refused_before_it_is_sent(browser, env)


def refused_before_it_is_sent(browser, env):
    opened(browser, env, 10)
    browser.click("#way-own")
    browser.click("#add-group")
    typed_in(browser, 1, percentage=100)
    assert "Group 2 would have no device: those before it take all 10." in browser.text("#plan")
    typed_in(browser, 1, percentage=101)
    assert "Percentages and thresholds are whole numbers from 1 to 100." in browser.text("#plan")
    browser.click("#way-even")
    browser.type("#rollout-groups", "11")
    assert "10 devices can't fill 11 groups." in browser.text("#plan")
    browser.type("#rollout-groups", "4")
    assert drawn(browser) == [
        "1 · 2 devices",
        "2 · 3 devices",
        "3 · 2 devices",
        "4 · 3 devices",
    ], drawn(browser)


@case()
def a_rollout_like_another(browser, env):
    """Set, filter, groups and thresholds are filled in: of even groups their number,
    of others percentages that cut them alike."""
    env.fleet(1000)
    condition = lambda percent: {"condition": "THRESHOLD", "expression": str(percent)}
    both = lambda success, error: {
        "successCondition": condition(success),
        "errorCondition": condition(error),
    }
    groups = [
        {"targetPercentage": it, **both(success, error)}
        for it, success, error in ((1, 95, 3), (10, 90, 5), (25, 70, 8), (100, 60, 9))
    ]
    env.api(
        "POST",
        "/rest/v1/rollouts",
        {
            "name": "own",
            "distributionSetId": 1,
            "targetFilterQuery": "tag==lab",
            "groups": groups,
            **both(60, 9),
        },
    )
    env.plan("even", groups=7, success=66, error=33, start=False)
    for number, name in ((1, "own"), (2, "even")):
        entered(browser, env, f"#/rollouts/{number}")
        browser.click("a[href='#/rollouts/new?like=%d']" % number)
        browser.until("document.querySelector(\"[data-matching='1000']\")")
        assert browser.text("h1") == f"New rollout, like {name}"
        browser.type("#rollout-name", f"{name} again")
        browser.click("#new-rollout button.main")
        browser.until(f"location.hash === '#/rollouts/{number + 2}'")
        assert groups_of(env, number + 2) == groups_of(env, number)
        filters = [
            env.api("GET", f"/rest/v1/rollouts/{it}")["targetFilterQuery"]
            for it in (number, number + 2)
        ]
        assert filters[0] == filters[1], filters


def edges(browser, selector):
    """The upper and the lower edge of something in the window."""
    return browser.js(
        "const it = document.querySelector(arguments[0]).getBoundingClientRect(); return [it.top, it.bottom]",
        selector,
    )


@case()
def a_failed_group_among_fifty(browser, env):
    """It is the first that is seen of a rollout, on a phone too, with what it needs and has in numbers."""
    env.fleet(500)
    env.plan(groups=50, success=80, error=20)
    for _ in range(15):
        env.api("POST", "/rest/v1/rollouts/1/triggerNextGroup")
    # group 16 has the devices 151 to 160: two failures of ten are 20 %
    env.report(151, "success")
    for action in (152, 153):
        env.report(action, "failure", ["disk full"])
    assert env.api("GET", "/rest/v1/rollouts/1")["status"] == "paused"
    for width, height in ((1440, 900), (1024, 768), (390, 844)):
        browser.size(width, height)
        entered(browser, env, "#/rollouts/1")
        browser.until("document.querySelectorAll('.group').length === 50")
        top, bottom = edges(browser, "#faulty [data-group='16']")
        assert 0 <= top and bottom <= height, (width, height, top, bottom)
        assert browser.js("return document.documentElement.scrollWidth") <= width
    browser.size(1100, 900)
    assert browser.text("#faulty .thresholds") == (
        "goes on at 8 of 10 succeeded (80 %): 1 did; pauses at 2 failed (20 %): 2 did"
    ), browser.text("#faulty .thresholds")
    labels = browser.js(
        "return [...document.querySelectorAll('.widths a')].map((it) => it.getAttribute('aria-label'))"
    )
    assert len(labels) == 50 and labels[15] == "Group 16, failed, 10 devices", labels[14:17]
    assert browser.js("return document.querySelectorAll('.widths .faulty').length") == 1


@case()
def groups_as_wide_as_they_are(browser, env):
    """Groups of 5, 10 and 85 devices are drawn in these widths, in the list and in the rollout."""
    env.fleet(100)
    condition = {"condition": "THRESHOLD", "expression": "50"}
    both = {"successCondition": condition, "errorCondition": condition}
    env.api(
        "POST",
        "/rest/v1/rollouts",
        {
            "name": "canary",
            "distributionSetId": 1,
            "targetFilterQuery": "tag==lab",
            "groups": [{"targetPercentage": it} for it in (5, 10, 100)],
            **both,
        },
    )
    assert [size for size, _, _ in groups_of(env, 1)] == [5, 10, 85]
    for place in ("#/rollouts", "#/rollouts/1"):
        entered(browser, env, place)
        browser.until("document.querySelectorAll('.widths li').length === 3")
        widths = browser.js(
            "return [...document.querySelectorAll('.widths li')].map((it) => it.getBoundingClientRect().width)"
        )
        whole = sum(widths)
        shares = [100 * it / whole for it in widths]
        assert all(abs(one - other) < 2 for one, other in zip(shares, (5, 10, 85))), shares
