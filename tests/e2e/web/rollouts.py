"""Rollouts: planned, steered, shown. Not run by itself."""
from .steps import case, commands, compared, confirmed, entered, saved


@case()
def a_rollout_that_pauses_by_itself(browser, env):
    """It is planned on the page, started, pauses by its errors, is resumed, and ends."""
    env.fleet(12)
    entered(browser, env, "#/rollouts/new")
    browser.type("#rollout-name", "spring")
    browser.type("#rollout-filter", "tag==lab")
    browser.until("document.querySelector(\"[data-matching='12']\")")
    for name, value in {"groups": 3, "success": 50, "error": 50}.items():
        browser.type(f"#rollout-{name}", str(value))
    drawn = [it.strip() for it in browser.texts("#plan li")]
    assert drawn == ["1 · 4 devices", "2 · 4 devices", "3 · 4 devices"], drawn
    browser.click("#new-rollout button.main")
    browser.until("location.hash === '#/rollouts/1' && document.querySelector('[data-command]')")
    assert "Created: spring, 12 devices in 3 groups." in browser.text("#notice")
    assert commands(browser) == ["start"]
    compared(browser, env)
    confirmed(
        browser,
        "[data-command=start]",
        "Starts group 1: 4 devices are offered r2 1.0.",
        "Later: 8 devices in 2 groups.",
    )
    browser.until("document.querySelector('[data-command=pause]')")
    assert commands(browser) == ["pause", "triggerNextGroup"]
    for action, word in ((1, "success"), (2, "success"), (5, "failure")):
        env.report(action, word, ["it is done"])
    compared(browser, env)
    browser.js("document.querySelector('[data-command=pause]').focus()")
    env.report(3, "failure")
    compared(browser, env)
    assert (
        browser.js("return document.activeElement.dataset.command") == "pause"
    ), "a new drawing takes the focus away"
    env.report(6, "failure")
    browser.until("document.querySelector('main .cause')")
    cause = browser.text("main .cause")
    assert (
        cause
        == "Paused: the errors of group 2 (2 of 4 failed, 50 %) reached the error threshold of 50 %."
    ), cause
    assert commands(browser) == ["resume"]
    compared(browser, env)
    assert len(browser.js("return [...document.querySelectorAll('.group .mark')]")) == 6
    label = browser.js(
        "return document.querySelector('[data-group=\"2\"] .bar').getAttribute('aria-label')"
    )
    assert (
        label == "Group 2: 2 in progress, 2 failed, of 4; success at 50 %, a pause at 50 % failed"
    ), label
    entered(browser, env, "#/rollouts")
    assert (
        "the errors of group 2" in browser.text(".card .cause")
        and len(browser.texts(".card .strip li")) == 3
    )
    entered(browser, env, "#/rollouts/1")
    confirmed(
        browser,
        "[data-command=resume]",
        "Ends the pause. Group 3 starts once 2 of 4 in group 2 succeeded; 0 did so far.",
    )
    browser.until("document.querySelector('[data-command=pause]')")
    for action in (7, 8, 4, *range(9, 13)):
        env.report(action, "success")
    groups = compared(browser, env)
    assert [it["status"] for it in groups] == ["finished"] * 3 and commands(browser) == []
    lines = saved(browser, "#save-groups").splitlines()
    assert lines == [
        "Group,State,Devices,succeeded,in progress,waiting,canceled,failed,needed to go on,failures that pause",
        "1,finished,4,3,0,0,0,1,2,2",
        "2,finished,4,2,0,0,0,2,2,2",
        "3,finished,4,4,0,0,0,0,2,2",
    ], lines
    lines = saved(browser, "#save-devices").splitlines()
    assert lines[:2] == ["Device,Action,Group,State", "dev-00001,1,1,succeeded"], lines
    assert lines[5:7] == ["dev-00005,5,2,failed", "dev-00006,6,2,failed"], lines


@case()
def members_and_histories(browser, env):
    """The members of a group page by page with their states, an action with what its device said,
    and the numbers that it gave."""
    env.fleet(120)
    env.plan(groups=2)
    for _ in range(2):
        env.report(1, "none", execution="proceeding", number=1234567)
    env.report(1, "none", execution="proceeding")
    env.report(1, "success", ["line one", "line two"], number=4294967295)
    env.report(2, "failure")
    entered(browser, env, "#/rollouts/1/groups/1")
    rows = browser.texts("tbody tr")
    assert (
        len(rows) == 50
        and "failed" in rows[0]
        and "Device 2" in rows[0]
        and all("in progress" in it for it in rows[1:])
    ), rows[:3]
    kept = [
        it["controllerId"]
        for it in env.api("GET", "/rest/v1/rollouts/1/deploygroups/1/targets?limit=500")["content"]
    ]
    order = [kept[1], *kept[2:], kept[0]]
    assert browser.texts("tbody td:first-child") == order[:50]
    browser.click("nav.pager a:last-child")
    browser.until("document.querySelectorAll('tbody tr').length === 10")
    assert (
        browser.texts("tbody td:first-child") == order[50:]
        and "succeeded" in browser.texts("tbody tr")[-1]
    )
    entered(browser, env, "#/targets/dev-00001/actions/1")
    assert browser.texts(".history .details li") == [
        "line one",
        "line two",
    ] and "closed, succeeded" in browser.text(".history")
    numbers = browser.js(
        "return [...document.querySelectorAll('.history > li')].map((it) => "
        "it.querySelector('[data-number]')?.innerText ?? '')"
    )
    assert [it.replace("\u202f", " ").strip() for it in numbers] == [
        "number 1 234 567",
        "",
        "number 4 294 967 295",
    ], numbers


@case()
def a_long_list(browser, env):
    """The newest rollouts come first, twenty a page; an address that leads nowhere says so."""
    env.fleet(2)
    for k in range(1, 24):
        env.plan(f"rollout {k}", groups=2, start=False)
    entered(browser, env, "#/rollouts")
    assert browser.texts(".card h2") == [f"rollout {k}" for k in range(23, 3, -1)]
    browser.click("nav.pager a")
    browser.until("document.querySelector('.card h2').innerText === 'rollout 20'")
    assert browser.texts(".card h2") == [f"rollout {k}" for k in range(20, 0, -1)]
    for place in ("#/rollouts/99", "#/elsewhere"):
        entered(browser, env, place)
        browser.until("document.querySelector('h1').innerText === 'Not shown'")
        assert "number 3" in browser.text("main"), place


@case()
def actions_that_are_canceled(browser, env):
    """First the device is asked, then it is forced; a closed action has no button."""
    env.fleet(4)
    env.plan(groups=2)
    entered(browser, env, "#/targets/dev-00001/actions/1")
    confirmed(browser, "main .buttons button", "Asks dev-00001 to give action 1 of rollout 1 up")
    browser.until("document.querySelector('main .buttons button')?.innerText === 'Cancel by force'")
    confirmed(browser, "main .buttons button", "Ends action 1 of dev-00001 now, without the device")
    browser.until("!document.querySelector('main .buttons button')")
    assert env.api("GET", "/rest/v1/targets/dev-00001/actions/1")["status"] == "canceled"
    entered(browser, env, "#/rollouts/1")
    compared(browser, env)
    confirmed(
        browser,
        "[data-command=triggerNextGroup]",
        "Starts group 2: 2 devices are offered r2 1.0.",
        "doesn't wait for the success of group 1",
    )
    browser.until("!document.querySelector('[data-command=triggerNextGroup]')")
    confirmed(browser, "[data-command=pause]", "Withdraws no offer: 3 devices may still install.")
    browser.until("document.querySelector('main .cause')")
    assert (
        browser.text("main .cause")
        == "Paused by an operator: no group's errors are at the threshold."
    )
    assert browser.js("return document.querySelectorAll('.group .mark').length") == 4
    compared(browser, env)


@case(approval=True)
def approval(browser, env):
    env.fleet(4)
    env.plan("spring", groups=2, start=False)
    env.plan("autumn", groups=2, start=False)
    entered(browser, env, "#/rollouts/1")
    assert commands(browser) == ["approve", "deny"]
    confirmed(browser, "[data-command=approve]", "Lets spring be started.")
    browser.until("document.querySelector('[data-command=start]')")
    entered(browser, env, "#/rollouts/2")
    # a denial that comes too late is refused in words, with its number
    browser.click("[data-command=deny]")
    browser.until("document.getElementById('dialog').open")
    env.api("POST", "/rest/v1/rollouts/2/approve")
    browser.click("#dialog-yes")
    browser.until("document.querySelector('#notice .bad')")
    assert "Refused: the state doesn't allow it (any more) (number 7)." in browser.text("#notice")
    env.plan("winter", groups=2, start=False)
    entered(browser, env, "#/rollouts/3")
    confirmed(browser, "[data-command=deny]", "Denies winter for good")
    browser.until("document.querySelector('main .badge.bad')")
    assert (
        commands(browser) == []
        and env.api("GET", "/rest/v1/rollouts/3")["status"] == "approval_denied"
    )


@case()
def filters_that_are_refused(browser, env):
    """The server refuses them, and the page shows where each goes wrong."""
    env.fleet(3)
    entered(browser, env, "#/rollouts/new")
    places = {"tag=a": 4, "tag==": 5, "tag==a;": 7, "(tag==a))": 8, 'name=="a': 8}
    places |= {"(tag==a": 7, "tagx==a": 3, "attribute.==a": 10, "name== a": 6, "colour==red": 2}
    for text, at in places.items():
        browser.type("#rollout-filter", text)
        marked = (
            "document.querySelector('#rollout-filter-told [data-at]')?.dataset.at === arguments[0]"
        )
        shown = "arguments[1] === document.querySelector('.told code').innerText.replace('␣', '')"
        browser.until(f"{marked} && {shown}", str(at), text)
        assert "number 11" in browser.text("#rollout-filter-told")
        assert browser.text("#rollout-filter-told mark").replace("␣", "") == text[at:], text
    for text, total in {
        "name==*": 3,
        'controllerid==dev-00001,name=="Device 2"': 2,
        "((tag==none))": 0,
    }.items():
        browser.type("#rollout-filter", text)
        browser.until(
            "document.querySelector('#rollout-filter-told [data-matching]')?.dataset.matching "
            "=== arguments[0]",
            str(total),
        )
    browser.until("document.querySelector('#plan').innerText.includes('fill')")
    entered(browser, env, "#/targets?q=tag%3D%3D")
    assert "(number 11)" in browser.text("main")


@case()
def an_order_whose_answer_is_lost(browser, env):
    """The next group is started once. Where another operator was quicker nothing is, and where the answer is lost
    that is said: the order may be done, and what is shown then is what is."""
    env.fleet(8)
    env.plan(groups=4, error=100)
    entered(browser, env, "#/rollouts/1")
    trigger = "[data-command=triggerNextGroup]"

    def states():
        return [
            it["status"] for it in env.api("GET", "/rest/v1/rollouts/1/deploygroups")["content"]
        ]

    confirmed(browser, trigger, "Starts group 2: 2 devices are offered r2 1.0.")
    browser.until("document.getElementById('notice').innerText.includes('Group 2 is started.')")
    browser.until("!document.getElementById('dialog').open")
    # the button is drawn anew, for the group that is next now
    compared(browser, env)
    # another operator starts group 3 while the question is open
    browser.click(trigger)
    browser.until("document.getElementById('dialog').open")
    assert "Starts group 3: " in browser.text("#dialog-words"), browser.text("#dialog-words")
    env.api("POST", "/rest/v1/rollouts/1/triggerNextGroup")
    browser.click("#dialog-yes")
    browser.until("document.querySelector('#notice .bad')")
    said = browser.text("#notice")
    words = "Not done: group 3 of spring was started meanwhile. Look before you press again."
    assert words in said, said
    assert states() == ["running", "running", "running", "scheduled"], states()
    # the server has the order, and its answer doesn't come
    browser.js(
        "const asks = window.fetch; window.fetch = async (url, how) => { const reply = await asks(url, how); "
        "if (how?.method === 'POST') { throw new TypeError('the line breaks'); } return reply; };"
    )
    confirmed(browser, "[data-command=pause]")
    browser.until("document.querySelector('#notice .bad')?.innerText.includes('No answer')")
    said = browser.text("#notice")
    assert "It may be done or not: look before you press again." in said, said
    browser.until("document.querySelector('[data-command=resume]')")
    assert env.api("GET", "/rest/v1/rollouts/1")["status"] == "paused"
