"""A bad day: a bad firmware that is mended, called back, counted and tried again. Not run by itself."""
import time

from .steps import case, chosen, compared, confirmed, entered, job_ended

BASE = "/DEFAULT/controller/v1"
GOOD, BAD = 2, 1


def stocked(env, count):
    """So many devices, and two sets: os 1-bad and os 2-good."""
    for number, version in ((BAD, "1-bad"), (GOOD, "2-good")):
        env.api(
            "POST", "/rest/v1/softwaremodules", [{"name": "os", "type": "os", "version": version}]
        )
        env.api(
            "POST",
            "/rest/v1/distributionsets",
            [{"name": "os", "version": version, "modules": [{"id": number}]}],
        )
    rows = "".join(f"dev-{k:05},Pump {k},tok-dev-{k:05},lab\n" for k in range(1, count + 1))
    env.api("POST", "/desk/v1/import", f"controllerid,name,token,tags\n{rows}")


def polled(env, device):
    """What a device is offered: the version and the number of its action, or that of a cancel."""
    token = {"Authorization": f"TargetToken tok-{device}"}
    links = env.asked(f"{BASE}/{device}", token)["_links"]
    if "cancelAction" in links:
        return "cancel", int(links["cancelAction"]["href"].rpartition("/")[2])
    if "deploymentBase" not in links:
        return None, 0
    path = links["deploymentBase"]["href"]
    return env.asked(path, token)["deployment"]["chunks"][0]["version"], int(
        path.rpartition("/")[2]
    )


def works(env, device):
    """A device gives up what it is asked to, installs what it is offered, one after the other,
    and says what it installed in this order."""
    token, installed = {"Authorization": f"TargetToken tok-{device}"}, []
    while True:
        word, action = polled(env, device)
        if word is None:
            return installed
        kind, execution = (
            ("cancelAction", "canceled") if word == "cancel" else ("deploymentBase", "closed")
        )
        installed += [word] if word != "cancel" else []
        body = {"status": {"execution": execution, "result": {"finished": "success"}}}
        assert env.ask("POST", f"{BASE}/{device}/{kind}/{action}/feedback", body, token)[0] == 200


def left_by_a_bad_one(env):
    """Rollout 1 hands os 1-bad to ten devices and pauses by two failures; rollout 2 of os 2-good is planned."""
    stocked(env, 10)
    env.plan("first", groups=1, success=100, error=20, set=BAD)
    for action in (1, 2):
        env.report(action, "failure", ["it doesn't boot"])
    assert env.api("GET", "/rest/v1/rollouts/1")["status"] == "paused"
    env.plan("second", groups=1, success=100, error=100, set=GOOD, start=False)


HANDED = (
    "8 of 10 are handed os 1-bad first: their older action, of rollout 1 (first), is open, "
    "and a device is offered the oldest one."
)


@case()
def a_mending_rollout_by_force(browser, env):
    """Its question says who is handed the bad firmware first; ended by force, nobody is,
    and each device ends on the good one."""
    left_by_a_bad_one(env)
    entered(browser, env, "#/rollouts/2")
    chosen(
        browser,
        "[data-command=start]",
        "force",
        "Starts group 1: 10 devices are offered os 2-good.",
        HANDED,
    )
    assert job_ended(browser) == "Cancel by force: 8 of 8 done."
    browser.until("document.querySelector('[data-command=pause]')")
    states = [
        env.api("GET", f"/rest/v1/targets/dev-{k:05}/actions/{k}")["status"] for k in range(1, 11)
    ]
    assert states == ["error"] * 2 + ["canceled"] * 8, states
    assert [works(env, f"dev-{k:05}") for k in range(1, 11)] == [["2-good"]] * 10
    assert [it["status"] for it in compared(browser, env, 2)] == ["finished"]


@case()
def a_mending_rollout_that_asks(browser, env):
    """Devices that are asked give the bad firmware up at their next poll, and then get the good one.
    One has been asked before, one finished."""
    left_by_a_bad_one(env)
    env.api("DELETE", "/rest/v1/targets/dev-00003/actions/3")
    entered(browser, env, "#/rollouts/2")
    said = HANDED.replace("8 of 10", "7 of 10")
    chosen(
        browser,
        "[data-command=start]",
        "ask",
        said,
        "1 is asked to give os 1-bad of rollout 1 (first) up: until they answer they install nothing else.",
        before=lambda: env.report(4, "success"),
    )
    # the action of a device that finished meanwhile isn't canceled, and its name is told
    assert job_ended(browser).startswith("Cancel: 6 of 7 done.")
    assert "dev-00004: Refused: the action has its outcome already (number 8)." in browser.text(
        "#work"
    )
    browser.until("document.querySelector('[data-command=pause]')")
    assert [works(env, f"dev-{k:05}") for k in range(1, 11)] == [["2-good"]] * 10


@case()
def a_start_that_leaves_them(browser, env):
    """One of the answers has to be chosen; nothing is canceled where that was chosen, and the start is sent.
    Not now sends nothing."""
    left_by_a_bad_one(env)
    entered(browser, env, "#/rollouts/2")
    browser.click("[data-command=start]")
    browser.until("document.getElementById('dialog').open")
    browser.click("#dialog-yes")
    assert browser.js(
        "return document.getElementById('dialog').open"
    ), "it starts without an answer"
    browser.press("\ue00c")
    browser.until("!document.getElementById('dialog').open")
    assert env.api("GET", "/rest/v1/rollouts/2")["status"] == "ready" and polled(
        env, "dev-00003"
    ) == ("1-bad", 3)
    chosen(browser, "[data-command=start]", "leave", HANDED)
    browser.until("document.querySelector('[data-command=pause]')")
    assert polled(env, "dev-00003") == ("1-bad", 3) and works(env, "dev-00003") == [
        "1-bad",
        "2-good",
    ]
    # the older rollout goes on: what it starts goes before the newer one's
    confirmed(browser, "[data-command=pause]")
    env.plan("third", groups=2, success=100, error=100, set=BAD)
    entered(browser, env, "#/rollouts/3")
    browser.click("[data-command=triggerNextGroup]")
    browser.until("document.getElementById('dialog').open")
    said = browser.text("#dialog-words")
    assert (
        "5 of 5 are handed os 2-good first: their older action, of rollout 2 (second), is open"
        in said
    ), said


@case()
def behind_the_first_group(browser, env):
    """Of the groups that start later it says how many have an older action too,
    and of a rollout that runs how many it will still offer."""
    stocked(env, 12)
    env.plan("first", groups=2, success=100, error=100, set=BAD)
    env.plan("second", groups=3, success=100, error=100, set=GOOD, start=False)
    entered(browser, env, "#/rollouts/2")
    words = (
        "4 of 4 are handed os 1-bad first: their older action, of rollout 1 (first), is open",
        "In the groups behind it are 2 of 8.",
        "6 wait in rollout 1 (first), which runs: it offers them os 1-bad when their group starts, "
        "unless it is paused.",
    )
    chosen(browser, "[data-command=start]", "force", *words)
    assert job_ended(browser) == "Cancel by force: 6 of 6 done."
    browser.until("document.querySelector('[data-command=pause]')")
    # the other way round: rollout 1 would hand its second group the older action before the newer one
    entered(browser, env, "#/rollouts/2")
    for _ in range(2):
        confirmed(browser, "[data-command=triggerNextGroup]")
        time.sleep(0.5)
    entered(browser, env, "#/rollouts/1")
    words = "6 of 6 have a newer action open, os 2-good of rollout 2 (second): they are handed this one before it."
    confirmed(browser, "[data-command=triggerNextGroup]", words)


# presses the button that stops a job, once it has done more than twenty
STOPPED_AT_20 = """
const stop = () => { if (document.querySelector('#work [data-done]')?.dataset.done > 20) \
document.querySelector('#work button').click(); };
new MutationObserver(stop).observe(document.getElementById('work'), \
{subtree: true, attributes: true, childList: true});"""


@case()
def two_hundred_called_back(browser, env):
    """What is open is canceled, of a group and of a rollout: first asked, then by force, with its progress,
    and stopped in between."""
    count = 200
    stocked(env, count)
    env.plan("first", groups=2, success=100, error=100, set=BAD)
    env.api("POST", "/rest/v1/rollouts/1/triggerNextGroup")
    entered(browser, env, "#/rollouts/1/groups/2")
    chosen(
        browser,
        "#cancel-open",
        "ask",
        "100 devices of group 2 of first have os 1-bad in progress.",
        "The rollout goes on: pause it first",
    )
    assert job_ended(browser) == "Cancel: 100 of 100 done."
    browser.until(
        "[...document.querySelectorAll('.states a')].some((it) => it.innerText.includes('asked to cancel 100'))"
    )
    assert {it["group"] for it in env.actions() if it["state"] == "canceling"} == {"2"}
    entered(browser, env, "#/rollouts/1")
    browser.js(STOPPED_AT_20)
    chosen(
        browser,
        "#cancel-open",
        "force",
        "200 devices of first have os 1-bad in progress, of which 100 are asked to give it up already.",
    )
    told = job_ended(browser)
    gone = sum(it["state"] == "canceled" for it in env.actions())
    assert told == f"Cancel by force: {gone} of 200 done. Stopped." and 20 < gone < 60, (told, gone)
    entered(browser, env, "#/rollouts/1")
    compared(browser, env)
    began = time.monotonic()
    chosen(
        browser, "#cancel-open", "force", f"{200 - gone} devices of first have os 1-bad in progress"
    )
    assert job_ended(browser) == f"Cancel by force: {200 - gone} of {200 - gone} done."
    took = time.monotonic() - began
    assert {it["state"] for it in env.actions()} == {"canceled"}
    browser.until("!document.querySelector('#cancel-open')")
    compared(browser, env)
    print(f"  {200 - gone} ended by force in {took:.1f} s")


@case()
def pausing_all(browser, env):
    """All that run are paused, once it is asked; others stay as they are."""
    stocked(env, 4)
    for name in ("first", "second", "third"):
        env.plan(name, groups=2, start=name != "third")
    entered(browser, env, "#/rollouts")
    confirmed(browser, "#pause-all", "Pauses first, second.")
    assert job_ended(browser) == "Pause all running rollouts: 2 of 2 done."
    assert [it["status"] for it in env.api("GET", "/rest/v1/rollouts")["content"]] == [
        "paused",
        "paused",
        "ready",
    ]
    browser.until("!document.querySelector('#pause-all')")


def failed_in_two_ways(env, count):
    """A group of so many: half of them say disk full, half bad signature,
    but for ten that have it still and ten that installed it."""
    stocked(env, count + 20)
    env.plan("first", groups=1, success=100, error=100, set=BAD)
    for k in range(1, count + 1):
        env.report(k, "none", ["downloads"], execution="proceeding")
        env.report(k, "failure", ["disk full" if k % 2 else "bad signature"])
    for k in range(count + 1, count + 11):
        env.report(k, "success")


@case()
def failed_first_with_their_words(browser, env):
    """Members by state, the failed ones first with their last words, these counted; then all of them are tagged,
    and tried again on the tag."""
    count = 340
    failed_in_two_ways(env, count)
    entered(browser, env, "#/rollouts")
    browser.js(
        "performance.setResourceTimingBufferSize(5000); location.hash = '#/rollouts/1/groups/1'"
    )
    browser.until(
        "document.querySelectorAll('.words li').length === 2 && !document.querySelector('[data-read]')",
        seconds=180,
    )
    assert browser.texts(".words li") == [
        f"{count // 2} bad signature",
        f"{count // 2} disk full",
    ], browser.texts(".words li")
    assert [
        it.replace("\u202f", "") for it in browser.texts("[aria-label='Members by state'] a")
    ] == [
        f"all {count + 20}",
        f"failed {count}",
        "in progress 10",
        "succeeded 10",
    ]
    rows = browser.texts("tbody tr")
    assert len(rows) == 50 and all(
        "failed" in it and ("disk full" if k % 2 else "bad signature") in it
        for k, it in enumerate(rows, 1)
    ), rows[:3]
    histories = [name for name, _, _ in browser.asked() if name.endswith("/status?limit=500")]
    assert len(histories) == len(set(histories)) == count
    asked_where_it_changed(browser, env, count)
    browser.click(".words li:nth-child(2) a")
    browser.until(
        "document.querySelectorAll('tbody tr').length === 50 && "
        "!document.querySelector('tbody').innerText.includes('disk full')"
    )
    browser.click(".states a:nth-child(2)")
    browser.until(f"document.querySelector('nav.pager').innerText.includes('of {count + 1}')")
    assert (
        len([it for it in browser.asked() if it[0].endswith("/status?limit=500")]) == count + 1
    ), "a history is asked for twice"
    browser.open("details:has(#tag-members)")
    tried_again(browser, env, count + 1)


def asked_where_it_changed(browser, env, count):
    """The table is asked for once more where the group's counts change, and never else;
    of a further failure only its history is."""
    table = "performance.getEntriesByType('resource').filter((it) => it.name.endsWith('/rollouts/1/actions')).length"
    assert browser.js(f"return {table}") == 1
    group = "performance.getEntriesByType('resource').filter((it) => it.name.endsWith('/deploygroups/1')).length"
    seen = browser.js(f"return {group}")
    browser.until(f"{group} >= arguments[0]", seen + 2, seconds=90)
    assert browser.js(f"return {table}") == 1, "the table is asked for again and again"
    env.report(count + 11, "failure", ["disk full"])
    browser.until(
        f"{table} === 2 && [...document.querySelectorAll('.words li')].some((it) => it.innerText "
        f"=== '{count // 2 + 1} disk full')",
        seconds=90,
    )


def tried_again(browser, env, count):
    """All that the table has get a tag, and a rollout like this one is planned on it."""
    browser.type("#tag-members-tag", "retry-1")
    began = time.monotonic()
    confirmed(browser, "#tag-members button", f"Puts the tag retry-1 on {count} devices.")
    assert job_ended(browser) == f"Tag: retry-1: {count} of {count} done."
    print(f"  {count} tagged in {time.monotonic() - began:.1f} s")
    assert env.api("GET", "/rest/v1/targets?q=tag==retry-1")["total"] == count
    browser.click("#work a")
    browser.until(
        f"document.querySelector('[data-matching=\"{count}\"]') && document.querySelector('#plan li')"
    )
    assert (
        browser.text("h1") == "New rollout, like first"
        and browser.js("return document.getElementById('rollout-filter').value") == "tag==retry-1"
    )
    browser.type("#rollout-name", "again")
    browser.click("#new-rollout button.main")
    browser.until("location.hash === '#/rollouts/2'")
    made = env.api("GET", "/rest/v1/rollouts/2")
    assert (
        made["totalTargets"],
        made["totalGroups"],
        made["distributionSetId"],
        made["targetFilterQuery"],
    ) == (count, 1, BAD, "tag==retry-1"), made
    browser.until("document.querySelector('[data-command=start]')")


@case()
def tags_on_many(browser, env):
    """The result of a filter and a list that was pasted are tagged and untagged;
    what is refused is told with those that it met."""
    stocked(env, 120)
    for k in range(15):
        env.api("POST", f"/rest/v1/targets/dev-00007/tags/t-{k}")
    entered(browser, env, "#/targets?q=name!%3D*1*")
    left = [f"dev-{k:05}" for k in range(1, 121) if "1" not in str(k)]
    browser.open("details:has(#tag-matching)")
    browser.type("#tag-matching-tag", "retry")
    confirmed(
        browser, "#tag-matching button[value=put]", f"Puts the tag retry on {len(left)} devices."
    )
    assert job_ended(browser).startswith(f"Tag: retry: {len(left) - 1} of {len(left)} done.")
    assert "dev-00007: Refused: a limit of the server is reached (number 10)." in browser.text(
        "#work"
    )
    tagged = [
        it["controllerId"]
        for it in env.api("GET", "/rest/v1/targets?q=tag==retry&limit=500")["content"]
    ]
    assert tagged == [it for it in left if it != "dev-00007"]
    entered(browser, env, "#/targets")
    browser.open("details:has(#tag-pasted)")
    browser.type("#tag-list", "dev-00002, dev-00003;dev-00002 gone-1\ndev-00004")
    browser.type("#tag-pasted-tag", "retry")
    confirmed(browser, "#tag-pasted button[value=take]", "Takes the tag retry off 4 devices.")
    assert job_ended(browser).startswith("Untag: retry: 3 of 4 done.")
    assert (
        "gone-1: Refused: there is nothing of this number or name (any more) (number 3)."
        in browser.text("#work")
    )
    tagged = [it for it in tagged if it not in ("dev-00002", "dev-00003", "dev-00004")]
    assert [
        it["controllerId"]
        for it in env.api("GET", "/rest/v1/targets?q=tag==retry&limit=500")["content"]
    ] == tagged
    browser.type("#tag-list", "dev-00002 dev/3")
    browser.click("#tag-pasted button[value=put]")
    browser.until(
        "document.querySelector('details:has(#tag-pasted)').innerText.includes(\"Nothing was sent, "
        "since 1 word of the list can't be an id: dev/3\")"
    )
