"""One device, and a rollout that is taken back: a new token, retired, rolled back. Not run by itself."""
from .bad_day import BAD, GOOD, polled, stocked, works
from .steps import case, confirmed, entered

DEVICE = "/DEFAULT/controller/v1/dev-00001"


def answered(env, token):
    """The status that a poll with a token is answered with."""
    return env.ask("GET", DEVICE, fields={"Authorization": f"TargetToken {token}"})[0]


@case()
def a_new_token(browser, env):
    """It is shown once, and the old one is refused; name, tags, attributes and the open action stay."""
    stocked(env, 2)
    env.plan("first", groups=1, set=GOOD)
    old = {"Authorization": "TargetToken tok-dev-00001"}
    env.ask("PUT", f"{DEVICE}/configData", {"data": {"os": "linux"}}, old)
    before = env.api("GET", "/rest/v1/targets/dev-00001")
    assert before["attributes"] == {"os": "linux"} and before["tags"] == ["lab"]
    entered(browser, env, "#/targets/dev-00001")
    confirmed(browser, "#newToken", "The old token is refused from then on.", wanted=False)
    assert answered(env, "tok-dev-00001") == 200
    confirmed(browser, "#newToken", "The new one is shown once")
    browser.until("document.querySelector('#notice .ok')")
    token = browser.text("#token")
    assert len(token) == 32 and token not in browser.text("#notice")
    assert (answered(env, token), answered(env, "tok-dev-00001")) == (200, 401)
    assert env.api("GET", "/rest/v1/targets/dev-00001") == before
    assert env.api("GET", "/rest/v1/targets/dev-00001/actions/1")["status"] == "running"
    entered(browser, env, "#/targets/dev-00001")
    browser.find("#newToken")
    assert token not in browser.text("body"), "the token is shown again"


@case()
def a_device_is_retired_and_brought_back(browser, env):
    """It is tagged, nobody has its token, and what it has in progress is canceled; what waits in a group that hasn't
    started is told. Brought back it has a token again."""
    stocked(env, 4)
    env.plan("first", groups=1, set=BAD)
    env.plan("second", groups=2, set=GOOD)
    entered(browser, env, "#/targets/dev-00001")
    confirmed(browser, "#retire", "It gets a token that nobody has", "tag!=retired")
    browser.until(
        "document.querySelector('#notice .ok')?.innerText.includes('dev-00001 is retired')"
    )
    found = env.api("GET", "/rest/v1/targets/dev-00001")
    assert found["tags"] == ["lab", "retired"] and found["name"] == "Pump 1"
    actions = lambda it: env.api("GET", f"/rest/v1/targets/{it}/actions")["content"]
    assert [it["status"] for it in actions("dev-00001")] == ["canceled", "canceled"]
    assert answered(env, "tok-dev-00001") == 401
    # the second group of the second rollout waits
    entered(browser, env, "#/targets/dev-00004")
    confirmed(browser, "#retire")
    browser.until("document.querySelector('#notice .bad')?.innerText.includes('1 action waits')")
    assert sorted(it["status"] for it in actions("dev-00004")) == ["canceled", "scheduled"]
    entered(browser, env, "#/targets/dev-00001")
    browser.click("#bringBack")
    browser.until("document.getElementById('dialog').open")
    browser.click("#dialog-yes")
    token = browser.until("document.getElementById('token')?.innerText")
    browser.until("document.querySelector('#notice .ok')")
    assert answered(env, token) == 200
    assert env.api("GET", "/rest/v1/targets/dev-00001")["tags"] == ["lab"]


@case()
def a_rollout_is_rolled_back(browser, env):
    """The devices that succeeded go back to the set that each had before; one that had none, and one that failed, aren't
    touched. Pressed again it makes nothing twice."""
    stocked(env, 4)
    env.plan("good", groups=1, success=100, error=100, set=GOOD)
    for action in (1, 2, 3):
        env.report(action, "success")
    env.api("DELETE", "/rest/v1/targets/dev-00004/actions/4")
    env.api("DELETE", "/rest/v1/targets/dev-00004/actions/4?force=true")
    env.plan("bad", groups=1, success=100, error=100, set=BAD)
    for device, outcome in ((1, "success"), (2, "success"), (3, "failure"), (4, "success")):
        path = f"/DEFAULT/controller/v1/dev-{device:05}"
        _, action = polled(env, f"dev-{device:05}")
        body = {"status": {"execution": "closed", "result": {"finished": outcome}}}
        token = {"Authorization": f"TargetToken tok-dev-{device:05}"}
        assert env.ask("POST", f"{path}/deploymentBase/{action}/feedback", body, token)[0] == 200
    assert env.api("GET", "/rest/v1/rollouts/2")["status"] == "finished"
    entered(browser, env, "#/rollouts/2")
    words = (
        "2 devices go back to os 2-good, which they had before.",
        "1 is left out: it had no set before.",
    )
    confirmed(browser, "#rollback", *words, wanted=False)
    assert env.api("GET", "/rest/v1/rollouts")["total"] == 2
    confirmed(browser, "#rollback", *words)
    browser.until("location.hash === '#/rollouts/3'")
    made = env.api("GET", "/rest/v1/rollouts/3")
    assert (made["name"], made["distributionSetId"], made["totalTargets"], made["status"]) == (
        "rollback 2 to set 2",
        GOOD,
        2,
        "running",
    )
    assert [works(env, f"dev-{k:05}") for k in range(1, 5)] == [["2-good"], ["2-good"], [], []]
    assert env.api("GET", "/rest/v1/targets?q=tag==rollback-2-2")["total"] == 0
    entered(browser, env, "#/rollouts/2")
    confirmed(browser, "#rollback", *words)
    browser.until("location.hash === '#/rollouts/3'")
    assert env.api("GET", "/rest/v1/rollouts")["total"] == 3
