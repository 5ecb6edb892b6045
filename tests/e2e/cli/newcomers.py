"""Cases of fwdesk-ctl: devices that join are given what a rule names."""
import signal
from collections import Counter

from harness.fwdesk_ctl import Relay


def rules(env, *lines):
    (env.folder / "rules").write_text("".join(f"{it}\n" for it in ("# who joins", "", *lines)))
    return env.folder / "rules"


def given(env, firmware):
    """How often each device is a member of a rollout of a set."""
    numbers = [
        it["id"]
        for it in env.get("rollouts?limit=500")["content"]
        if it["distributionSetId"] == firmware
    ]
    groups = [
        (number, it["id"])
        for number in numbers
        for it in env.get(f"rollouts/{number}/deploygroups")["content"]
    ]
    return Counter(
        it["controllerId"]
        for number, group in groups
        for it in env.get(f"rollouts/{number}/deploygroups/{group}/targets?limit=500")["content"]
    )


def tagged(env):
    return env.get("targets?q=tag==new-*&limit=1")["total"]


def follows(env):
    """follow: who joins gets a rollout of its own, whoever is in one of the set gets none; a newer set goes to all"""
    names = env.fleet(5)
    first = env.firmware("1")
    by_hand = env.ask(
        "POST",
        "/rest/v1/rollouts",
        {
            "name": "by hand",
            "distributionSetId": first,
            "targetFilterQuery": f"controllerid=={names[0]}",
            "amountGroups": 1,
            "successCondition": {"condition": "THRESHOLD", "expression": "50"},
            "errorCondition": {"condition": "THRESHOLD", "expression": "50"},
        },
    )
    rule = "--filter name==Pump --success 50 --error 100 --group 50 --group 100"
    assert (
        env.gives("follow", rules(env, f"pumps --set {first} {rule}"), "--dry-run")
        == "pumps: 4 new"
    )
    assert env.gives("follow", env.folder / "rules") == "pumps: 4 devices by rollout 2"
    assert (
        env.get("rollouts/2")["name"] == f"pumps-{first}-1"
        and env.get("rollouts/2")["status"] == "running"
    )
    assert [it["size"] for it in env.get("rollouts/2/deploygroups")["content"]] == [2, 2]
    assert env.gives("follow", env.folder / "rules") == "pumps: 0 new"
    (joined,) = env.fleet(1, "late-{}")
    assert (
        env.gives("follow", env.folder / "rules") == "pumps: 1 devices by rollout 3"
    ), "one device fills one group"
    assert given(env, first) == Counter([*names, joined]) and tagged(env) == 0
    second = env.firmware("2")
    assert (
        env.gives("follow", rules(env, f"pumps --set {second} {rule}"))
        == "pumps: 6 devices by rollout 4"
    )
    assert given(env, second) == Counter([*names, joined]) and by_hand["id"] == 1
    env.ask("POST", "/rest/v1/rollouts/4/pause")
    env.fleet(1, "later-{}")
    env.refuses(
        1, "rollout 4 is paused, so nothing more is planned", "follow", env.folder / "rules"
    )
    env.refuses(
        2,
        "each rule has a name of its own",
        "follow",
        rules(env, f"a --set 1 {rule}", f"a --set 2 {rule}"),
    )


def follows_in_spite_of_kills(env):
    """follow, killed before each of its requests and run again: each device is in one rollout of the set,
    and no tag is left"""
    names = env.fleet(3)
    child = None

    def kill(_):
        child.kill()
        child.wait()
        return b""

    for at in range(1, 60):
        firmware = env.firmware(str(at))
        file = rules(
            env, f"pumps --set {firmware} --filter name==Pump --success 50 --error 100 --groups 2"
        )
        relay = Relay(env.port, at, kill)
        child = env.started("follow", file, FWDESK_URL=relay.url)
        child.communicate(timeout=120)
        relay.end()
        for _ in "again", "and again":
            env.gives("follow", file)
        assert given(env, firmware) == Counter(
            names
        ), f"killed before request {at}: {given(env, firmware)}"
        assert tagged(env) == 0, f"killed before request {at}"
        if child.returncode != -signal.SIGKILL:
            assert at > 12, f"it ended with {child.returncode} after {at} requests"
            return
    raise AssertionError("it asks without end")


CASES = (follows, follows_in_spite_of_kills)
