"""Cases of fwdesk-ctl: a device gets a new token or is retired; a rollout is rolled back."""
import json

from harness.fwdesk_ctl import Relay
from .shipping import cut_off

BASE = "/DEFAULT/controller/v1"


def polls(env, name, token):
    """The status that a device gets with a token."""
    return env.call("GET", f"{BASE}/{name}", token=token)[0]


def with_attributes(env, name):
    body = {"data": {"os": "linux", "site": "kiel"}, "mode": "merge"}
    assert env.call("PUT", f"{BASE}/{name}/configData", body, f"tok-{name}")[0] == 200
    env.ask("POST", f"/rest/v1/targets/{name}/tags/yard")


def gives_a_token(env):
    """token: the old one is refused and the new one taken; name, tags, attributes and the open action stay"""
    first, second = env.fleet(2)
    with_attributes(env, first)
    env.rollout()
    before = env.get(f"targets/{first}")
    assert before["attributes"] == {"os": "linux", "site": "kiel"}
    assert before["tags"] == ["lab", "yard"]
    token = env.gives("token", first)
    assert polls(env, first, f"tok-{first}") == 401 and polls(env, first, token) == 200
    assert env.get(f"targets/{first}") == before and env.states(1) == ["running", "running"]
    assert polls(env, second, f"tok-{second}") == 200, "another device's token is as it was"
    status, out, said = env.ctl("token", first, "--out", "new.csv")
    assert (status, out) == (0, "") and "new.csv" in said
    file = env.folder / "new.csv"
    head, line = file.read_text().splitlines()
    assert file.stat().st_mode & 0o777 == 0o600 and head == "controllerid,name,token,tags"
    name, title, other, tags = line.split(",")
    assert (name, title, tags) == (first, "Pump", "lab yard") and other != token
    assert polls(env, first, token) == 401 and polls(env, first, other) == 200
    assert env.gives("import", "new.csv") == "1" and env.get(f"targets/{first}") == before


def token_refuses(env):
    """token: an id that is none or isn't there, a file that is there, an answer that is lost: each told"""
    (name,) = env.fleet(1)
    env.refuses(2, "is no id", "token", "a b")
    env.refuses(1, "the desk has no device nobody", "token", "nobody")
    (env.folder / "there").write_text("mine")
    env.refuses(2, "File exists", "token", name, "--out", "there")
    assert (env.folder / "there").read_text() == "mine" and polls(env, name, f"tok-{name}") == 200
    relay = Relay(env.port, 2, lambda piece: b"")
    env.refuses(6, "the same again gives another", "token", name, FWDESK_URL=relay.url)
    assert polls(env, name, env.gives("token", name)) == 200


def retires(env):
    """retire: tagged, known by no token, nothing open; of a group that hasn't started it is told, and done later"""
    first, second = env.fleet(2)
    with_attributes(env, first)
    running = env.rollout("running", text=f"controllerid=={first}")
    asked = env.rollout("canceling", text=f"controllerid=={first}")
    env.ask("DELETE", f"/rest/v1/targets/{first}/actions/2")
    waits = env.rollout("scheduled", groups=2)
    later = env.rollout("later", text="name==*", groups=2)
    # of two groups of one the second one, dev-00002, waits
    status, _, said = env.ctl("retire", second)
    assert status == 1 and f"of rollout {waits}, group 2" in said, said
    assert f"of rollout {later}, group 2" in said, said
    assert env.gives("retire", first) == ""
    found = env.get(f"targets/{first}")
    assert found["tags"] == ["lab", "retired", "yard"] and found["name"] == "Pump"
    assert found["attributes"] == {"os": "linux", "site": "kiel"}
    assert polls(env, first, f"tok-{first}") == 401
    assert env.states(running) == env.states(asked) == ["canceled"]
    assert env.get("targets?q=tag!=retired")["total"] == 0
    for it in (waits, later):
        env.gives("trigger", it)
        assert env.states(it) == ["canceled", "running"]
    assert env.gives("retire", second, first) == ""
    assert env.states(waits) == env.states(later) == ["canceled", "canceled"]
    env.gives("untag", "retired", "--filter", f"controllerid=={first}")
    assert polls(env, first, env.gives("token", first)) == 200, "it is back"


def retire_refuses(env):
    """retire: an id that isn't there stops it before anything is changed; a 17th tag is told"""
    (name,) = env.fleet(1)
    before = env.get(f"targets/{name}")
    env.refuses(1, "the desk has no device nobody", "retire", name, "nobody")
    env.refuses(2, "is no id", "retire", "a b", name)
    assert env.get(f"targets/{name}") == before and polls(env, name, f"tok-{name}") == 200
    for it in range(15):
        env.ask("POST", f"/rest/v1/targets/{name}/tags/t{it}")
    env.refuses(1, "has 16 tags", "retire", name)
    assert polls(env, name, f"tok-{name}") == 200


def retires_after_a_cut(env):
    """retire, killed before each of its changes and repeated: retired, and nothing is open"""
    for at in range(1, 20):
        (name,) = env.fleet(1, f"cut-{at}")
        rollout = env.rollout(f"cut {at}", text=f"controllerid=={name}")
        was_killed = cut_off(env, at, "retire", name)
        env.gives("retire", name)
        assert env.states(rollout) == ["canceled"] and polls(env, name, f"tok-{name}") == 401
        assert env.get(f"targets/{name}")["tags"] == ["lab", "retired"]
        if not was_killed:
            # the token, the cancel and its force
            assert at == 4, at
            return
    raise AssertionError("it asks without end")


def closes(env, name, finished="success"):
    env.report(name, finished)


def history(env):
    """Seven devices, of which each has been through other rollouts before rollout 3."""
    names = env.fleet(7, "dev-{}")
    env.rollout(
        "one",
        text="controllerid==dev-1,controllerid==dev-2,controllerid==dev-3,controllerid==dev-4",
    )
    for it in names[:4]:
        closes(env, it)
    env.rollout("two", text="controllerid==dev-3,controllerid==dev-5,controllerid==dev-6")
    closes(env, "dev-3")
    closes(env, "dev-5")
    closes(env, "dev-6", "failure")
    env.rollout("three")
    for it in ("dev-1", "dev-3", "dev-4", "dev-5", "dev-6"):
        closes(env, it)
    closes(env, "dev-2", "failure")
    env.rollout("four", text="controllerid==dev-4")
    closes(env, "dev-4")
    return names


def members(env, rollout):
    return sorted(it["id"] for it in env.rows(rollout))


def rolls_back(env):
    """rollback: each device that succeeded gets the set that it had before; told first; never planned twice; those with
    a newer one, with none before, or that failed are left out"""
    history(env)
    lines = env.gives("rollback", 3).splitlines()
    # dev-1 had set 1, dev-3 and dev-5 set 2; dev-6 failed set 2 and had none; dev-4 has set 4 since; dev-7 is open
    assert lines == [
        "1 device to set 1, os one",
        "2 devices to set 2, os two",
        "1 with a newer rollout since: left out",
        "1 without a set before: left out (--to SET gives them one)",
        "1 open yet: fwdesk-ctl cancel-open 3",
    ], lines
    assert env.get("rollouts")["total"] == 4, "nothing is changed"
    told = json.loads(env.gives("rollback", 3, "--json"))
    assert told == {
        "to": {"1": ["dev-1"], "2": ["dev-3", "dev-5"]},
        "newer": ["dev-4"],
        "without": ["dev-6"],
    }
    env.refuses(1, "is running", "rollback", 3, "--start")
    env.gives("cancel-open", 3, "--force", "--pause")
    assert env.gives("rollback", 3, "--start").split() == ["5", "6"]
    assert members(env, 5) == ["dev-1"] and members(env, 6) == ["dev-3", "dev-5"]
    assert [env.get(f"rollouts/{it}")["distributionSetId"] for it in (5, 6)] == [1, 2]
    assert {env.get(f"rollouts/{it}")["status"] for it in (5, 6)} == {"running"}
    assert env.get("targets?q=tag==rollback*")["total"] == 0, "the tag is gone again"
    assert env.gives("rollback", 3, "--start").split() == ["5", "6"]
    for it in ("dev-1", "dev-3", "dev-5"):
        closes(env, it)
    assert env.gives("rollback", 3, "--start").split() == ["5", "6"]
    assert env.get("rollouts")["total"] == 6
    env.refuses(2, "is the one that rollout 3 has", "rollback", 3, "--to", 3)
    env.refuses(1, "404 not_found", "rollback", 3, "--to", 9)
    env.refuses(1, "404 not_found", "rollback", 9)


def rolls_back_to_a_set(env):
    """rollback --to: one set for all that succeeded, in canaries; nobody to roll back is told"""
    history(env)
    env.gives("cancel-open", 3, "--force", "--pause")
    told = env.gives("rollback", 3, "--to", 1, "--canary", "30").splitlines()
    # four of the seven succeeded and have nothing newer: 30 of 100 of 4 is 1.2, rounded up
    assert told[0] == "4 devices to set 1, os one, in groups of 2 2", told
    (number,) = env.gives("rollback", 3, "--to", 1, "--canary", "30", "--start").split()
    assert members(env, number) == ["dev-1", "dev-3", "dev-5", "dev-6"]
    env.rollout("nobody", text="controllerid==dev-7")
    env.gives("pause", 6)
    assert "there is nobody to roll back" in env.gives("rollback", 6)
    env.refuses(1, "there is nobody to roll back", "rollback", 6, "--start")


def rolls_back_after_a_cut(env):
    """rollback, killed before each of its changes and repeated: one rollout with its devices, and no tag is left"""
    names = env.fleet(2)
    env.rollout("before")
    for it in names:
        closes(env, it)
    for at in range(1, 40):
        number = env.rollout(f"bad {at}")
        for it in names:
            closes(env, it)
        was_killed = cut_off(env, at, "rollback", number, "--to", 1, "--start")
        (made,) = env.gives("rollback", number, "--to", 1, "--start").split()
        assert members(env, made) == names and env.get(f"rollouts/{made}")["status"] == "running"
        assert env.get("rollouts")["total"] == 1 + 2 * at
        assert env.get("targets?q=tag==rollback*")["total"] == 0
        for it in names:
            closes(env, it)
        if not was_killed:
            # two tags, the rollout, its start, and the tags off again
            assert at == 7, at
            return
    raise AssertionError("it asks without end")


CASES = [gives_a_token, token_refuses, retires, retire_refuses, retires_after_a_cut]
CASES += [rolls_back, rolls_back_to_a_set, rolls_back_after_a_cut]
