"""Cases of fwdesk-ctl: an image is shipped in one command, which is cut off anywhere and repeated."""
import json
import re
import signal

from harness.fwdesk_ctl import Relay, eventually

LARGEST = 4_194_304


def cut_off(env, at, *words):
    """fwdesk-ctl, killed before its so-many-th request that changes something; whether it came to that. (Between two of
    them the desk stays as it is, so wherever it is killed the desk is as it is here.)"""
    child, changes = None, 0

    def watched(piece):
        nonlocal changes
        changes += bool(re.search(rb"(POST|PUT|DELETE) \S+ HTTP/1.1\r\n", piece))
        if changes < at:
            return piece
        child.kill()
        child.wait()
        return b""

    relay = Relay(env.port)
    relay.watched = watched
    child = env.started(*words, FWDESK_URL=relay.url)
    child.communicate(timeout=120)
    relay.end()
    return child.returncode == -signal.SIGKILL


def image(env, text="firmware 2.1", name="pump-2.1.bin"):
    (env.folder / name).write_text(text)
    return name


def counts(env):
    """How many modules, files, sets and rollouts there are."""
    modules = [it["id"] for it in env.get("softwaremodules")["content"]]
    files = sum(env.get(f"softwaremodules/{it}/artifacts")["total"] for it in modules)
    sets, rollouts = env.get("distributionsets")["total"], env.get("rollouts")["total"]
    return len(modules), files, sets, rollouts


def sizes(env, rollout):
    return [it["size"] for it in env.get(f"rollouts/{rollout}/deploygroups")["content"]]


def ships(env):
    """ship: from a file to devices that have it; the steps and the number are told, and the same again changes nothing"""
    names = env.fleet(20)
    words = ("ship", image(env), "--name", "pump", "--version", "2.1", "--to", "tag==lab")
    dry = env.gives(*words, "--canary", "5,50", "--dry-run")
    # 5 of 100 of 20 is 1; 50 of 100 of the other 19 is 9.5, rounded up
    assert dry == "20 devices in groups of 1 (5 %), 10 (50 %), 9 (100 %)", dry
    assert counts(env) == (0, 0, 0, 0), "--dry-run makes nothing"
    child = env.started(*words, "--canary", "5,50", "--every", "0.2")
    assert child.stdout.readline() == "1\n"
    eventually("it runs", lambda: env.get("rollouts/1")["status"] == "running")
    assert sizes(env, 1) == [1, 10, 9]
    for it in names:
        env.report(it, "success")
    _, said = child.communicate(timeout=60)
    assert child.returncode == 0, said
    for it in range(1, 7):
        assert f"{it} of 6: " in said, said
    (module,) = env.get("softwaremodules")["content"]
    assert (module["name"], module["version"], module["type"]) == ("pump", "2.1", "os")
    (firmware,) = env.get("distributionsets")["content"]
    assert (firmware["name"], firmware["version"]) == ("pump", "2.1")
    groups = env.get("rollouts/1/deploygroups")["content"]
    assert {(it["success"], it["error"]) for it in groups} == {(90, 5)}
    assert env.gives(*words, "--canary", "5,50") == "1" and counts(env) == (1, 1, 1, 1)
    assert "rollout 1 has it already: finished" in env.gives(
        *words, "--canary", "5,50", "--dry-run"
    )
    # another filter is another rollout of the same set, under a name of its own
    other = ("ship", "pump-2.1.bin", "--name", "pump", "--version", "2.1", "--to", "name==Pump")
    assert env.gives(*other, "--no-wait") == "2" and counts(env) == (1, 1, 1, 2)
    assert env.get("rollouts/2")["name"] == "pump 2.1 (2)"
    assert env.gives(*other, "--no-wait", "--rollout", "once more", "--anyway") == "3"
    assert env.gives(*other, "--no-wait", "--rollout", "once more") == "3"


def ships_once(env):
    """ship, killed before each of its changes and repeated: one module, file, set and rollout, which is started once"""
    names = env.fleet(4)
    for at in range(1, 40):
        words = ("ship", image(env, f"{at}"), "--name", "pump", "--version", at, "--to", "name==*")
        words += ("--canary", "30", "--no-wait")
        was_killed = cut_off(env, at, *words)
        number = env.gives(*words)
        assert counts(env) == (at, at, at, at), at
        assert env.get(f"rollouts/{number}")["status"] == "running"
        assert sizes(env, number) == [2, 2] and len(env.states(number)) == len(names)
        for it in names:
            env.report(it, "success")
        if not was_killed:
            # module, file, set, rollout and start
            assert at == 6, at
            return
    raise AssertionError("it asks without end")


def ship_refuses(env):
    """ship: an image that is missing, too large or another one of the same version; no device, a filter that is none,
    other groups, a name that is taken, an older rollout that is open, a pause"""
    env.fleet(4)
    pump = ("--name", "pump", "--version", "2.1")
    lab = ("--to", "tag==lab")
    env.refuses(2, "No such file", "ship", "missing.bin", *pump, *lab)
    (env.folder / "huge.bin").write_bytes(b"x" * (LARGEST + 1))
    env.refuses(2, "firmware-add takes larger ones", "ship", "huge.bin", *pump, *lab)
    env.refuses(2, "invalid name of an artifact", "ship", image(env, name="a b"), *pump, *lab)
    env.refuses(2, "no percentage", "ship", image(env), *pump, *lab, "--canary", "1,x")
    env.refuses(2, "less than 100", "ship", image(env), *pump, *lab, "--canary", "1,100")
    env.refuses(2, "no name, version or type", "ship", image(env), "--name", "", *pump[2:], *lab)
    assert counts(env) == (0, 0, 0, 0)
    env.refuses(
        1, "no device matches name==nobody", "ship", image(env), *pump, "--to", "name==nobody"
    )
    env.refuses(1, "400 filter", "ship", image(env), *pump, "--to", "lab")
    assert counts(env) == (1, 1, 1, 0)
    older = env.rollout("older")
    status, out, said = env.ctl("ship", image(env), *pump, *lab, "--no-wait")
    assert (status, out) == (1, "2\n"), said
    assert f"4 of 4 are handed rollout {older}, older, first: cancel-open {older}" in said, said
    assert env.get("rollouts/2")["status"] == "ready", "it isn't started"
    env.gives("cancel-open", older, "--force", "--pause")
    assert env.gives("ship", image(env), *pump, *lab, "--no-wait") == "2"
    other = ("ship", image(env), *pump, *lab, "--canary", "50")
    env.refuses(1, "rollout 2 has this image to this filter already, in other groups: 1 (", *other)
    taken = ("--rollout", "older")
    env.refuses(1, "is called older, and has another", "ship", image(env), *pump, *lab, *taken)
    env.refuses(
        1,
        "give each image a version of its own",
        "ship",
        image(env, "firmware 2.1 again"),
        *pump,
        *lab,
    )
    env.report("dev-00001", "failure", "disk full")
    image(env)
    status, out, said = env.ctl("ship", "pump-2.1.bin", *pump, *lab, "--json")
    assert status == 3 and json.loads(out)["rollout"]["status"] == "paused", said
    env.refuses(
        6, "cannot reach", "ship", "pump-2.1.bin", *pump, *lab, FWDESK_URL="http://127.0.0.1:1"
    )


def ships_with_approval(env):
    """ship on a desk that asks for approval: it is started once it is approved, told after the time, 5 where denied"""
    env.fleet(2)
    first = ("ship", image(env), "--name", "pump", "--version", "1", "--to", "name==*")
    status, _, said = env.ctl(*first, "--timeout", "1", "--every", "0.2")
    assert status == 4 and "fwdesk-ctl approve 1" in said, said
    child = env.started(*first, "--every", "0.2", "--timeout", "60")
    assert child.stdout.readline() == "1\n"
    env.gives("approve", 1)
    eventually("it is started", lambda: env.get("rollouts/1")["status"] == "running")
    env.report("dev-00001", "success")
    env.report("dev-00002", "success")
    _, said = child.communicate(timeout=60)
    assert child.returncode == 0, said
    second = ("ship", image(env), "--name", "pump", "--version", "1", "--to", "tag==lab")
    env.ctl(*second, "--no-wait")
    env.gives("deny", 2)
    assert env.ctl(*second)[0] == 5


ships_with_approval.more = ("--approval",)

HEAD = "controllerid,name,token,tags\n"


def fleet_file(env, *rows, name="fleet.csv"):
    (env.folder / name).write_text(HEAD + "".join(f"{it}\n" for it in rows))
    return "--devices", name


def devices(env):
    """Each device's name and tags."""
    return {it["controllerId"]: (it["name"], it["tags"]) for it in env.get("targets")["content"]}


def ships_to_new_devices(env):
    """ship --devices: the new ones are imported first and get the image; those that are there keep name, tags and token"""
    env.fleet(1)
    env.ask("POST", "/rest/v1/targets/dev-00001/tags/retired")
    old = "dev-00001,Other,tok-other-1,lab"
    words = ("ship", image(env), "--name", "pump", "--version", "2.1")
    words += ("--to", "tag==lab;tag!=retired", "--no-wait", "--canary", "")
    file = fleet_file(
        env, old, 'new-1,"Pump, 1 ""a""",tok-new-1,lab north', "new-2,Pump,tok-new-2,"
    )
    dry = env.gives(*words, *file, "--dry-run").splitlines()
    assert "2 new, 1 there already, 1 of these with another name or other tags" in dry[0], dry
    assert dry[1:] == ["the new ones are in no number below", "no device matches"], dry
    assert set(devices(env)) == {"dev-00001"} and counts(env) == (0, 0, 0, 0)
    status, out, said = env.ctl(*words, *file)
    assert (status, out) == (0, "1\n"), said
    assert "1 of 7: devices of fleet.csv: 2 new, 1 there already" in said, said
    assert "6 of 7: rollout 1 is started" in said, said
    assert devices(env) == {
        "dev-00001": ("Pump", ["lab", "retired"]),
        "new-1": ('Pump, 1 "a"', ["lab", "north"]),
        "new-2": ("Pump", []),
    }
    assert [it["id"] for it in env.rows(1)] == ["new-1"]
    assert env.offered("new-1") == ("deploymentBase", 1)
    assert env.offered("dev-00001") is None, "its token is another one"
    # again, with another token in the file: that of the device stays
    file = fleet_file(
        env, old, 'new-1,"Pump, 1 ""a""",tok-new-9,lab north', "new-2,Pump,tok-new-2,"
    )
    status, out, said = env.ctl(*words, *file)
    assert (status, out) == (0, "1\n") and "0 new, 3 there already" in said, said
    assert env.offered("new-1") == ("deploymentBase", 1)
    assert counts(env) == (1, 1, 1, 1)


def ship_refuses_a_file(env):
    """ship --devices: a file that is missing, has faults or too many devices: each fault is told, and nothing is made"""
    env.fleet(1)
    before = devices(env)
    words = ("ship", image(env), "--name", "pump", "--version", "2.1", "--to", "tag==lab")
    file = fleet_file(env, "ok-1,Pump,tok-ok-001,lab", "a b,Pump,tok-dev-1,lab", "b,Pump,short,lab")
    for more in ((), ("--dry-run",)):
        status, out, said = env.ctl(*words, *file, *more)
        assert (status, out) == (1, ""), said
        assert "fleet.csv, line 3: 'a b' is no id" in said, said
        assert "fleet.csv, line 4: the token has 5 characters" in said, said
        assert "2 faults in 2 lines; nothing is changed" in said, said
    env.refuses(2, "No such file", *words, "--devices", "missing.csv")
    many = [f"more-{it},Pump,tok-more-{it:05},lab" for it in range(10_000)]
    env.refuses(1, "a desk takes 10,000", *words, *fleet_file(env, *many, name="many.csv"))
    assert devices(env) == before and counts(env) == (0, 0, 0, 0)


def ships_to_new_devices_once(env):
    """ship --devices, killed before each of its changes and repeated: each device is there once, with the file's token"""
    for at in range(1, 40):
        names = [f"dev-{at}-{it}" for it in range(3)]
        file = fleet_file(env, *(f"{it},Pump,tok-{it},at-{at}" for it in names))
        words = ("ship", image(env, f"{at}"), "--name", "pump", "--version", at)
        words += ("--to", f"tag==at-{at}", "--canary", "", "--no-wait", *file)
        was_killed = cut_off(env, at, *words)
        number = env.gives(*words)
        assert counts(env) == (at, at, at, at), at
        assert [it["id"] for it in env.rows(number)] == names and len(devices(env)) == 3 * at
        for it in names:
            env.report(it, "success")
        if not was_killed:
            # devices, module, file, set, rollout and start
            assert at == 7, at
            return
    raise AssertionError("it asks without end")


CASES = [
    ships,
    ships_once,
    ship_refuses,
    ships_with_approval,
    ships_to_new_devices,
    ship_refuses_a_file,
    ships_to_new_devices_once,
]
