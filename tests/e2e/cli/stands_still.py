"""Cases of fwdesk-ctl: a rollout that stands still, or is paused, says so, and why."""
import json
import time

LINK = "https://desk.example:8443"


def half_silent(env):
    """Twenty devices in two groups of ten; eight of the first succeed, and two never report."""
    names = env.fleet(20)
    number = env.rollout(groups=2, success=90, error=30)
    for it in names[:8]:
        env.report(it, "success")
    return names, number


def wait_tells_it(env):
    """wait: 7 where no device has reported a result for so long, with how many are open and needed, and what to do; a
    report begins it anew; 0 is never"""
    names, number = half_silent(env)
    wait = ("wait", number, "--every", "0.2")
    status, _, said = env.ctl(*wait, "--stands", 2)
    # of ten with a threshold of 90 nine are needed
    assert status == 7, said
    assert (
        "rollout 1, group 1: 2 of 10 have reported no result for 2 seconds; 9 are needed, 8 succeeded: "
        "fwdesk-ctl trigger 1 starts the next group, fwdesk-ctl cancel-open 1 gives up those that are open"
        in said
    ), said
    assert env.ctl(*wait, "--stands", 0, "--timeout", 3)[0] == 4
    began = time.monotonic()
    child = env.started(*wait, "--stands", 6, "--json")
    time.sleep(3)
    env.report(names[8], "success")
    reported = time.monotonic()
    out, said = child.communicate(timeout=120)
    ended = time.monotonic()
    assert child.returncode == 7 and ended - reported >= 6 and ended - began > 8, said
    assert json.loads(out)["rollout"]["status"] == "running"
    assert (
        "rollout 1, group 2: 10 of 10 have reported no result for 6 seconds; 9 are needed, 0 succeeded: fwdesk-ctl cancel"
        in said
    ), said
    for it in names[10:]:
        env.report(it, "success")
    status, _, said = env.ctl(*wait, "--stands", 1)
    assert (
        status == 7
        and "1 of 20 have reported no result for 1 second; it ends once they have" in said
    ), said
    env.report(names[9], "failure", "late")
    assert env.ctl(*wait, "--stands", 1)[0] == 0


def lists_those(env):
    """standing: each stretch is told once, by a command; what that fails to tell is told again; a report ends it"""
    names, number = half_silent(env)
    words = ("standing", "--seen", "seen.json", "--hours", "0.0005", "--link", LINK)
    assert env.gives(*words) == "", "it is seen for the first time"
    time.sleep(2.5)
    told = env.gives(*words)
    assert "group 1: 2 of 10 have reported no result for " in told and "9 are needed" in told, told
    assert told.endswith(f"\n{LINK}/page/#/rollouts/{number}")
    assert [it["id"] for it in json.loads(env.gives(*words, "--json"))] == [number]
    assert env.gives("standing", "--seen", "seen.json") == "", "24 hours aren't over"
    env.refuses(1, "ends with status 3", *words, "--tell", "cat > told; exit 3")
    assert "2 of 10" in (env.folder / "told").read_text()
    (env.folder / "told").unlink()
    env.gives(*words, "--tell", "cat > told")
    assert "2 of 10" in (env.folder / "told").read_text(), "what wasn't told isn't told again"
    (env.folder / "told").unlink()
    env.gives(*words, "--tell", "cat > told")
    assert not (env.folder / "told").exists(), "it is told twice"
    env.report(names[8], "success")
    assert env.gives(*words) == ""
    time.sleep(2.5)
    env.gives(*words, "--tell", "cat > told")
    assert "group 2: 10 of 10" in (env.folder / "told").read_text(), "a new stretch isn't told"
    env.gives("pause", number)
    assert env.gives(*words) == ""
    (env.folder / "seen.json").write_text("no JSON")
    env.refuses(2, "take it away", *words)


def explains_a_pause(env):
    """rollouts --why: the group that failed, the words counted, a link; or that an operator paused it"""
    names = env.fleet(10)
    number = env.rollout('pump "2.1"', success=90, error=30)
    env.report(names[0], "failure", "disk full")
    env.report(names[1], "failure", "no power")
    env.report(names[2], "failure", "disk full")
    paused = env.rollout("by hand", text=f"controllerid=={names[9]}")
    env.gives("pause", paused)
    words = ("rollouts", "--status", "paused", "--why", "--link", f"{LINK}/", "--new", "told")
    env.gives(*words, "--tell", "cat > mail")
    assert (env.folder / "mail").read_text() == (
        f'rollout {number}, pump "2.1", is paused: group 1: 3 of 10 failed, and it pauses at 3 (30 %)\n'
        "      2 disk full\n"
        "      1 no power\n"
        f"the devices: fwdesk-ctl failed {number}; take it back: fwdesk-ctl cancel-open {number}\n"
        f"{LINK}/page/#/rollouts/{number}\n"
        f"rollout {paused}, by hand, is paused: by an operator: no group is over its error threshold\n"
        f"the devices: fwdesk-ctl failed {paused}; take it back: fwdesk-ctl cancel-open {paused}\n"
        f"{LINK}/page/#/rollouts/{paused}\n"
    )
    (env.folder / "mail").unlink()
    env.gives(*words, "--tell", "cat > mail")
    assert not (env.folder / "mail").exists(), "a pause is told once"
    assert "http" not in env.gives("rollouts", "--status", "paused", "--why")


CASES = [wait_tells_it, lists_those, explains_a_pause]
