"""Cases of fwdesk-ctl: what is open is canceled, who failed is told, and many are tagged."""
import json
import re
import signal
import time
from collections import Counter

from harness.fwdesk_ctl import Relay


def mends(env):
    """a mending rollout: start tells what is open, cancel-open takes it back, each device gets the good one"""
    names = env.fleet(10)
    bad = env.rollout("bad", error=20)
    for it in names[:2]:
        env.report(it, "failure", "no boot")
    assert env.get(f"rollouts/{bad}")["status"] == "paused"
    good = env.rollout("good", started=False)
    env.refuses(1, "8 of 10 are handed rollout 1, bad, first", "start", good, "--unless-open")
    assert env.get(f"rollouts/{good}")["status"] == "ready"
    env.gives("cancel-open", bad, "--force")
    assert Counter(env.states(bad)) == {"error": 2, "canceled": 8}
    status, _, said = env.ctl("start", good, "--unless-open")
    assert (status, said) == (0, ""), said
    first = int(env.rows(good)[0]["action"])
    assert [env.offered(it) for it in names] == [("deploymentBase", first + k) for k in range(10)]


def starts_over_open_ones(env):
    """without --unless-open start warns, and starts"""
    env.fleet(2)
    env.rollout("bad")
    good = env.rollout("good", started=False)
    status, _, said = env.ctl("start", good)
    assert status == 0 and "2 of 2 are handed rollout 1" in said
    assert env.get(f"rollouts/{good}")["status"] == "running"


def cancels(env):
    """cancel-open of a group asks its devices, by force it ends them; scheduled actions and outcomes stay"""
    names = env.fleet(9)
    number = env.rollout(groups=3)
    env.gives("trigger", number)
    env.report(names[0], "success")
    status, _, said = env.ctl("cancel-open", number, "--group", 1)
    assert status == 0 and "--pause" in said, said
    assert env.states(number) == [
        "finished",
        *["canceling"] * 2,
        *["running"] * 3,
        *["scheduled"] * 3,
    ]
    assert env.offered(names[1])[0] == "cancelAction"
    env.report(names[1], "none", execution="rejected")
    assert env.states(number)[1] == "running", "the device went on"
    env.gives("cancel-open", number, "--pause")
    assert env.get(f"rollouts/{number}")["status"] == "paused"
    assert env.states(number) == ["finished", *["canceling"] * 5, *["scheduled"] * 3]
    env.gives("cancel-open", number, "--force")
    assert env.states(number) == ["finished", *["canceled"] * 5, *["scheduled"] * 3]
    env.refuses(1, "404 not_found", "cancel-open", number, "--group", 4)
    env.refuses(1, "404 not_found", "cancel-open", 9)


def cancels_on(env):
    """cancel-open of 200: killed in the middle, interrupted, cut off from the desk; begun again it takes the rest"""
    env.fleet(200)
    number = env.rollout()
    child = relay = None

    def kill(_):
        child.kill()
        child.wait()
        return b""

    def interrupt(_):
        child.send_signal(signal.SIGINT)
        time.sleep(0.5)
        return b""

    def cut(_):
        relay.end()
        return b""

    # two requests come before the first of 50 cancels: the rollout and its table
    for then, status, left in ((kill, -signal.SIGKILL, 150), (interrupt, 130, 100), (cut, 6, 50)):
        relay = Relay(env.port, 53, then)
        child = env.started("cancel-open", number, FWDESK_URL=relay.url)
        said = child.communicate(timeout=120)[1]
        assert child.returncode == status, f"{child.returncode}, not {status}: {said}"
        assert Counter(env.states(number)) == {"canceling": 200 - left, "running": left}
        if then is not kill:
            assert (
                f"canceled: 50 of {left + 50}" in said
                and "the same order again goes on with the rest" in said
            ), said
    status, _, said = env.ctl("cancel-open", number, "--force")
    assert status == 0 and Counter(env.states(number)) == {"canceled": 200}, said
    assert "canceled: 200 of 200" in said, said


def tells_failures(env):
    """failed: by groups, the last words of each, and these counted: 170 of 340 each"""
    names = env.fleet(343)
    number = env.rollout(groups=2, error=100)
    env.gives("trigger", number)
    for k, it in enumerate(names[:340]):
        if k < 10:
            env.report(it, "none", "downloading", execution="proceeding")
        env.report(it, "failure", *(["disk full"] if k % 2 else ["bad signature", "of key 7"]))
    env.report(names[340], "failure")
    env.report(names[341], "success")
    told = json.loads(env.gives("failed", number, "--json"))
    assert [(it["group"], it["size"], len(it["failed"])) for it in told] == [
        (1, 171, 171),
        (2, 172, 170),
    ]
    counts = sum((Counter(it["counts"]) for it in told), Counter())
    assert counts == {"disk full": 170, "bad signature / of key 7": 170, "(no words)": 1}, counts
    assert told[0]["failed"][0] == {"controllerId": names[0], "words": "bad signature / of key 7"}
    text = env.gives("failed", number, "--group", 2).splitlines()
    # the second group has the positions 172 to 343: 85 of the even ones, 84 of the odd ones, and the one without words
    assert text[0] == "group 2: 170 of 172 failed" and len(text) == 1 + 3 + 170, text[:5]
    assert text[1:4] == [
        "     85 disk full",
        "     84 bad signature / of key 7",
        "      1 (no words)",
    ], text[:4]
    assert env.gives("failed", number, "--ids").split() == names[:341]
    env.refuses(1, "404 not_found", "failed", 9)


def tags_many(env):
    """tag of 340, cut off and begun again, and a rollout over them; untag; what is refused is told, the others go on"""
    names = env.fleet(345)
    listed = "".join(f"{it}\n" for it in names[:340])
    relay = Relay(env.port, 101, lambda _: relay.end() or b"")
    status, _, said = env.ctl("tag", "retry-1", "--ids", "-", given=listed, FWDESK_URL=relay.url)
    assert status == 6 and "tagged: 100 of 340" in said, said
    assert env.get("targets?q=tag==retry-1&limit=1")["total"] == 100
    status, _, said = env.ctl("tag", "retry-1", "--ids", "-", given=listed)
    assert status == 0 and "tagged: 340 of 340" in said, said
    plan = (
        "plan",
        "again",
        "--set",
        env.firmware(),
        "--groups",
        1,
        "--success",
        90,
        "--error",
        10,
        "--json",
    )
    assert json.loads(env.gives(*plan, "--filter", "tag==retry-1"))["totalTargets"] == 340
    (env.folder / "ids.csv").write_text(
        f"{names[343]},Pump\r\nnobody\r\n\r\n{names[344]},Pump\r\n{names[344]}\r\n"
    )
    status, _, said = env.ctl("tag", "few", "--ids", "ids.csv")
    assert status == 1 and "nobody: 404 not_found" in said and "1 of 3 are refused" in said, said
    assert env.gives("targets", "--filter", "tag==few", "--ids").split() == names[343:]
    env.gives("untag", "retry-1", "--filter", "tag==retry-1")
    assert env.get("targets?q=tag==retry-1&limit=1")["total"] == 0
    for k in range(15):
        env.ask("POST", f"/rest/v1/targets/{names[0]}/tags/t{k}")
    status, _, said = env.ctl("tag", "one-more", "--ids", "-", given=f"{names[0]}\n{names[1]}\n")
    assert status == 1 and f"{names[0]}: 403 quota: a limit of the server is reached" in said, said
    assert env.gives("targets", "--filter", "tag==one-more", "--ids") == names[1]
    status, _, said = env.ctl("tag", "x", "--ids", "-", given=f"{names[2]}\na b\n")
    assert status == 2 and "line 2" in said and env.get("targets?q=tag==x")["total"] == 0, said
    env.refuses(2, "is no tag", "tag", "a/b", "--ids", "-")
    env.refuses(1, "400 filter", "tag", "x", "--filter", "name=x")


def lists(env):
    """targets: by filter, counted by state; rollouts: by state, each told once, and again where telling failed"""
    names = env.fleet(5)
    number = env.rollout(text=f"controllerid!={names[4]}", error=50)
    env.report(names[0], "success")
    env.report(names[1], "failure")
    counted = ["unknown", "1", "pending", "2", "in_sync", "1", "error", "1", "total", "5"]
    assert env.gives("targets", "--count").split() == counted
    told = json.loads(env.gives("targets", "--json", "--filter", "controllerid==*3"))
    assert [it["controllerId"] for it in told] == [names[2]]
    assert re.fullmatch(rf"{names[4]}  unknown +lab  Pump", env.gives("targets").splitlines()[4])
    once, letters = (
        "rollouts",
        "--status",
        "paused",
        "--new",
        "told",
        "--tell",
    ), env.folder / "letters"
    assert env.gives(*once, "cat >> letters") == "" and not letters.exists()
    env.report(names[2], "failure")
    env.refuses(1, "false ends with status 1", *once, "false")
    for _ in range(2):
        env.gives(*once, "cat >> letters")
        assert letters.read_text().split() == [str(number), "paused", "4", "spring"]
    env.gives("resume", number)
    env.gives(*once, "cat >> letters")
    env.gives("pause", number)
    env.gives(*once, "cat >> letters")
    assert len(letters.read_text().splitlines()) == 2, "a second pause isn't told"


CASES = [mends, starts_over_open_ones, cancels, cancels_on, tells_failures, tags_many, lists]
