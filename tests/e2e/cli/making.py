"""Cases of fwdesk-ctl: firmware goes in, and a rollout is planned, steered and waited for."""
import hashlib
import json
import time

from harness.fwdesk_ctl import Relay, eventually

LARGEST = 4_194_304


def makes_firmware(env):
    """module, upload and set tell numbers; what is there is reused, or done again, and never another thing"""
    (env.folder / "abc.bin").write_bytes(b"abc")
    assert env.gives("module", "app", "1.0", "--type", "bApp") == "1"
    assert json.loads(env.gives("module", "app", "2.0", "--json"))["id"] == 2
    env.refuses(1, "409 exists: the name is taken", "module", "app", "2.0")
    assert env.gives("module", "app", "2.0", "--reuse") == "2"
    env.refuses(1, "no file is in module 1 yet", "set", "r", "1", "--module", 1)
    assert env.get("distributionsets")["total"] == 0
    assert env.gives("upload", "abc.bin", "--module", 1) == "1"
    assert (
        env.get("softwaremodules/1/artifacts/1")["hashes"]["sha256"]
        == hashlib.sha256(b"abc").hexdigest()
    )
    assert env.gives("upload", "abc.bin", "--module", 1) == "1", "the same again is done"
    (env.folder / "abc.bin").write_bytes(b"abd")
    env.refuses(1, "409 exists", "upload", "abc.bin", "--module", 1)
    assert env.gives("set", "r", "1", "--module", 1) == "1"
    assert env.gives("set", "r", "1", "--module", 1, "--reuse") == "1"
    env.refuses(1, "of other modules", "set", "r", "1", "--module", 2, "--reuse", "--allow-empty")
    env.refuses(1, "409 locked", "upload", "abc.bin", "--module", 1, "--name", "new.bin")
    env.refuses(1, "404 not_found", "upload", "abc.bin", "--module", 9)
    env.refuses(2, "No such file", "upload", "missing.bin", "--module", 2)
    env.refuses(
        2, "invalid name of an artifact", "upload", "abc.bin", "--module", 2, "--name", "a b"
    )
    assert env.get("softwaremodules/2/artifacts")["total"] == 0


def rejects_a_corrupt_upload(env):
    """a byte that is changed on the way: 1, and nothing is kept; a file over the limit: 2, and not a byte is sent"""
    env.gives("module", "app", "1")
    (env.folder / "large.bin").write_bytes(b"x" * 300_000)
    relay = Relay(env.port)
    relay.watched = lambda piece: piece.replace(b"xxx", b"xyx", 1)
    mutated = (
        "400 digest: the file that arrived has another SHA-256",
        "upload",
        "large.bin",
        "--module",
        1,
    )
    env.refuses(1, *mutated, FWDESK_URL=relay.url)
    assert env.get("softwaremodules/1/artifacts")["total"] == 0
    (env.folder / "huge.bin").write_bytes(b"x" * (LARGEST + 1))
    relay = Relay(env.port)
    env.refuses(2, "4,194,304", "upload", "huge.bin", "--module", 1, FWDESK_URL=relay.url)
    assert relay.up == 0


def plans(env):
    """groups in even parts and by percentages, with thresholds of their own; what would be planned; refusals"""
    env.fleet(10)
    number = env.firmware()
    plan = ("plan", "--set", number, "--success", 100, "--error", 100)
    cut = ("--group", "10", "--group", "50,success=40,error=34", "--group", "100")
    assert env.gives(*plan, "a", "--filter", "name==*", *cut, "--dry-run") == "1 5 4"
    assert env.get("rollouts")["total"] == 0
    assert env.gives(*plan, "a", "--filter", "name==*", *cut) == "1"
    assert groups(env, 1) == [(1, 100, 100), (5, 40, 34), (4, 100, 100)]
    even = ("--filter", "name==*", "--groups", 3)
    assert env.gives(*plan, "b", *even, "--dry-run") == "3 3 4"
    assert json.loads(env.gives(*plan, "b", *even, "--json"))["totalGroups"] == 3
    assert groups(env, 2) == [(3, 100, 100), (3, 100, 100), (4, 100, 100)]
    assert env.gives(*plan, "b", *even, "--reuse") == "2"
    env.refuses(
        1, "another set or filter", *plan, "b", "--filter", "name==P*", "--groups", 3, "--reuse"
    )
    env.refuses(1, "409 exists", *plan, "b", *even)
    env.refuses(1, "400 filter", *plan, "c", "--filter", "name=*", "--groups", 3)
    env.refuses(1, "400 too_few_targets", *plan, "c", "--filter", "name==nobody", "--groups", 3)
    for wrong, words in (("10", "100 percent"), ("0", "percentage"), ("100,sucess=5", "sucess")):
        env.refuses(2, words, *plan, "c", "--filter", "name==*", "--group", wrong)
    assert env.get("rollouts")["total"] == 2


def groups(env, rollout):
    """The sizes and thresholds of a rollout's groups."""
    found = env.get(f"rollouts/{rollout}/deploygroups")["content"]
    return [(it["size"], it["success"], it["error"]) for it in found]


def copies(env):
    """copy: the groups and thresholds of another rollout, even ones and percentages; another set and filter"""
    env.fleet(200)
    number, other = env.firmware("1"), env.firmware("2")
    plan = ("plan", "--set", number, "--filter", "name==*", "--success", 90, "--error", 10)
    env.gives(*plan, "canary", "--group", "1,error=1", "--group", "10,success=80", "--group", "100")
    env.gives(*plan, "even", "--groups", 3)
    made = json.loads(env.gives("copy", 1, "c", "--json"))
    assert (made["distributionSetId"], made["targetFilterQuery"]) == (number, "name==*")
    assert groups(env, made["id"]) == [(2, 90, 1), (20, 80, 10), (178, 90, 10)]
    made = json.loads(env.gives("copy", 2, "d", "--set", other, "--json"))
    assert made["distributionSetId"] == other
    assert groups(env, made["id"]) == [(66, 90, 10), (67, 90, 10), (67, 90, 10)]
    made = json.loads(env.gives("copy", 1, "e", "--filter", "controllerid==dev-000*", "--json"))
    assert made["totalTargets"] == 99 and groups(env, made["id"]) == [
        (1, 90, 1),
        (10, 80, 10),
        (88, 90, 10),
    ]
    env.refuses(1, "409 exists", "copy", 1, "canary")
    env.refuses(1, "404 not_found", "copy", 9, "f")


def steers(env):
    """start, pause, resume and trigger; in another state: 1, in the desk's words"""
    env.fleet(4)
    number = env.rollout(groups=2, started=False)
    for verb, state in (
        ("start", "running"),
        ("pause", "paused"),
        ("resume", "running"),
        ("trigger", "running"),
    ):
        assert json.loads(env.gives(verb, number, "--json"))["status"] == state
    assert env.states(number) == ["running"] * 4, "the second group wasn't started"
    for verb in ("start", "resume", "trigger", "approve"):
        env.refuses(1, "409 wrong_state", verb, number)
    env.refuses(1, "404 not_found", "pause", 9)


def approves(env):
    """approve, deny and wait on a desk that asks for approval: 5 where it is denied"""
    env.fleet(2)
    first, second = env.rollout("a", started=False), env.rollout("b", started=False)
    env.gives("approve", first)
    child = env.started("wait", second, "--every", "0.2")
    env.gives("deny", second)
    assert child.wait(60) == 5
    assert [env.get(f"rollouts/{it}")["status"] for it in (first, second)] == [
        "ready",
        "approval_denied",
    ]
    assert env.ctl("wait", first, "--timeout", "0.5", "--every", "0.2")[0] == 4


approves.more = ("--approval",)


def waits(env):
    """wait: 0 as it finishes, 3 at once where it is or gets paused, 4 after the time, 1 where there is none"""
    names = env.fleet(4)
    number = env.rollout(groups=2, success=100, error=50)
    assert env.ctl("wait", number, "--timeout", "0.5", "--every", "0.1")[0] == 4
    child = env.started("wait", number, "--every", "0.2", "--json")
    env.report(names[0], "failure", "disk full")
    out, said = child.communicate(timeout=60)
    told = json.loads(out)
    assert (
        child.returncode == 3
        and told["rollout"]["status"] == "paused"
        and told["groups"][0]["bad"] == 1
    ), said
    assert "rollout 1 paused, group 1 error: 0 ok, 1 bad of 2" in said, said
    began = time.monotonic()
    assert (
        env.ctl("wait", number, "--every", "60")[0] == 3 and time.monotonic() - began < 60
    ), "it isn't told at once"
    env.gives("resume", number)
    env.gives("trigger", number)
    child = env.started("wait", number, "--every", "0.2")
    for it in names[1:]:
        env.report(it, "success")
    assert child.wait(60) == 0
    env.refuses(1, "404 not_found", "wait", 9)


def waits_for_a_desk_that_is_away(env):
    """wait goes on over a program that is killed and started again, and gives up after its patience: 6"""
    (name,) = env.fleet(1)
    number = env.rollout()
    child = env.started("wait", number, "--every", "0.2")
    eventually("it looks", lambda: "running" in child.stderr.readline())
    env.processes.end(env.server)
    time.sleep(1)
    env.serve()
    env.report(name, "success")
    assert child.wait(60) == 0
    env.processes.end(env.server)
    assert env.started("wait", number, "--every", "0.2", "--patience", "1").wait(60) == 6
    env.refuses(6, "cannot reach", "rollouts")


CASES = [makes_firmware, rejects_a_corrupt_upload, plans, copies, steers, approves, waits]
CASES += [waits_for_a_desk_that_is_away]
