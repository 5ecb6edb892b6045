"""The console with what goes wrong with its file, its clock and its life, and with what strangers write, end to end."""
import base64
import json
import os
import shutil
import sqlite3
import time

import pytest

from .environment import ROOT
from harness.processes import eventually

# what a test does to the console's process, by Python's own hook at a start: kill it at a write, or set its clock
HOOK = """
import os, signal, sys, time
sys.path.insert(0, os.environ["TEST_CONSOLE"])
if "TEST_DIE_AT" in os.environ:
    from fwdesk_console.store import Store
    at, is_kept = os.environ["TEST_DIE_AT"].split()
    write, count = Store.write, 0
    def dying(self, writes):
        global count
        count += 1
        if count < int(at):
            return write(self, writes)
        if is_kept == "kept":
            write(self, writes)
        os.kill(os.getpid(), signal.SIGKILL)
    Store.write = dying
if "TEST_CLOCK" in os.environ:
    real = time.time
    def told():
        try:
            return real() + float(open(os.environ["TEST_CLOCK"]).read() or 0)
        except OSError:
            return real()
    time.time = told
"""


@pytest.fixture(scope="module")
def hook(tmp_path_factory):
    folder = tmp_path_factory.mktemp("hook")
    (folder / "sitecustomize.py").write_text(HOOK)
    return {"PYTHONPATH": str(folder), "TEST_CONSOLE": str(ROOT / "console")}


def stop(env):
    env.kill(env.console)


def words(env, kind):
    return [it["words"] for it in env.api(f"/fwdesk/history?kind={kind}&limit=500")]


def put_aside(env):
    return sorted(it.name for it in env.folder.glob("console.db.aside-*") if "-wal" not in it.name)


@pytest.mark.parametrize("how", ["torn", "cut short", "no database", "of another version", "empty"])
def test_a_file_that_cannot_be_read_is_put_aside_and_told(env, how):
    rollout = env.plan(groups=1)
    known = lambda: env.ask(f"/fwdesk/state?rollout={rollout}")[0] == 200
    eventually("it is known", known, 20)
    stop(env)
    file = env.folder / "console.db"
    with sqlite3.connect(file) as db:
        db.execute("pragma wal_checkpoint(truncate)")
        if how == "of another version":
            db.execute("pragma user_version = 999")
    db.close()
    whole = file.read_bytes()
    spoiled = {
        "torn": whole[:4096] + b"\x5a" * (len(whole) - 4096),
        "cut short": whole[: len(whole) // 2 + 100],
        "no database": b"console = 'yes'\n" * 100,
        "empty": b"",
    }
    file.write_bytes(spoiled.get(how, whole))
    for it in ("-wal", "-shm"):
        (env.folder / f"console.db{it}").unlink(missing_ok=True)
    before = put_aside(env)
    env.console = env.start_console()
    eventually("it is known again", known, 20)
    new = [it for it in put_aside(env) if it not in before]
    if how == "empty":
        assert not new
        return
    assert len(new) == 1, (new, before)
    told = eventually("it is told", lambda: words(env, "console"), 20)
    assert new[0] in told[0] and "can't be used" in told[0], told
    posts = lambda: [it for _, _, it in env.sink.posts if new[0] in it["words"]]
    eventually("by a webhook too", posts, 20)


def test_a_file_that_is_lost_under_it_is_begun_anew_at_the_next_start(env):
    rollout = env.plan(groups=1)
    known = lambda: env.ask(f"/fwdesk/state?rollout={rollout}")[0] == 200
    eventually("it is known", known, 20)
    for it in env.folder.glob("console.db*"):
        it.unlink() if it.is_file() else shutil.rmtree(it)
    env.order(rollout, "pause")
    paused = lambda: env.state(rollout)["rollout"]["status"] == "paused"
    eventually("it goes on", paused, 20)
    stop(env)
    env.console = env.start_console()
    eventually("it goes on", lambda: known() and paused(), 20)


def test_a_clock_that_jumps_is_told_and_makes_nothing_stand_still_or_silent(env, hook):
    stop(env)
    clock = env.folder / "clock"
    clock.write_text("0")
    env.console = env.start_console(**hook, TEST_CLOCK=str(clock))
    rollout = env.plan("clocked", groups=1)
    env.poll("dev-00001")
    known = lambda: env.ask(f"/fwdesk/state?rollout={rollout}")[0] == 200
    eventually("it is known", known, 20)
    for jump in ("400000", "-400000"):
        clock.write_text(jump)
        env.plan(groups=1)
        sign = "+" if jump[0] != "-" else "-"
        said = f"the clock of this machine was set by {sign}"
        eventually("the jump is told", lambda: said in (words(env, "clock") or [""])[0], 30)
        shown = env.state(rollout)["rollout"]
        assert shown["status"] == "running" and not shown["stands"], shown
        assert not words(env, "stands")
        assert env.ask("/fwdesk/state")[0] == 200
    clock.write_text("0")
    env.order(rollout, "pause", "ben")
    paused = lambda: env.state(rollout)["rollout"]["acts"].get("paused")
    act = eventually("the pause is seen", paused, 30)
    assert act["who"] == "ben" and abs(act["at"] - time.time()) < 60
    stop(env)
    env.console = env.start_console()


@pytest.mark.parametrize("is_kept", ["kept", "unkept"])
def test_killed_at_each_of_its_writes_it_loses_and_doubles_nothing(env, hook, is_kept):
    stop(env)
    for write in range(1, 9):
        rollout = env.plan(f"{is_kept} {write}", groups=1)
        env.console = env.processes.start(
            "console",
            [
                "/usr/bin/python3",
                str(ROOT / "console/fwdesk-console"),
                f"{env.folder}/console.toml",
            ],
            env=os.environ | hook | {"TEST_DIE_AT": f"{write} {is_kept}"},
        )
        env.order(rollout, "pause", "ben")
        eventually("it dies at its write", lambda: env.console.poll() is not None, 40)
        assert env.console.returncode == -9
        env.processes.running.remove(env.console)
        env.console = env.start_console()
        paused = lambda: env.state(rollout)["rollout"]["status"] == "paused"
        known = lambda: env.ask(f"/fwdesk/state?rollout={rollout}")[0] == 200 and paused()
        eventually("it is known", known, 20)
        path = f"/fwdesk/history?rollout={rollout}&kind=paused"
        eventually("the pause is told", lambda: env.api(path), 20)
        mine = lambda: {it["id"] for _, _, it in list(env.sink.posts) if it["rollout"] == rollout}
        eventually("it is told", mine, 20)
        time.sleep(1)
        assert len(env.api(path)) == 1 and len(mine()) == 1, (write, mine(), env.api(path))
        stop(env)
    env.console = env.start_console()


HOSTILE = (
    "<img src=x onerror=alert(1)>",
    '=HYPERLINK("//evil.example")',
    "a\u202eb\u2066c",
    "<!channel> *bold* `code` [x](//evil.example)",
    "Bcc: all@evil.example",
)


def test_hostile_names_paths_and_logins_are_text_everywhere(env, open_browser):
    """Names of rollouts and words of devices, paths and logins of who was refused: in views, journal, mail, chat and webhooks."""
    for n, name in enumerate(HOSTILE):
        rollout = env.plan(name, groups=1, error=10)
        env.fail(rollout, 2, name[:100])
        login = base64.b64encode(f"{name}:wrong".encode()).decode()
        env.ask("/rest/v1/rollouts", who=None, fields={"Authorization": f"Basic {login}"})
    for path in (
        "/rest/v1/<script>alert(1)</script>",
        "/rest/v1/%3Cscript%3E%0a%1b%5b31mred",
        "/rest/v1/rollouts?x=%e2%80%ae%22%27",
        "/rest/v1/rollouts/../../../etc/passwd",
    ):
        env.ask(path.replace(" ", "%20"), "POST", "x")
    browser = open_browser(env, "#/now")
    browser.until(HOSTILE[0], "#needs")
    for place, said in (
        ("#/now", HOSTILE[0]),
        ("#/rollouts", HOSTILE[0]),
        ("#/history", HOSTILE[0]),
        ("#/history?of=audit", "script>"),
        ("#/history?of=audit&refused=1", "=HYPERLINK("),
        ("#/targets/dev-00001", HOSTILE[0]),
    ):
        browser.go(place)
        browser.until(said, "main")
        found = (
            "return document.querySelectorAll('main img, main script, main a[href*=evil]').length"
        )
        assert browser.js(found) == 0, place
        assert not any(it in browser.text() for it in ("\u202e", "\u2066", "\x1b")), place
    assert not browser.faults()
    # a file for a table calculator has no formula
    for path in ("/fwdesk/audit?format=csv&limit=500", "/fwdesk/history?format=csv&limit=500"):
        text = env.ask(path)[2].decode()
        cells = [it.strip('"') for line in text.splitlines() for it in line.split(",")]
        assert not [it for it in cells if it[:1] in ("=", "+", "@")], cells
    # a mail is text with one subject, and nobody else gets it
    mails = eventually("mails", lambda: (it := [m for m in env.box.mails if "Bcc" in m]) and it, 60)
    for mail in env.box.mails:
        head, _, _ = mail.partition("\n\n")
        names = [it.partition(":")[0].lower() for it in head.split("\n") if it[:1] not in " \t"]
        assert names.count("subject") == 1 and "bcc" not in names, head
        assert not any(it in mail for it in ("\u202e", "\x1b"))
    assert mails
    hooks = [body for _, _, body in env.sink.posts]
    assert not any("\u202e" in json.dumps(it, ensure_ascii=False) for it in hooks)
    chats = [body["text"] for _, _, body in env.chat.posts if "channel" in body["text"]]
    assert chats and all("<!channel>" not in it and "&lt;!channel&gt;" in it for it in chats)
    log = (env.folder / "console.log").read_text()
    levels = ("INFO ", "WARNING ", "ERROR ")
    assert not (other := [it for it in log.splitlines() if not it.startswith(levels)]), other[:9]
    assert "\u202e" not in log and "\x1b" not in log


def test_a_refused_parameter_is_400_and_no_header_has_a_version(env):
    for path in (
        "/fwdesk/state?rollout=x",
        "/fwdesk/audit?limit=-1",
        "/fwdesk/audit?who=%00",
        "/fwdesk/history?kind=Paused",
        "/fwdesk/history?before=99999999999",
        "/fwdesk/seen?silent=x",
        "/fwdesk/seen?device=a/b",
        "/fwdesk/versions?set=0",
        "/fwdesk/devices?sort=token",
        "/fwdesk/devices?q=",
        "/fwdesk/devices?q=name%3D%3Da%0A",
        "/fwdesk/coming?fleet=other",
    ):
        status, fields, body = env.ask(path)
        assert status == 400 and json.loads(body)["error"] == "bad_request", path
        said = json.dumps(fields).lower()
        assert "server" not in fields and not any(it in said for it in ("aiohttp", "python"))
    for path in ("/fwdesk/state", "/fwdesk/none", "/fwdesk/history?format=csv"):
        _, fields, _ = env.ask(path)
        said = json.dumps(fields).lower()
        assert "server" not in fields and not any(it in said for it in ("aiohttp", "python"))
