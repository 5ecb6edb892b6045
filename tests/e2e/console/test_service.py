"""The console before the real program and a real HAProxy: what happens when it is killed, hangs, loses its file, and when the
desk is dead. Devices and operators go on meanwhile."""
import base64
import contextlib
import json
import os
import signal
import socket
import subprocess
import threading
import time


from harness import http_client
from harness.processes import eventually, wait_for

from .pages import Pages


class Polling:
    """Devices that poll all the time, and what became of it."""

    def __init__(self, env, devices):
        self.env, self.devices, self.over = env, devices, False
        self.count, self.failed, self.slowest = 0, [], 0.0
        self.thread = threading.Thread(target=self.run)

    def run(self):
        while not self.over:
            began = time.monotonic()
            status = self.env.poll(f"dev-{self.count % self.devices + 1:05}")[0]
            self.count += 1
            self.slowest = max(self.slowest, time.monotonic() - began)
            if status != 200:
                self.failed.append(status)
            time.sleep(0.02)

    def __enter__(self):
        self.thread.start()
        return self

    def __exit__(self, *_):
        self.over = True
        self.thread.join()


def test_killed_it_takes_nothing_with_it_and_answers_again(env):
    rollout = env.plan(groups=1)
    eventually("it is known", lambda: env.ask(f"/fwdesk/state?rollout={rollout}")[0] == 200, 5)
    with Polling(env, 10) as polling:
        env.kill(env.console)
        began = time.monotonic()
        status, fields, body = env.ask("/fwdesk/state")
        assert time.monotonic() - began < 1 and status == 503
        assert json.loads(body) == {"error": "console", "words": "the console is away"}
        assert fields["content-security-policy"] == "default-src 'none'; sandbox"
        env.order(rollout, "pause")
        assert env.ask("/fwdesk/brake", "POST")[0] == 200
        assert env.ask("/fwdesk/brake", "DELETE")[0] == 200
        began = time.monotonic()
        env.console = env.start_console()
        print(f"answers {time.monotonic() - began:.2f} s after its start")
        eventually(
            "it sees the pause", lambda: env.state(rollout)["rollout"]["status"] == "paused", 5
        )
    assert polling.count > 5 and not polling.failed, polling.failed
    print(f"{polling.count} polls, 0 failed, at most {polling.slowest:.2f} s")
    act = env.state(rollout)["rollout"]["acts"]["paused"]
    assert act["by"] == "unknown" and act["from"] < act["at"]


def test_hung_it_is_told_within_seconds_and_nobody_waits_for_it(env):
    with Polling(env, 10) as polling:
        os.killpg(env.console.pid, signal.SIGSTOP)
        began = time.monotonic()
        status, _, body = env.ask("/fwdesk/state")
        took = time.monotonic() - began
        assert status == 504 and took < 5, (status, took)
        assert json.loads(body)["words"] == "the console does not answer"
        # more orders than a datagram socket holds: HAProxy drops its lines, and nobody waits
        for n in range(30):
            began = time.monotonic()
            env.api(
                "/rest/v1/softwaremodules",
                "POST",
                [{"name": f"m{n}", "type": "os", "version": "1"}],
            )
            assert time.monotonic() - began < 5
        os.killpg(env.console.pid, signal.SIGCONT)
        eventually("it answers", lambda: env.ask("/fwdesk/state")[0] == 200, 10)
    assert polling.count > 5 and not polling.failed, polling.failed


def test_its_file_lost_it_knows_versions_again_within_seconds(env):
    rollout = env.plan(groups=1)
    for it in env.table(rollout)[:4]:
        env.report(it["controllerid"], int(it["action"]), "success", "done")
    devices = [it["controllerid"] for it in env.table(rollout)[:4]]
    has = lambda: [env.api(f"/fwdesk/versions?device={it}")["has"] for it in devices]
    eventually("four have it", lambda: all(it and it["rollout"] == rollout for it in has()), 10)
    assert all(it["at"] > time.time() - 60 for it in has())
    env.kill(env.console)
    for it in env.folder.glob("console.db*"):
        it.unlink()
    began = time.monotonic()
    env.console = env.start_console()
    eventually("four have it again", lambda: all(has()), 10)
    print(f"versions are back {time.monotonic() - began:.2f} s after the start without a file")


def test_killed_again_and_again_it_tells_each_pause_once(env):
    rollouts = [env.plan(f"r{n}", groups=1, error=100) for n in range(6)]
    time.sleep(2)
    for n, rollout in enumerate(rollouts):
        env.order(rollout, "pause")
        time.sleep(0.13 * n)
        env.kill(env.console)
        env.console = env.start_console()
    history = lambda: env.api("/fwdesk/history?kind=paused&limit=100")
    seen = lambda: sorted(it["rollout"] for it in history() if it["rollout"] in rollouts)
    eventually("each pause is seen", lambda: set(seen()) == set(rollouts), 15)
    assert seen() == rollouts
    posts = lambda: [body for _, _, body in env.sink.posts if body["kind"] == "paused"]
    told = lambda: {it["id"] for it in posts() if it["rollout"] in rollouts}
    eventually("each is told", lambda: len(told()) == len(rollouts), 15)
    assert not list(env.folder.glob("console.db.aside*"))


def test_the_desk_dead_is_told_and_state_and_history_go_on(env):
    rollout = env.plan(groups=1)
    eventually("it is known", lambda: env.ask(f"/fwdesk/state?rollout={rollout}")[0] == 200, 5)
    before = len(env.sink.posts)
    env.kill(env.desk)
    died = time.time()
    posts = lambda: [body for _, _, body in env.sink.posts[before:]]
    kinds = lambda: [it["words"] for it in posts() if it["kind"] == "desk"]
    eventually("it is told", kinds, 40)
    print(f"the desk's death is told after {time.time() - died:.1f} s")
    assert kinds()[0].startswith("the desk doesn't answer")
    state = env.state(rollout)
    assert state["away"] and state["rollout"]["id"] == rollout
    assert env.ask("/fwdesk/audit")[0] == 200
    env.desk = env.start_desk()
    began = time.time()
    eventually("its return is told", lambda: len(kinds()) == 2, 40)
    print(f"its return is told after {time.time() - began:.1f} s")
    assert "answers again" in kinds()[1]


def test_a_full_disk_is_told_and_all_goes_on(env):
    rollout = env.plan(groups=1)
    eventually("it is known", lambda: env.ask(f"/fwdesk/state?rollout={rollout}")[0] == 200, 5)
    before = len(env.sink.posts)
    # no file of it may grow: each write beyond is refused by the kernel
    os.system(f"prlimit --pid {env.console.pid} --fsize=1000:")
    env.order(rollout, "pause", "ben")
    kinds = lambda: [body["kind"] for _, _, body in env.sink.posts[before:]]
    eventually("the pause is told all the same", lambda: "paused" in kinds(), 10)
    eventually("the disk is told", lambda: "console" in kinds(), 15)
    state = env.state(rollout)
    assert state["kept"] and state["rollout"]["acts"]["paused"]["who"] == "ben"
    assert env.console.poll() is None
    os.system(f"prlimit --pid {env.console.pid} --fsize=unlimited:")
    eventually("it is kept again", lambda: not env.state()["kept"], 40)


def test_its_way_to_the_desk_refuses_orders_and_paths_of_devices(env):
    for method in ("POST", "PUT", "DELETE", "HEAD", "OPTIONS"):
        assert env.look("/rest/v1/rollouts", method)[0] == 405
    for path in (
        "/DEFAULT/controller/v1/dev-00001",
        "/rest/v1/softwaremodules/1/artifacts/1/download",
        "/rest/v1/targets/dev-00001/../../x",
        "/desk/v1/import",
        "/",
        "//rest/v1/rollouts",
        "/rest/v1/rollouts%2f1",
        "/rest/v1/rollouts/1/start",
        "/fwdesk/me",
    ):
        assert env.look(path)[0] == 403, path
    assert env.look("/rest/v1/rollouts")[0] == 200


def test_the_table_of_last_polls_is_read_and_nothing_else_is_taken_there(env):
    env.poll("dev-00001")
    told = env.command("show table seen")
    assert told.startswith("# table: seen") and "key=dev-00001" in told
    for line in (
        "show table seen;clear table seen",
        "show table seen\nclear table seen",
        "clear table seen",
        "show table seen ",
        f"add map {env.folder}/own/operators.map eve hold",
        "add acl #0 /",
        "show map",
        "show sess",
        "show errors",
        "show env",
        "prompt",
        "@1 show info",
        "disable frontend fwdesk",
    ):
        assert env.command(line) == "", line
    for pieces in (("show table ", "seen\n"), ("show table seen\n", "clear table seen\n")):
        with socket.socket(socket.AF_UNIX) as it:
            it.connect(f"{env.run}/haproxy/fwdesk-table.sock")
            for piece in pieces:
                it.sendall(piece.encode())
                time.sleep(0.2)
            it.settimeout(5)
            with contextlib.suppress(ConnectionResetError):
                while it.recv(65536):
                    pass
    assert "key=dev-00001" in env.command("show table seen")
    assert env.api("/fwdesk/seen?device=dev-00001")["at"] > time.time() - 30


def test_nobody_without_a_login_is_answered_and_no_order_is_taken(env):
    for path in (
        "/fwdesk/state",
        "/fwdesk/audit",
        "/fwdesk/history",
        "/fwdesk/seen",
        "/fwdesk/versions",
    ):
        assert env.ask(path, who=None)[0] == 401
        for method in ("POST", "PUT", "DELETE"):
            assert env.ask(path, method)[0] == 405
        status, fields, _ = env.ask(path)
        assert status == 200 and "server" not in fields
    assert env.ask("/fwdesk/audit?limit=x")[0] == 400


def test_the_audit_says_who_when_and_what_and_a_login_of_two_lines_is_one(env):
    name = 'x"\naudit 200 192.0.2.9 "anna'
    login = base64.b64encode(f"{name}:wrong".encode()).decode()
    status = env.ask("/rest/v1/targets", who=None, fields={"Authorization": f"Basic {login}"})[0]
    assert status == 401
    rows = lambda: [it for it in env.api("/fwdesk/audit?refused=1") if "192.0.2.9" in it["who"]]
    found = eventually("it is heard", rows, 5)
    assert [(it["status"], it["who"]) for it in found] == [(401, 'x"?audit 200 192.0.2.9 "anna')]
    env.plan("audited", start=False)
    done = env.api("/fwdesk/audit?who=anna&refused=0")
    assert (done[0]["method"], done[0]["path"]) == ("POST", "/rest/v1/rollouts")
    assert done[0]["status"] == 201 and done[0]["at"] > time.time() - 60


def test_a_reload_of_haproxy_fails_no_poll_beside_twenty_pages(env, open_browser):
    """A browser and nineteen that ask as it does: none keeps HAProxy's old process."""
    browser = open_browser(env, "#/now")
    browser.until("Devices", "main")
    gone = lambda: len(env.edge.workers(env.edge.edge)) == 1
    with Pages(env, 19) as pages, Polling(env, 10) as polling:
        for _ in range(2):
            time.sleep(3)
            env.edge.reload()
            began = time.monotonic()
            eventually("the old process is gone", gone, 30)
            print(f"the old process is gone after {time.monotonic() - began:.2f} s")
            assert time.monotonic() - began < 10
        time.sleep(5)
    assert not polling.failed and set(pages.statuses) == {200, 304}, polling.failed
    print(
        f"two reloads: {polling.count} polls, 0 failed, at most {polling.slowest:.2f} s; {len(pages.statuses)} pages"
    )
    assert polling.slowest < 10
    assert browser.text("#watching") == "" and not browser.faults()


def test_metrics_are_those_of_the_desk_and_promtool_reads_them(env):
    rollout = env.plan('a "quoted" \\ name', groups=3)
    env.plan("ready", groups=1, start=False)
    size = env.api(f"/rest/v1/rollouts/{rollout}/deploygroups")["content"][0]["size"]
    needed = -(-size * 90 // 100)
    ask = lambda fields=None: http_client.ask(
        "GET", "/metrics", fields=fields, port=env.metrics_port
    )
    text = lambda: ask().text
    name = 'name="a \\"quoted\\" \\\\ name"'
    wanted = [
        "fwdesk_up 1",
        f'fwdesk_rollout{{rollout="{rollout}",{name},status="running"}} 1',
        f'fwdesk_group_targets{{rollout="{rollout}",group="1",outcome="size"}} {size}',
        f'fwdesk_group_targets{{rollout="{rollout}",group="1",outcome="open"}} {size}',
        f'fwdesk_group_needed{{rollout="{rollout}",group="1"}} {needed}',
        'fwdesk_limit{of="targets"} 10000',
        'fwdesk_limit{of="module_artifacts"} 8',
        "fwdesk_targets 20",
        'fwdesk_used{of="targets"} 20',
        'fwdesk_used{of="sets"} 2',
        'fwdesk_held{kind="brake"} 0',
    ]
    missing = lambda: [it for it in wanted if it not in text().splitlines()]
    assert wait_for(lambda: not missing(), 90, 1), (missing(), text())
    assert f'needed{{rollout="{rollout}",group="2"' not in text()
    status = subprocess.run(
        ["promtool", "check", "metrics"], input=text(), text=True, capture_output=True
    )
    assert status.returncode == 0, status.stderr
    # what isn't this machine's own name is refused: a page elsewhere may ask a port of 127.0.0.1
    assert ask({"Host": "evil.example"}).status >= 400
