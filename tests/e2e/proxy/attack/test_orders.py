"""An order is done once, or its sender is told 502: a desk that dies between commit and reply, and clients that send again
by themselves where a kept connection ends without a word."""

import re
import shutil
import socket
import struct
import subprocess
import threading
import time
from collections import Counter
from pathlib import Path
from typing import Iterator

import pytest
from harness.processes import HOST, eventually, free_port, listens
from harness.stand_in import StandIn, send_reply
from .stage import PASSWORD, Before, Stage, login, token

pytestmark = [pytest.mark.e2e]
WAYS = ("close", "reset", "in the head")
METHODS = ("GET", "POST", "PUT", "DELETE")

# a page's order over a connection that it keeps
SCRIPT = """const [at, done] = arguments;
    (async () => { const said = [];
      for (const [method, path] of [['GET', at], ['GET', at], ['POST', at + '/triggerNextGroup']]) {
        said.push(await fetch(path, {method, cache: 'no-store'}).then((it) => it.status, (it) => String(it))); }
      done(said); })();"""


class Mortal(StandIn):
    """A desk that ends its connection in place of a reply to what names a mark that ends in 9. It counts each mark that
    comes."""

    stage: Stage

    def __init__(self, port: int) -> None:
        self.seen: Counter[str] = Counter()
        self.way = WAYS[0]
        super().__init__(port)

    def answer(self, link: socket.socket, request: bytes) -> bool:
        found = re.search(rb"mark-(\d+)", request)
        mark = found[1].decode() if found else ""
        self.seen[mark] += 1
        if mark.endswith("9"):
            self.die(link)
            return False
        send_reply(link)
        return True

    def die(self, link: socket.socket) -> None:
        if self.way == "reset":
            link.setsockopt(socket.SOL_SOCKET, socket.SO_LINGER, struct.pack("ii", 1, 0))
        if self.way == "in the head":
            link.sendall(b"HTTP/1.1 200 OK\r\nContent-Le")
        link.close()


@pytest.fixture(scope="class")
def mortal(stage: Stage, tmp_path_factory: pytest.TempPathFactory) -> Iterator[Mortal]:
    """Such a form with a mortal desk in the program's place."""
    bare = stage.bare(tmp_path_factory.mktemp("bare"))
    made = Mortal(bare.behind)
    made.stage = bare
    yield made
    made.end()
    bare.end()


def asked_as_browsers(
    opened, requests: list[tuple[str, str, bytes | None]], fields: str
) -> list[int]:
    """What a browser is told: it keeps a connection that isn't ended by the reply before, and sends again, once, what was
    sent over a kept one that ended without a word."""
    told, link = [], None
    for method, path, body in requests:
        kept = link is not None
        link = link or opened()
        status, said, _ = link.ask(method, path, fields, body)
        if status == 0 and kept:
            link = opened()
            status, said, _ = link.ask(method, path, fields, body)
        told.append(status)
        if status == 0 or said.get("connection", "").lower() == "close":
            link.close()
            link = None
    return told


class TestLostReply:
    """A desk that dies in place of a reply."""

    @pytest.mark.gate
    @pytest.mark.parametrize("way", WAYS)
    @pytest.mark.parametrize("method", METHODS)
    @pytest.mark.parametrize("near", [False, True], ids=["login", "near"])
    def test_order_comes_once_or_is_told(
        self, mortal: Mortal, way: str, method: str, near: bool
    ) -> None:
        """The third request of a browser is the one whose reply is lost: it comes to the desk once, and 502 is told."""
        quiet = mortal.stage
        if near and isinstance(quiet, Before) and "frontend local" not in quiet.text.read_text():
            pytest.skip("that configuration has no way in of the machine")
        mortal.way = way
        base = quiet.near_base if near else quiet.base
        opened = (lambda: quiet.open_near(45)) if near else (lambda: quiet.open(timeout=45))
        marks = [str(time.monotonic_ns() // 1000 * 10 + it) for it in (1, 2, 9)]
        body = b"{}" if method in ("POST", "PUT") else None
        requests = [("GET", f"{base}/rest/v1/mark-{it}", None) for it in marks[:2]]
        told = asked_as_browsers(
            opened,
            [*requests, (method, f"{base}/rest/v1/mark-{marks[2]}", body)],
            "" if near else login("zoe"),
        )
        assert told == [200, 200, 502]
        time.sleep(0.1)
        assert [mortal.seen[it] for it in marks] == [1, 1, 1]

    @pytest.mark.gate
    def test_refused_login_ends_the_connection(self, mortal: Mortal) -> None:
        """A browser without a login is refused first: the order with the login comes over another connection."""
        quiet, mark = mortal.stage, str(time.monotonic_ns() // 1000 * 10 + 9)
        with quiet.open() as link:
            status, said, _ = link.ask("POST", f"{quiet.base}/rest/v1/mark-{mark}", "", b"{}")
            assert status == 401 and said.get("connection", "").lower() == "close"
            assert mortal.seen[mark] == 0

    @pytest.mark.gate
    @pytest.mark.parametrize(
        "field", ["Sec-Fetch-Site: cross-site", "Origin: https://evil.example"]
    )
    def test_browser_keeps_no_connection(self, mortal: Mortal, field: str) -> None:
        """A browser that asks for a device's path, as another site has it do, keeps no connection for its next order."""
        quiet = mortal.stage
        path = f"{quiet.base}/DEFAULT/controller/v1/dev-01"
        with quiet.open() as link:
            assert link.ask("GET", path, token(1))[1].get("connection", "").lower() != "close"
            status, said, _ = link.ask("GET", path, f"{token(1)}{field}\r\n")
            assert status == 200 and said.get("connection", "").lower() == "close"


class Doomed:
    """The program behind a line that is cut after an order was answered by it, and before that is told: the program is
    killed there, and comes back after two seconds, as by its unit."""

    def __init__(self, stage: Stage) -> None:
        self.stage, self.armed, self.came = stage, False, 0
        stage.stop()
        self.outer, stage.behind = stage.behind, free_port()
        stage.serve()
        self.listener: socket.socket | None = None
        self.link: socket.socket | None = None
        threading.Thread(target=self.listen, daemon=True).start()
        eventually("the line", lambda: listens(self.outer))

    def listen(self) -> None:
        self.listener = socket.create_server((HOST, self.outer))
        try:
            while True:
                link = self.link = self.listener.accept()[0]
                with link, socket.create_connection((HOST, self.stage.behind)) as inner:
                    if not self.carry(link, inner):
                        break
        except OSError:
            return
        self.listen()

    def carry(self, link: socket.socket, inner: socket.socket) -> bool:
        """Passes requests on, one after the other; whether the line goes on after that."""
        while asked := link.recv(1 << 20):
            head = asked.partition(b"\r\n\r\n")[0]
            length = re.search(rb"content-length: (\d+)", head, re.I)
            while len(asked) < len(head) + 4 + int(length[1] if length else 0):
                asked += link.recv(1 << 20)
            inner.sendall(asked)
            told = inner.recv(1 << 20)
            if not told:
                return True
            if b"triggerNextGroup" in asked:
                self.came += 1
                if self.armed:
                    self.armed = False
                    self.listener.close()
                    self.stage.stop()
                    link.close()
                    time.sleep(2)
                    self.stage.serve()
                    return False
            link.sendall(told)
        return True

    def end(self) -> None:
        """The program is where it was. HAProxy sees that the connection which it kept has ended, and opens another one."""
        for it in (self.listener, self.link):
            try:
                it.shutdown(socket.SHUT_RDWR)
            except OSError:
                pass
            it.close()
        self.stage.stop()
        self.stage.behind = self.outer
        self.stage.serve()


@pytest.fixture(scope="class")
def doomed(stage: Stage) -> Iterator[Doomed]:
    """The program with such a line before it."""
    made = Doomed(stage)
    yield made
    made.end()


def started(stage: Stage, name: str) -> int:
    """A rollout of five groups, of which one runs."""
    number = stage.plan(name, 5)
    stage.order("POST", f"/rest/v1/rollouts/{number}/start", "")
    return number


def running(stage: Stage, rollout: int) -> int:
    """How many groups of a rollout run."""
    told = stage.look(f"/rest/v1/rollouts/{rollout}/deploygroups")
    return [it["status"] for it in told["content"]].count("running")


class TestNextGroup:
    """The one order that the desk itself doesn't refuse the second time."""

    @pytest.mark.gate
    def test_next_group_of_curl(self, quiet: Stage, doomed: Doomed) -> None:
        """One press by curl, over a connection that it would keep: one group more runs, and 502 is told."""
        rollout = started(quiet, f"curl {time.monotonic_ns()}")
        doomed.armed, doomed.came = True, 0
        at = f"https://{HOST}:{quiet.port}{quiet.base}/rest/v1/rollouts/{rollout}"
        own = ["-sk", "-m", "90", "-u", f"zoe:{PASSWORD}"]
        words = ["curl", *own, "-o", "/dev/null", at, "--next", *own, "-o", "/dev/null"]
        words += ["-w", "%{http_code}", "-d", "", f"{at}/triggerNextGroup"]
        told = subprocess.run(words, capture_output=True, text=True).stdout
        eventually("the program", lambda: not doomed.armed and listens(doomed.outer))
        assert (running(quiet, rollout), doomed.came, told) == (2, 1, "502")

    @pytest.mark.forms("single", "fleets", "port")
    @pytest.mark.skipif(not shutil.which("chromedriver"), reason="there is no chromedriver")
    def test_next_group_of_a_browser(self, quiet: Stage, doomed: Doomed, tmp_path: Path) -> None:
        """One press in Chromium, over a connection that it would keep: one group more runs, and 502 is told."""
        webdriver = pytest.importorskip("selenium.webdriver")
        options = webdriver.ChromeOptions()
        for it in (
            "--headless=new",
            "--no-sandbox",
            "--ignore-certificate-errors",
            f"--user-data-dir={tmp_path}",
        ):
            options.add_argument(it)
        service = webdriver.chrome.service.Service(shutil.which("chromedriver"))
        rollout = started(quiet, f"browser {time.monotonic_ns()}")
        browser = webdriver.Chrome(options=options, service=service)
        try:
            browser.set_script_timeout(90)
            browser.get(f"https://zoe:{PASSWORD}@{HOST}:{quiet.port}{quiet.base}/page/icon.svg")
            doomed.armed, doomed.came = True, 0
            told = browser.execute_async_script(
                SCRIPT, f"https://{HOST}:{quiet.port}{quiet.base}/rest/v1/rollouts/{rollout}"
            )
        finally:
            browser.quit()
        eventually("the program", lambda: not doomed.armed and listens(doomed.outer))
        assert (running(quiet, rollout), doomed.came, told) == (2, 1, [200, 200, 502])
