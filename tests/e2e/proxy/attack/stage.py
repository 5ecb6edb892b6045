"""A form of the edge before the program, and how it is asked: whole requests as bytes, so that nothing is put right. Not
run by itself."""

import csv
import json
import os
import re
import socket
import subprocess
from pathlib import Path
from typing import Callable

from harness import ROOT, http_client
from harness import edge as harness
from harness.http_client import trust_all
from harness.processes import HOST, PATIENCE, eventually, free_port, listens
from harness.stand_in import StandIn, send_reply

PASSWORD = "to-test-the-edge"
OPERATORS = {
    "zoe": harness.ALL,
    "ben": "look,approve",
    "emil": "steer",
    "wall": "look",
    "cleo": "look,hold",
}
# the tables that count requests of before, and how an entry is set to nothing
COUNTS = {
    "guesses": "data.gpc0_rate 0 data.gpt0 0",
    "all_guesses": "data.gpc0_rate 0 data.gpc1_rate 0",
    "addresses": "data.gpc0_rate 0 data.gpt0 0",
    "devices_of_address": "data.gpc0_rate 0 data.gpc1_rate 0",
}
# by which `show sess` marks a request that is kept waiting since its login is refused
TARPIT = "200"
# whose password is guessed, and costs what it costs
GUESSED = "zoe"
DEVICES = 12
# bytes of the artifact, small since a program compiled without its proofs takes long to sum it
ARTIFACT = 1 << 16
CONDITION = {"condition": "THRESHOLD", "expression": "50"}


TLS = trust_all()


def login(name: str, password: str = PASSWORD) -> str:
    """The line of a head with a login."""
    return f"Authorization: {http_client.login(name, password)['Authorization']}\r\n"


def token(device: int) -> str:
    """The line of a head with a device's token."""
    return f"Authorization: TargetToken tok-dev-{device:02}\r\n"


class Link:
    """A connection that asks one thing after the other. A reply is its status and its body; status 0 says that the connection
    ended without one."""

    def __init__(self, it: socket.socket) -> None:
        self.it, self.rest = it, b""

    def send(self, head: str, body: bytes = b"") -> None:
        self.it.sendall(head.encode("latin-1") + body)

    def reply(self, bare: bool = False) -> tuple[int, dict[str, str], bytes]:
        """The next reply, `bare` without a body. Raises TimeoutError where none comes."""
        told = self.rest
        try:
            while b"\r\n\r\n" not in told:
                piece = self.it.recv(1 << 20)
                if not piece:
                    return 0, {}, told
                told += piece
            head, _, body = told.partition(b"\r\n\r\n")
            first, *lines = head.decode("latin-1").split("\r\n")
            fields = {it.partition(":")[0].lower(): it.partition(":")[2].strip() for it in lines}
            length = 0 if bare else int(fields.get("content-length", "-1"))
            while length < 0 or len(body) < length:
                piece = self.it.recv(1 << 20)
                if not piece:
                    break
                body += piece
            self.rest = body[length:] if length >= 0 else b""
            return int(first.split(" ")[1]), fields, body[:length] if length >= 0 else body
        except TimeoutError:
            raise
        except OSError:
            return 0, {}, b""

    def ask(
        self, method: str, path: str, fields: str = "", body: bytes | None = None
    ) -> tuple[int, dict[str, str], bytes]:
        """A request and its reply."""
        length = f"Content-Length: {len(body)}\r\n" if body is not None else ""
        host = "" if "Host:" in fields else "Host: localhost\r\n"
        try:
            self.send(f"{method} {path} HTTP/1.1\r\n{host}{fields}{length}\r\n", body or b"")
        except TimeoutError:
            raise
        except OSError:
            # one that was refused before it was read whole: its reply is there
            pass
        return self.reply(method == "HEAD")

    def close(self) -> None:
        self.it.close()

    def __enter__(self) -> "Link":
        return self

    def __exit__(self, *_: object) -> None:
        self.close()


class Plain(StandIn):
    """A desk whose artifacts abc.bin have 4 MiB, and where everything else is one small object: where it is the edge that is measured."""

    def answer(self, link: socket.socket, request: bytes) -> bool:
        head = request.partition(b"\r\n\r\n")[0]
        send_reply(link, b"x" * (4 << 20) if b"/artifacts/abc" in head else b'{"id":1}')
        return True


class Stage:
    """One form. `port` is the TLS port, `behind` the program's."""

    def __init__(
        self,
        folder: Path,
        program: Path | None,
        form: str,
        more: dict[str, str] | None = None,
        edits: Callable[[str, str], str] = harness.leave,
    ) -> None:
        self.folder, self.program, self.form = folder, program, form
        self.behind = free_port()
        self.server: subprocess.Popen | None = None
        self.edge = self.make_edge(more or {}, edits)
        self.port, self.base = self.edge.port, self.edge.base
        self.serve()
        self.edge.start()

    def make_edge(
        self, more: dict[str, str], edits: Callable[[str, str], str] = harness.leave
    ) -> harness.Edge:
        """The edge as it is delivered; `more` are its variables, `edits` what is written otherwise."""
        return harness.Edge(
            self.folder,
            self.behind,
            OPERATORS,
            PASSWORD,
            form=self.form,
            more=more,
            edits=edits,
            cheap=frozenset(OPERATORS) - {GUESSED},
        )

    def serve(self) -> None:
        """Starts the program, if there is to be one."""
        if not self.program:
            return
        words = "--connections 1000000 --interface both".split()
        words = [
            self.program,
            "serve",
            "--db",
            self.folder / "desk.db",
            "--port",
            self.behind,
            *words,
        ]
        log = open(self.folder / "server.log", "ab")
        self.server = subprocess.Popen(list(map(str, words)), stdout=log, stderr=log)
        eventually("the program", lambda: listens(self.behind))

    def bare(self, folder: Path) -> "Stage":
        """The same form before a port where nobody is yet."""
        return Stage(folder, None, self.form)

    def stop(self) -> None:
        """Kills the program."""
        if self.server:
            self.server.kill()
            self.server.wait()
        self.server = None

    def open(
        self,
        source: str = HOST,
        timeout: float = 30,
        small: bool = False,
        opening: float = PATIENCE,
    ) -> Link:
        """A connection to the TLS port, from an address of this machine. It may take `opening` seconds to be made, and
        `timeout` seconds each time that something is sent or read."""
        it = socket.socket()
        if small:
            it.setsockopt(socket.SOL_SOCKET, socket.SO_RCVBUF, 4096)
        it.settimeout(opening)
        it.bind((source, 0))
        it.connect((HOST, self.port))
        it.setsockopt(socket.IPPROTO_TCP, socket.TCP_NODELAY, 1)
        link = TLS.wrap_socket(it)
        link.settimeout(timeout)
        return Link(link)

    def open_near(self, timeout: float = 30) -> Link:
        """A connection to the machine's own way in: its socket, or the port that one form has besides."""
        if self.form == "port":
            return Link(socket.create_connection((HOST, self.edge.local_port), timeout))
        return self.open_path(self.edge.local, timeout)

    def open_path(self, path: Path, timeout: float = 30) -> Link:
        """A connection to a socket."""
        it = socket.socket(socket.AF_UNIX)
        it.settimeout(timeout)
        it.connect(str(path))
        return Link(it)

    @property
    def near_base(self) -> str:
        """What stands before a path at the machine's own way in."""
        return self.edge.near_base

    def ask(
        self, method: str, path: str, fields: str = "", body: bytes | None = None, **how: object
    ) -> tuple[int, dict[str, str], bytes]:
        """One request over a connection of its own."""
        with self.open(**how) as link:
            return link.ask(method, self.base + path, fields, body)

    def order(self, method: str, path: str, thing: object = None, name: str = "zoe") -> object:
        """An operator's request, which has to succeed: what it answers."""
        body = thing.encode() if isinstance(thing, str) else json.dumps(thing).encode()
        whole = body if thing is not None else b""
        status, _, told = self.ask(method, path, login(name), whole, timeout=120)
        assert status in (200, 201), f"{method} {path}: {status} {told[:300]!r}"
        return json.loads(told) if told[:1] in b"[{" else told

    def look(self, path: str) -> object:
        """An operator's look."""
        return self.order("GET", path)

    def fill(self) -> None:
        """Twelve devices, an artifact of 1 MiB, and a rollout of five groups that runs."""
        self.order(
            "POST", "/rest/v1/softwaremodules", [{"name": "app", "type": "os", "version": "1"}]
        )
        self.order("POST", "/rest/v1/softwaremodules/1/artifacts?filename=abc.bin", "x" * ARTIFACT)
        self.order(
            "POST",
            "/rest/v1/distributionsets",
            [{"name": "r", "version": "1", "modules": [{"id": 1}]}],
        )
        rows = "".join(f"dev-{k:02},Device,tok-dev-{k:02},lab\n" for k in range(1, DEVICES + 1))
        self.order("POST", "/desk/v1/import", f"controllerid,name,token,tags\n{rows}")
        self.plan("spring", 1)
        self.order("POST", "/rest/v1/rollouts/1/start", "")

    def plan(self, name: str, groups: int) -> int:
        """A rollout, and its number."""
        plan = {
            "name": name,
            "distributionSetId": 1,
            "targetFilterQuery": "name==*",
            "amountGroups": groups,
            "successCondition": CONDITION,
            "errorCondition": CONDITION,
        }
        return self.order("POST", "/rest/v1/rollouts", plan)["id"]

    def poll(self, link: Link, device: int) -> tuple[int, dict[str, str], bytes]:
        """A device's poll."""
        return link.ask("GET", f"{self.base}/DEFAULT/controller/v1/dev-{device:02}", token(device))

    def forget(self) -> None:
        """Ends the requests that are under way, and clears what the edge counts of addresses and devices. HAProxy doesn't end a
        refused login, nor see that its client has gone, and keeps what it holds for ten seconds: that is set to nothing.
        """
        eventually("an edge at rest", self.is_at_rest)
        for table, cleared in COUNTS.items():
            self.told(f"clear table {table}")
            for key in re.findall(r"key=(\S+) ", self.told(f"show table {table}")):
                self.told(f"set table {table} key {key} {cleared}")

    def is_at_rest(self) -> bool:
        """Ends requests; whether no connection is left but those of refused logins."""
        found = re.findall(
            r"(?m)^(0x\w+): .* fe=fwdesk .* rq\[\S*an=(\w+)h", self.told("show sess")
        )
        waiting = [it for it, analysers in found if analysers == TARPIT]
        for it in {it for it, _ in found} - {*waiting}:
            self.told(f"shutdown session {it}")
        return self.connections() == len(waiting) == len(found)

    def connections(self) -> int:
        """How many connections the TLS port has."""
        rows = csv.DictReader(self.told("show stat fwdesk 1 -1").removeprefix("# ").splitlines())
        return int(next(rows)["scur"])

    def told(self, words: str) -> str:
        """What the edge's own socket answers."""
        with socket.socket(socket.AF_UNIX) as it:
            it.settimeout(20)
            it.connect(str(self.edge.admin))
            it.sendall(f"{words}\n".encode())
            return b"".join(iter(lambda: it.recv(65536), b"")).decode()

    def audit(self) -> list[str]:
        """The audit's lines so far."""
        return self.edge.audit()

    def memory(self) -> int:
        """Resident memory of both HAProxys, in bytes."""
        return self.edge.memory(self.edge.edge) + self.edge.memory(self.edge.desks)

    def processes(self) -> list[int]:
        """The processes of both HAProxys, and the program's."""
        masters = (self.edge.edge, self.edge.desks)
        own = [self.server.pid] if self.server else []
        return [process for it in masters for process in self.edge.workers(it)] + own

    def processor(self) -> float:
        """Seconds of a processor that the edge has taken."""
        ticks = 0
        for it in self.edge.workers(self.edge.edge):
            fields = Path(f"/proc/{it}/stat").read_text().rpartition(")")[2].split()
            ticks += sum(map(int, fields[11:13]))
        return ticks / os.sysconf("SC_CLK_TCK")

    def accepted(self) -> int:
        """How many connections the edge has accepted, those that it refused at once too."""
        return int(re.search(r"(?m)^CumConns: (\d+)$", self.told("show info"))[1])

    def end(self) -> None:
        self.edge.end()
        self.stop()


class OneFile(harness.Edge):
    """One HAProxy with a whole configuration in one file, as there was before: its places are changed in the text."""

    text: Path

    def write(self) -> None:
        for it in ("run/haproxy", "run/fwdesk"):
            (self.folder / it).mkdir(parents=True, exist_ok=True)
        self.held.touch()
        harness.make_certificate(self.folder)
        secret = harness.hashed(self.password)
        users = "".join(f"    user {it} password {secret}\n" for it in self.operators)
        may = "".join(
            f"    http-request set-var-fmt(txn.may) {groups} if {{ http_auth_user {it} }}\n"
            for it, groups in self.operators.items()
        )
        text = self.text.read_text(encoding="utf-8")
        # a pod's list came from another file
        if "userlist" not in text:
            text = f"userlist operators\n    user anna password @PASSWORD@\n\n{text}"
        for old, new in {
            r"(?m)^ *(user|group) haproxy\n": "",
            r" user haproxy mode 600": "",
            r"/run/haproxy/": f"{self.run}/haproxy/",
            r"bind :8443 ssl crt /\w+(/fwdesk)?/server.pem": f"bind {HOST}:{self.port} ssl crt {self.folder}/server.pem",
            r"127\.0\.0\.1:8081": f"{HOST}:{self.local_port}",
            r"(127\.0\.0\.1)?:8405": f"{HOST}:{self.health}",
            r"127\.0\.0\.1:8080": f"{HOST}:{self.behind}",
            r"    user anna password @PASSWORD@\n": users,
            r" *http-request set-var-fmt\(txn.may\).*anna.*\n": may,
            r"/usr/share/fwdesk/page": f"{ROOT}/web",
            r"/var/lib/fwdesk-brake/": f"{self.folder}/",
            r"/run/fwdesk-brake\.sock": f"{self.run}/fwdesk-brake.sock",
        }.items():
            text = re.sub(old, lambda _, it=new: it, text)
        (self.folder / "one.cfg").write_text(text)

    def start(self) -> "OneFile":
        log = open(self.folder / "audit", "ab")
        words = ["haproxy", "-W", "-S", str(self.master), "-f", str(self.folder / "one.cfg")]
        self.edge = self.desks = subprocess.Popen(
            words, stdout=log, stderr=log, start_new_session=True
        )
        self.children.append(self.edge)
        eventually("the configuration of before", self.is_open, child=None)
        return self


class Before(Stage):
    """One HAProxy with a whole configuration, as there was before. Its way in of the machine is a port."""

    def __init__(self, folder: Path, program: Path | None, text: Path) -> None:
        self.text = text
        super().__init__(folder, program, "single")

    def make_edge(self, more: dict[str, str], edits: object = None) -> OneFile:
        made = OneFile.__new__(OneFile)
        made.text = self.text
        made.__init__(self.folder, self.behind, OPERATORS, PASSWORD)
        return made

    def bare(self, folder: Path) -> Stage:
        return Before(folder, None, self.text)

    def open_near(self, timeout: float = 30) -> Link:
        it = socket.create_connection((HOST, self.edge.local_port), timeout)
        return Link(it)

    def forget(self) -> None:
        if "backend guesses" in self.text.read_text(encoding="utf-8"):
            for it in ("guesses", "all_guesses"):
                self.told(f"clear table {it}")

    def memory(self) -> int:
        return self.edge.memory(self.edge.edge)
