"""What the tests of fwdesk-hawkbit run: the desk, HAProxy before it, the gateway, nginx before that; and who watches
between the gateway and the desk. Each in a folder of its own, on ports that nobody has."""

import hashlib
import http.server
import os
import subprocess
import threading
import time
from collections.abc import Callable
from dataclasses import dataclass, field
from pathlib import Path
from typing import Any

from harness import ROOT, edge, http_client
from harness.desk import start_desk
from harness.http_client import Reply
from harness.nginx import write_frame
from harness.processes import (
    HOST,
    Processes,
    eventually,
    free_port,
    listens,
    with_places,
)

GATEWAY = ROOT / "hawkbit/fwdesk-hawkbit"
PROGRAM = os.environ.get("FWDESK_PROGRAM", str(ROOT / "crates/fwdesk/out/fwdesk"))
R, B = "/rest/v1", "/DEFAULT/controller/v1"
THRESHOLD = {"condition": "THRESHOLD", "expression": "100"}


def ask(
    to: int | Path,
    method: str,
    path: str,
    body: Any = None,
    fields: dict[str, str] | None = None,
    tls: bool = False,
    seconds: float = 90,
) -> Reply:
    """One request over a connection of its own, to a port or to a socket's path."""
    told = {"Connection": "close"} | (fields or {})
    if isinstance(body, list | dict):
        told.setdefault("Content-Type", "application/json")
    trusted = http_client.trust_all() if tls else None
    return http_client.ask(method, path, body, told, port=to, trusted=trusted, seconds=seconds)


class Desk:
    """The program, and the calls of its operator."""

    def __init__(self, folder: Path, processes: Processes) -> None:
        self.port, self.processes = free_port(), processes
        self.folder, self.way = folder, self.port
        self.start()

    def start(self) -> None:
        self.child = start_desk(self.processes, Path(PROGRAM), self.folder, self.port)

    def ask(self, method: str, path: str, body: Any = None) -> Any:
        told = ask(self.way, method, R + path, body)
        assert told.status < 300, f"{method} {path}: {told.status} {told.body[:200]!r}"
        return told.json()

    def target(self, who: str, tags: tuple[str, ...] = ()) -> str:
        """A target, whose token this answers."""
        token = f"tok-{who}"
        row = {"controllerId": who, "name": who, "securityToken": token, "tags": list(tags)}
        self.ask("POST", "/targets", [row])
        return token

    def firmware(self, name: str, *files: tuple[str, bytes]) -> tuple[int, int]:
        """A set of one module with these files: its number, and the module's."""
        (module,) = self.ask(
            "POST", "/softwaremodules", [{"name": name, "type": "os", "version": "1"}]
        )
        for filename, data in files:
            place = f"/softwaremodules/{module['id']}/artifacts?filename={filename}"
            self.ask("POST", place, data)
        row = {"name": name, "version": "1", "modules": [{"id": module["id"]}]}
        (bundle,) = self.ask("POST", "/distributionsets", [row])
        return bundle["id"], module["id"]

    def plan(self, name: str, bundle: int, text: str) -> int:
        body = {"name": name, "distributionSetId": bundle, "targetFilterQuery": text}
        body |= {"amountGroups": 1, "successCondition": THRESHOLD, "errorCondition": THRESHOLD}
        number: int = self.ask("POST", "/rollouts", body)["id"]
        return number

    def offer(self, who: str, name: str, *files: tuple[str, bytes], text: str = "") -> int:
        """Rolls files out to one target, and answers its action's number."""
        bundle, _ = self.firmware(name, *files)
        number = self.plan(name, bundle, text or f"controllerid=={who}")
        self.ask("POST", f"/rollouts/{number}/start")
        return self.actions(who)[-1]["id"]

    def actions(self, who: str) -> list[Any]:
        return self.ask("GET", f"/targets/{who}/actions?limit=500")["content"]

    def history(self, who: str, action: int) -> list[tuple[str, str, str, list[str]]]:
        told = self.ask("GET", f"/targets/{who}/actions/{action}/status?limit=500")["content"]
        return [(it["kind"], it["execution"], it["finished"], it["details"]) for it in told]

    def attributes(self, who: str) -> dict[str, str]:
        held: dict[str, str] = self.ask("GET", f"/targets/{who}")["attributes"]
        return held


@dataclass
class Between:
    """Stands between the gateway and the desk, notes what is asked, and does to it what a test says.

    `rule` is asked before each call: None lets it through, "before" ends the connection unasked, "after" ends it when
    the desk has answered; a number is so many seconds of delay; anything else is sent in place of an answer.
    """

    to: int | Path
    # where what isn't a device's goes, if that is elsewhere
    reads: Path | None = None
    rule: Any = None
    seen: list[str] = field(default_factory=list)

    def __post_init__(self) -> None:
        outer = self

        class Handler(http.server.BaseHTTPRequestHandler):
            protocol_version = "HTTP/1.1"

            def answer(self) -> None:
                outer.pass_on(self)

            do_GET = do_POST = do_PUT = do_DELETE = answer

            def log_message(self, *_: Any) -> None:
                pass

        self.server = http.server.ThreadingHTTPServer((HOST, 0), Handler)
        self.server.daemon_threads = True
        self.port = self.server.server_address[1]
        self.turn = threading.Lock()
        threading.Thread(target=self.server.serve_forever, daemon=True).start()

    def pass_on(self, it: http.server.BaseHTTPRequestHandler) -> None:
        body = it.rfile.read(int(it.headers.get("Content-Length", 0)))
        call = f"{it.command} {it.path}"
        with self.turn:
            self.seen.append(call)
            does = self.rule(call) if self.rule else None
        if isinstance(does, int | float):
            time.sleep(does)
        if does == "before":
            it.close_connection = True
            return
        if isinstance(does, tuple):
            self.send(it, *does)
            return
        keeps = ("authorization", "content-type", "host", "x-fwdesk-device", "x-fwdesk-targets")
        to = self.to if it.path.startswith("/DEFAULT/") or self.reads is None else self.reads
        fields = {key: value for key, value in it.headers.items() if key.lower() in keeps}
        with self.turn:
            try:
                told = ask(to, it.command, it.path, body or None, fields)
            except OSError:
                it.close_connection = True
                return
        if does == "after":
            it.close_connection = True
            return
        self.send(it, told.status, told.fields.get("content-type", ""), told.body, told.fields)

    @staticmethod
    def send(
        it: Any, status: int, kind: str, body: bytes, fields: dict[str, str] | None = None
    ) -> None:
        it.send_response(status)
        it.send_header("Content-Type", kind)
        it.send_header("Content-Length", str(len(body)))
        for name in ("retry-after", "x-fwdesk-targets"):
            if fields and name in fields:
                it.send_header(name, fields[name])
        it.end_headers()
        it.wfile.write(body)

    def close(self) -> None:
        self.server.shutdown()
        self.server.server_close()


class Gateway:
    """fwdesk-hawkbit on a port of its own; `more` are further words of its command line."""

    def __init__(
        self, processes: Processes, folder: Path, mode: str, desk: int | str, *more: str
    ) -> None:
        self.processes, self.folder, self.port = processes, folder, free_port()
        folder.mkdir(parents=True, exist_ok=True)
        place = desk if isinstance(desk, str) else f"http://{HOST}:{desk}"
        self.words = [str(GATEWAY), f"--{mode}", "--desk", place]
        self.words += ["--listen", f"{HOST}:{self.port}", *more]
        self.start()

    def start(self) -> None:
        self.child = self.processes.start(self.folder.name, self.words)
        eventually("the gateway", lambda: listens(self.port), child=self.child)

    def kill(self) -> None:
        self.processes.end(self.child)

    def __call__(self, method: str, path: str, body: Any = None, **fields: str) -> Reply:
        return ask(
            self.port, method, path, body, {k.replace("_", "-"): v for k, v in fields.items()}
        )

    def device(
        self, who: str, method: str, rest: str = "", body: Any = None, **fields: str
    ) -> Reply:
        """What a device asks by its own token."""
        fields = {"Authorization": f"TargetToken tok-{who}"} | fields
        return self(method, f"{B}/{who}{rest}", body, **fields)


def start_nginx(
    folder: Path,
    processes: Processes,
    door: Path,
    polls: Path,
    images: Path,
    more: dict[str, str] | None = None,
) -> int:
    """nginx with deploy/nginx/hawkbit-polls.conf, and its port. `more` are further places of the file."""
    port = free_port()
    text = (ROOT / "deploy/nginx/hawkbit-polls.conf").read_text()
    places = {
        "listen 8444 ssl": f"listen {HOST}:{port} ssl",
        "unix:/run/fwdesk/devices.sock": f"unix:{polls}",
        "/srv/firmware": str(images),
        "/run/fwdesk-hawkbit/devices.sock": str(door),
        "/etc/fwdesk/": f"{folder}/",
    } | (more or {})
    (folder / "polls.conf").write_text(with_places(text, places))
    child = processes.start("nginx", write_frame(folder, folder / "polls.conf"))
    eventually("nginx", lambda: listens(port), child=child)
    return port


class HAProxy:
    """Both HAProxys of deploy/haproxy before a desk, and the port of hawkBit's management before a gateway's socket."""

    LOGINS = {"anna": "look,steer,approve,hold", "lou": "look", "ann": "look,approve", "none": ""}

    def __init__(
        self,
        folder: Path,
        desk: int,
        more: dict[str, str] | None = None,
        form: str = "single",
        fleets: dict[str, int] | None = None,
        prepare: Callable[[edge.Edge], None] = lambda _: None,
    ) -> None:
        """`prepare` changes the files of it before it starts."""
        self.hawkbit = free_port()
        own = {
            "FWDESK_LOCAL_PORT": str(free_port()),
            "FWDESK_HAWKBIT_MANAGE": "1",
            "FWDESK_HAWKBIT_BIND": f"{HOST}:{self.hawkbit}",
        }
        self.edge = edge.Edge(
            folder / "edge", desk, self.LOGINS, form=form, more=own | (more or {}), fleets=fleets
        )
        self.port = int(own["FWDESK_LOCAL_PORT"])
        self.reads = self.edge.run / "fwdesk/hawkbit.sock"
        # the console's part, which no test here asks
        (self.edge.folder / "edge/50-console.cfg").unlink(missing_ok=True)
        self.door = self.edge.run / "fwdesk-hawkbit/manage.sock"
        self.door.parent.mkdir()
        prepare(self.edge)
        self.edge.start()

    def brake(self, verb: str) -> None:
        """Holds or releases, as an operator of the machine does."""
        own = {
            "FWDESK_BRAKE_FILE": str(self.edge.held),
            "FWDESK_BRAKE_SOCKETS": str(self.edge.desks_master),
        }
        words = [str(ROOT / "cli/fwdesk-brake"), verb]
        subprocess.run(words, check=True, env=os.environ | own, stdout=subprocess.DEVNULL)

    def login(self, name: str) -> dict[str, str]:
        return http_client.login(name, self.edge.password)


def sums_of(data: bytes) -> dict[str, str]:
    return {it: hashlib.new(it, data).hexdigest() for it in ("md5", "sha1", "sha256")}


def payload(name: str, size: int) -> bytes:
    """Bytes that nothing else has."""
    return hashlib.shake_128(name.encode()).digest(size)


def stub(data: bytes) -> bytes:
    return f"{hashlib.sha256(data).hexdigest()}\n".encode()
