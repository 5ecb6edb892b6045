"""A desk, a real HAProxy and the console in a folder, with those who are told: for the tests of this folder."""
import http.server
import json
import os
import socket
import socketserver
import threading
import time
from pathlib import Path
from typing import Any

from harness import ROOT, http_client
from harness.desk import PROGRAM, start_brake, start_desk
from harness.edge import ALL, Edge
from harness.processes import HOST, Processes, eventually, free_port


class Sink:
    """An HTTP server that keeps what is posted to it, with the time of each, and refuses while it is told to."""

    def __init__(self) -> None:
        sink = self
        self.posts: list[tuple[float, str, Any]] = []
        self.refuses = False

        class Handler(http.server.BaseHTTPRequestHandler):
            def do_POST(self) -> None:
                body = json.loads(self.rfile.read(int(self.headers["Content-Length"])))
                if not sink.refuses:
                    sink.posts.append((time.time(), self.path, body))
                self.send_response(500 if sink.refuses else 204)
                self.end_headers()

            def log_message(self, *_: Any) -> None:
                pass

        self.server = http.server.ThreadingHTTPServer((HOST, 0), Handler)
        self.url = f"http://{HOST}:{self.server.server_address[1]}"
        threading.Thread(target=self.server.serve_forever, daemon=True).start()

    def end(self) -> None:
        self.server.shutdown()


class Mailbox:
    """An SMTP server that takes each message, and keeps it as text."""

    def __init__(self) -> None:
        box = self
        self.mails: list[str] = []

        class Handler(socketserver.StreamRequestHandler):
            def handle(self) -> None:
                say = lambda it: self.wfile.write(f"{it}\r\n".encode())
                say("220 box")
                data: list[str] | None = None
                for line in self.rfile:
                    text = line.decode("utf-8", "replace").rstrip("\r\n")
                    if data is not None:
                        if text == ".":
                            box.mails.append("\n".join(data))
                            data = None
                            say("250 taken")
                        else:
                            data.append(text)
                    elif text.upper() == "DATA":
                        data = []
                        say("354 go on")
                    elif text.upper() == "QUIT":
                        say("221 bye")
                        return
                    else:
                        say("250 yes")

        self.server = socketserver.ThreadingTCPServer((HOST, 0), Handler)
        self.server.daemon_threads = True
        self.address = f"{HOST}:{self.server.server_address[1]}"
        threading.Thread(target=self.server.serve_forever, daemon=True).start()

    def end(self) -> None:
        self.server.shutdown()


class Environment:
    def __init__(self, folder: Path, approval: bool = False, **settings: Any):
        self.folder, self.processes = folder, Processes(folder)
        self.desk_port, self.metrics_port = free_port(), free_port()
        self.sink, self.chat, self.box = Sink(), Sink(), Mailbox()
        folder.chmod(0o755)
        self.approval = approval
        self.edge = Edge(
            folder,
            self.desk_port,
            operators={"anna": ALL, "ben": ALL, "eve": "look", "hal": "hold"},
            password="secret",
            more={"FWDESK_CONSOLE": "1", "FWDESK_CONSOLE_METRICS": f"{HOST}:{self.metrics_port}"},
        )
        self.port, self.run = self.edge.port, self.edge.run
        (self.run / "fwdesk-console").mkdir()
        self._write_settings(settings)
        try:
            self.desk = self.start_desk()
            self.edge.start()
            self.start_brake()
            self.console = self.start_console()
        except BaseException:
            self.end()
            raise

    def _write_settings(self, more: dict[str, Any]) -> None:
        run = self.run
        told = {
            "listen": f"{run}/fwdesk-console/http.sock",
            "audit": f"{run}/fwdesk-console/audit.sock",
            "looks": f"{run}/haproxy/fwdesk-looks.sock",
            "table": f"{run}/haproxy/fwdesk-table.sock",
            "records": f"{self.folder}/console.db",
            "link": f"https://{HOST}:{self.port}/page/",
            "webhooks": [f"{self.sink.url}/hook"],
            "chats": [f"{self.chat.url}/chat"],
            "mail_to": ["ops@example.org"],
            "smtp": self.box.address,
            "tell": ["paused", "stands", "desk", "console", "held", "released", "finished"],
            "table_every": 1,
        }
        lines = [f"{key} = {json.dumps(it)}\n" for key, it in (told | more).items()]
        (self.folder / "console.toml").write_text("".join(lines))

    # processes

    def start_desk(self) -> Any:
        more = ["--approval"] if self.approval else []
        return start_desk(self.processes, PROGRAM, self.folder, self.desk_port, *more)

    def start_brake(self) -> None:
        """fwdesk-brake behind its socket, as fwdesk-brake.socket has it."""
        socket = self.run / "fwdesk-brake.sock"
        start_brake(self.processes, socket, self.edge.held, [self.edge.desks_master])

    def kill(self, child: Any) -> None:
        """At once, as out of memory does."""
        self.processes.end(child)

    def start_console(self, **more: str) -> Any:
        """With more variables of the environment, where some are named."""
        words = ["/usr/bin/python3", ROOT / "console/fwdesk-console", self.folder / "console.toml"]
        how = {"env": os.environ | more} if more else {}
        child = self.processes.start("console", list(map(str, words)), **how)
        eventually(
            "the console answers", lambda: self.ask("/fwdesk/state")[0] == 200, 20, child=child
        )
        return child

    def end(self) -> None:
        self.processes.end_all()
        self.edge.end()
        for it in (self.sink, self.chat, self.box):
            it.end()

    # asking

    def ask(
        self,
        path: str,
        method: str = "GET",
        body: Any = None,
        who: str | None = "anna",
        fields: dict[str, str] | None = None,
        patience: float = 60,
    ) -> tuple[int, dict[str, str], bytes]:
        """Through HAProxy; `who` is logged in, or nobody is."""
        sent = dict(fields or {})
        if who is not None:
            sent |= http_client.login(who, "secret")
        trusted = http_client.trust_all()
        reply = http_client.ask(
            method, path, body, sent, port=self.port, trusted=trusted, seconds=patience
        )
        return reply.status, reply.fields, reply.body

    def api(self, path: str, method: str = "GET", body: Any = None, who: str = "anna") -> Any:
        status, _, told = self.ask(path, method, body, who)
        assert status in (200, 201), f"{method} {path}: {status} {told[:200]!r}"
        return json.loads(told)

    def state(self, rollout: int | None = None) -> Any:
        return self.api("/fwdesk/state" + (f"?rollout={rollout}" if rollout else ""))

    def look(self, path: str, method: str = "GET") -> tuple[int, bytes]:
        """By the console's own way to the desk."""
        to = self.run / "haproxy/fwdesk-looks.sock"
        reply = http_client.ask(method, path, port=to, seconds=30)
        return reply.status, reply.body

    def command(self, line: str, name: str = "haproxy/fwdesk-table.sock") -> str:
        """What a socket of HAProxy answers to a line."""
        with socket.socket(socket.AF_UNIX) as it:
            it.connect(f"{self.run}/{name}")
            told = b""
            try:
                it.sendall(f"{line}\n".encode())
                while piece := it.recv(65536):
                    told += piece
            except (BrokenPipeError, ConnectionResetError):
                pass
            return told.decode()

    def desk_requests(self) -> int:
        """How many HAProxy has handed to the desk so far."""
        lines = self.command("show stat", "haproxy-desks/admin.sock").lstrip("# ").splitlines()
        rows = [dict(zip(lines[0].split(","), it.split(","))) for it in lines[1:]]
        return next(
            int(it["stot"]) for it in rows if it["pxname"] == "desks" and it["svname"] == "desk"
        )

    # an operator's and devices' doings

    def make_fleet(self, count: int) -> None:
        """A module, two sets and so many devices, dev-00001 and on."""
        self.api(
            "/rest/v1/softwaremodules", "POST", [{"name": "app", "type": "os", "version": "1"}]
        )
        for version in ("1.0", "2.0"):
            made = [{"name": "pump", "version": version, "modules": [{"id": 1}]}]
            self.api("/rest/v1/distributionsets", "POST", made)
        rows = "".join(f"dev-{k:05},Device {k},tok-dev-{k:05},lab\n" for k in range(1, count + 1))
        self.api("/desk/v1/import", "POST", f"controllerid,name,token,tags\n{rows}")

    def plan(
        self,
        name: str = "",
        groups: int = 2,
        success: int = 90,
        error: int = 20,
        who: str = "anna",
        set_: int = 1,
        start: bool = True,
        text: str = "name==*",
    ) -> int:
        condition = lambda it: {"condition": "THRESHOLD", "expression": str(it)}
        made = self.api(
            "/rest/v1/rollouts",
            "POST",
            {
                "name": name or f"plan of {time.time()}",
                "distributionSetId": set_,
                "targetFilterQuery": text,
                "amountGroups": groups,
                "successCondition": condition(success),
                "errorCondition": condition(error),
            },
            who,
        )
        if start:
            self.order(made["id"], "start", who)
        return int(made["id"])

    def order(self, rollout: int, verb: str, who: str = "anna") -> None:
        self.api(f"/rest/v1/rollouts/{rollout}/{verb}", "POST", None, who)

    def poll(self, device: str) -> tuple[int, dict[str, str], bytes]:
        path = f"/DEFAULT/controller/v1/{device}"
        return self.ask(path, who=None, fields={"Authorization": f"TargetToken tok-{device}"})

    def report(self, device: str, action: int, outcome: str, *details: str) -> None:
        path = f"/DEFAULT/controller/v1/{device}/deploymentBase/{action}/feedback"
        body = {
            "status": {
                "execution": "closed",
                "result": {"finished": outcome},
                "details": list(details),
            }
        }
        told = self.ask(
            path, "POST", body, None, fields={"Authorization": f"TargetToken tok-{device}"}
        )
        assert told[0] == 200, told

    def fail(self, rollout: int, devices: int, words: str = "disk full") -> float:
        """So many devices of the first group fail; when the last report was answered."""
        actions = self.table(rollout)
        for it in actions[:devices]:
            self.report(it["controllerid"], int(it["action"]), "failure", words)
        return time.time()

    def table(self, rollout: int) -> list[dict[str, str]]:
        lines = self.ask(f"/desk/v1/rollouts/{rollout}/actions")[2].decode().splitlines()
        heads = lines[0].split(",")
        return [dict(zip(heads, it.split(","))) for it in lines[1:]]
