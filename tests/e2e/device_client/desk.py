"""The real server with devices that are offered firmware, and a topology whose faults a test chooses. Not run by itself."""
import json
import threading
from http.server import BaseHTTPRequestHandler, ThreadingHTTPServer
from pathlib import Path

from harness import http_client
from harness.desk import start_desk
from harness.processes import HOST, Processes, free_port

THRESHOLD = {"condition": "THRESHOLD", "expression": "100"}


class Desk:
    """`fwdesk serve` over a new file."""

    def __init__(self, program: Path, folder: Path):
        self.port, self.lock = free_port(), threading.Lock()
        self.processes = Processes(folder)
        start_desk(self.processes, program, folder, self.port)
        self.names = 0

    def close(self) -> None:
        self.processes.end_all()

    def ask(self, method: str, path: str, body: bytes | None = None):
        """What a call of an operator answers, which has to succeed."""
        with self.lock:
            reply = http_client.ask(method, path, body, port=self.port)
        assert reply.status < 300, f"{method} {path}: {reply.status} {reply.text}"
        return reply.json()

    def post(self, path: str, thing: object):
        return self.ask("POST", path, json.dumps(thing).encode())

    def offer(self, count: int, *files: bytes) -> list[str]:
        """Offers a set of these files to so many new devices, and gives their ids. The action of each is 1 more than the last one's."""
        self.names += 1
        name = f"set-{self.names}"
        module = self.post(
            "/rest/v1/softwaremodules", [{"name": name, "type": "os", "version": "2.1"}]
        )[0]["id"]
        for index, file in enumerate(files):
            path = f"/rest/v1/softwaremodules/{module}/artifacts?filename={index}.bin"
            self.ask("POST", path, file)
        of_set = {"name": name, "version": "1", "modules": [{"id": module}]}
        made = self.post("/rest/v1/distributionsets", [of_set])[0]["id"]
        ids = [f"{name}.{it}" for it in range(count)]
        for first in range(0, count, 100):
            devices = [
                {"controllerId": it, "name": it, "securityToken": f"token-{it}", "tags": [name]}
                for it in ids[first : first + 100]
            ]
            self.post("/rest/v1/targets", devices)
        rollout = {"name": name, "distributionSetId": made, "targetFilterQuery": f"tag=={name}"}
        rollout |= {"amountGroups": 1, "successCondition": THRESHOLD, "errorCondition": THRESHOLD}
        number = self.post("/rest/v1/rollouts", rollout)["id"]
        self.ask("POST", f"/rest/v1/rollouts/{number}/start")
        return ids

    def action(self, device: str) -> dict:
        """The one action of a device."""
        return self.ask("GET", f"/rest/v1/targets/{device}/actions")["content"][0]

    def reports(self, device: str) -> list[tuple]:
        """What a device reported: kind, number, execution, finished."""
        number = self.action(device)["id"]
        told = self.ask("GET", f"/rest/v1/targets/{device}/actions/{number}/status?limit=100")
        return [
            (it["kind"], it.get("number"), it["execution"], it["finished"])
            for it in told["content"]
        ]

    def words(self, device: str) -> list[str]:
        """The lines of the last report of a device."""
        number = self.action(device)["id"]
        told = self.ask("GET", f"/rest/v1/targets/{device}/actions/{number}/status?limit=100")
        return max(told["content"], key=lambda it: it["id"])["details"]


class Topology:
    """What stands before the server: it has ranges, and the faults that are chosen, each of which is used up once it came."""

    def __init__(self, desk: Desk):
        self.desk, self.faults, self.ranges, self.sent = desk, [], True, []
        topology = self

        class Handler(BaseHTTPRequestHandler):
            protocol_version = "HTTP/1.1"

            def log_message(self, *_):
                pass

            def do_GET(self):
                topology.answer(self, None)

            def do_POST(self):
                topology.answer(self, self.rfile.read(int(self.headers["Content-Length"])))

        self.server = ThreadingHTTPServer((HOST, 0), Handler)
        self.server.daemon_threads = True
        self.port = self.server.server_port
        threading.Thread(target=self.server.serve_forever, daemon=True).start()

    def close(self) -> None:
        self.server.shutdown()
        self.server.server_close()

    def fault(self, kind: str, method: str, path: str):
        """The value of a fault that is chosen for this call, or None."""
        for it in self.faults:
            if it[0] == kind and it[1] == method and it[2] in path:
                self.faults.remove(it)
                return it[3]
        return None

    def answer(self, asked: BaseHTTPRequestHandler, body: bytes | None) -> None:
        """Passes a call on, with its fault: `status` before the server hears of it, `lost` the reply after it did, `cut` the
        reply after so many bytes, `other` another reply of the same length."""
        method, path = asked.command, asked.path
        asked.close_connection = True
        self.sent.append((method, path, asked.headers.get("Range")))
        if status := self.fault("status", method, path):
            asked.send_response(status)
            asked.send_header("Content-Length", "0")
            asked.end_headers()
            return
        status, text = self.pass_on(method, path, body, asked.headers["Authorization"])
        if self.fault("lost", method, path):
            return
        if self.fault("other", method, path):
            text = bytes(len(text))
        fields = {}
        wanted = asked.headers.get("Range", "")
        if self.ranges and status == 200 and wanted.startswith("bytes="):
            start = int(wanted[6:].partition("-")[0])
            fields["Content-Range"] = f"bytes {start}-{len(text) - 1}/{len(text)}"
            status, text = 206, text[start:]
        asked.send_response(status)
        for name, value in {
            "Content-Length": str(len(text)),
            "Connection": "close",
            **fields,
        }.items():
            asked.send_header(name, value)
        asked.end_headers()
        asked.wfile.write(text[: self.fault("cut", method, path)])

    def pass_on(self, method: str, path: str, body: bytes | None, token: str) -> tuple[int, bytes]:
        with self.desk.lock:
            fields = {"Authorization": token}
            reply = http_client.ask(method, path, body, fields, port=self.desk.port)
            return reply.status, reply.body
