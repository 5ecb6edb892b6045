"""A desk that fwdesk-ctl asks: the program, its fleet, a line that is cut or watched, and the proxies. Not run by itself."""
import os
import re
import socket
import subprocess
import threading
from pathlib import Path

from harness import packages
from harness import ROOT, http_client
from harness.desk import start_brake, start_desk
from harness.edge import Edge
from harness.processes import HOST, Processes, eventually, free_port, listens

DEPLOY, CLI = ROOT / "deploy", ROOT / "cli"
PASSWORD = "a secret of anna's"


class Left(Exception):
    """What can't be tried here, since a program is missing."""


def needs(*programs):
    """Where Debian has them in a folder that is root's, too."""
    if missing := [it for it in programs if not packages.found(it)]:
        raise Left(f"there is no {', '.join(missing)}")


def status(execution, finished, *details):
    return {
        "status": {
            "execution": execution,
            "result": {"finished": finished},
            "details": list(details),
        }
    }


class Environment:
    """A desk of its own with the calls of an operator and of devices, and fwdesk-ctl asking it."""

    def __init__(self, program, folder, *more):
        self.program, self.folder, self.more, self.port = program, Path(folder), more, free_port()
        self.processes = Processes(self.folder)
        self.environment = {
            "PATH": f"{os.environ['PATH']}:/usr/sbin",
            "HOME": folder,
            "LC_ALL": "C.UTF-8",
        }

    def serve(self):
        self.server = start_desk(self.processes, self.program, self.folder, self.port, *self.more)

    def __enter__(self):
        try:
            self.serve()
            return self
        except BaseException:
            self.processes.end_all()
            raise

    def __exit__(self, *_):
        self.processes.end_all()

    @property
    def url(self):
        return f"http://{HOST}:{self.port}"

    def call(self, method, path, body=None, token=None, port=None):
        """A call, and what is answered: a status and an object or a text."""
        fields = {"Authorization": f"TargetToken {token}"} if token else {}
        reply = http_client.ask(method, path, body, fields, port=port or self.port)
        return reply.status, reply.told

    def ask(self, method, path, body=None):
        """A call of an operator that has to succeed."""
        status, told = self.call(method, path, body)
        assert status < 300, f"{method} {path}: {status} {told}"
        return told

    def get(self, path):
        return self.ask("GET", f"/rest/v1/{path}")

    def words(self, *words):
        return [str(CLI / "fwdesk-ctl"), *map(str, words)]

    def started(self, *words, **more):
        """fwdesk-ctl as it runs: the address of this desk where `FWDESK_URL` says no other."""
        own = {"FWDESK_URL": self.url, **self.environment, **more}
        pipes = {"stdin": subprocess.PIPE, "stdout": subprocess.PIPE, "stderr": subprocess.PIPE}
        return subprocess.Popen(self.words(*words), env=own, text=True, cwd=self.folder, **pipes)

    def ctl(self, *words, given="", **more):
        """Its status, what comes of it, and what it says beside."""
        child = self.started(*words, **more)
        out, said = child.communicate(given, timeout=300)
        assert "Traceback" not in said, said
        return child.returncode, out, said

    def gives(self, *words, **more):
        """What comes of an order that has to succeed."""
        status, out, said = self.ctl(*words, **more)
        assert status == 0, f"{words}: status {status}: {said}"
        return out.strip()

    def refuses(self, wanted, why, *words, **more):
        """An order that ends with this status, tells nothing but why, and says this of it."""
        status, out, said = self.ctl(*words, **more)
        assert (status, out) == (
            wanted,
            "",
        ) and why in said, f"{words}: status {status}: {out}{said}"

    def fleet(self, count, form="dev-{:05}", first=1):
        """So many devices, and their ids."""
        names = [form.format(it) for it in range(first, first + count)]
        rows = "".join(f"{it},Pump,tok-{it},lab\n" for it in names)
        self.ask("POST", "/desk/v1/import", f"controllerid,name,token,tags\n{rows}")
        return names

    def firmware(self, version="1"):
        """A set of one module with a file, and its number."""
        (module,) = self.ask(
            "POST", "/rest/v1/softwaremodules", [{"name": "os", "type": "os", "version": version}]
        )
        path = f"/rest/v1/softwaremodules/{module['id']}/artifacts?filename=firmware.bin"
        self.ask("POST", path, f"firmware {version}")
        wanted = [{"name": "os", "version": version, "modules": [{"id": module["id"]}]}]
        return self.ask("POST", "/rest/v1/distributionsets", wanted)[0]["id"]

    def rollout(
        self, name="spring", text="name==*", groups=1, success=100, error=100, started=True
    ):
        """A rollout of firmware of its own, and its number."""
        plan = {"name": name, "distributionSetId": self.firmware(name), "targetFilterQuery": text}
        plan["amountGroups"] = groups
        for key, value in (("successCondition", success), ("errorCondition", error)):
            plan[key] = {"condition": "THRESHOLD", "expression": str(value)}
        number = self.ask("POST", "/rest/v1/rollouts", plan)["id"]
        if started:
            self.ask("POST", f"/rest/v1/rollouts/{number}/start")
        return number

    def rows(self, rollout):
        """The rows of a rollout's table of actions."""
        table = self.ask("GET", f"/desk/v1/rollouts/{rollout}/actions").splitlines()[1:]
        return [dict(zip(("action", "id", "group", "state"), it.split(","))) for it in table]

    def states(self, rollout):
        return [it["state"] for it in self.rows(rollout)]

    def offered(self, name):
        """The kind and the action that a device is told of at a poll."""
        links = self.call("GET", f"/DEFAULT/controller/v1/{name}", token=f"tok-{name}")[1]["_links"]
        return next(
            ((kind, int(it["href"].rpartition("/")[2])) for kind, it in links.items()), None
        )

    def report(self, name, finished, *details, execution="closed"):
        """A device reports on what it is offered."""
        kind, action = self.offered(name)
        path = f"/DEFAULT/controller/v1/{name}/{kind}/{action}/feedback"
        answer = self.call("POST", path, status(execution, finished, *details), f"tok-{name}")
        assert answer[0] == 200, answer


class Relay:
    """A line to a port, over TCP or a socket of the machine. It counts the requests that go up, and their bytes, and
    does something in place of the so-many-th: what that answers goes up instead, and nothing ends the line.
    """

    def __init__(self, port, at=None, then=None, path=None):
        self.to, self.at, self.then, self.requests, self.up = port, at, then, 0, 0
        if path:
            self.listener = socket.socket(socket.AF_UNIX)
            self.listener.bind(str(path))
            self.listener.listen()
        else:
            self.listener = socket.create_server((HOST, 0))
            self.url = f"http://{HOST}:{self.listener.getsockname()[1]}"
        threading.Thread(target=self.accept, daemon=True).start()

    def accept(self):
        while True:
            try:
                near = self.listener.accept()[0]
            except OSError:
                return
            far = socket.create_connection((HOST, self.to))
            threading.Thread(target=self.carry, args=(near, far, self.watched), daemon=True).start()
            threading.Thread(
                target=self.carry, args=(far, near, lambda it: it), daemon=True
            ).start()

    def watched(self, piece):
        """A client asks one thing after the other, so a piece has at most one head."""
        self.up += len(piece)
        if re.search(rb"(GET|POST|PUT|DELETE) \S+ HTTP/1.1\r\n", piece):
            self.requests += 1
            if self.requests == self.at:
                return self.then(piece)
        return piece

    @staticmethod
    def carry(source, sink, watched):
        try:
            while (piece := source.recv(65536)) and (piece := watched(piece)):
                sink.sendall(piece)
        except OSError:
            pass
        for it in (source, sink):
            try:
                it.shutdown(socket.SHUT_RDWR)
            except OSError:
                pass
            it.close()

    def end(self):
        """Nobody is taken any more. (Closed alone, the one that is waited for would still be taken.)"""
        self.listener.shutdown(socket.SHUT_RDWR)
        self.listener.close()


class Proxy:
    """Both HAProxys as deploy has them, with TLS, a login, the table of devices and the brake, before a test's desk; and
    the port of this machine alone. `how` is what the one before the desk is started with, which has the holds; by itself
    it is one process."""

    def __init__(self, env, how=("-db",)):
        needs("haproxy", "openssl")
        self.edge = edge = Edge(env.folder, env.port, password=PASSWORD)
        self.port, self.near, self.socket = edge.port, edge.local_port, edge.admin
        self.brake_socket = edge.run / "fwdesk-brake.sock"
        edge.more["FWDESK_LOCAL_PORT"] = str(self.near)
        own = [f"{key}={it}" for key, it in edge.environment.items() if key.startswith("FWDESK_")]
        program = packages.found("haproxy")
        # (what each word before the files means is Edge's: `haproxy -W -S SOCKET`)
        self.words = ["env", *own, program, *how, *edge.desks_words()[4:]]
        self.child = env.processes.start("desks", self.words)
        desks = edge.run / "haproxy-desks/desks.sock"
        eventually("HAProxy before the desk", desks.exists, child=self.child)
        words = ["env", *own, program, *edge.edge_words()[1:]]
        child = env.processes.start("haproxy", words)
        eventually("HAProxy", lambda: listens(self.port), child=child)

    @property
    def url(self):
        return f"https://localhost:{self.port}"

    def brake(self, env, programs=CLI):
        """fwdesk-brake behind its socket, as fwdesk-brake.socket has it; answers the environment that leads it here."""
        needs("systemd-socket-activate")
        masters = [env.folder / "master.sock", self.edge.run / "haproxy-desks/admin.sock"]
        held = env.folder / "held.map"
        return start_brake(env.processes, self.brake_socket, held, masters, programs)


class Adapter:
    """fwdesk-hawkbit before a test's desk, and a device that asks it."""

    def __init__(self, env):
        self.env, self.folder, self.port = env, env.folder, free_port()
        (self.folder / "firmware").mkdir()
        words = [DEPLOY.parent / "hawkbit/fwdesk-hawkbit", "--devices", "--connections", "1"]
        words += ["--desk", env.url, "--firmware", self.folder / "firmware"]
        child = env.processes.start(
            "gateway", [*map(str, words), "--listen", f"{HOST}:{self.port}"]
        )
        eventually("fwdesk-hawkbit", lambda: listens(self.port), child=child)
        self.places = ["--firmware", self.folder / "firmware"]

    def get(self, path, name):
        """What a device gets, as a status and the bytes."""
        fields = {"Authorization": f"TargetToken tok-{name}"}
        reply = http_client.ask("GET", path, fields=fields, port=self.port)
        return reply.status, reply.body
