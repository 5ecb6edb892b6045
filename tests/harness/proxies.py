"""A new desk behind the real proxies with the files of deploy/, and what an operator and devices ask of it: for the web UI,
roles and certificates. Not run by itself."""
import csv
import json
import re
import resource
import ssl
import subprocess
from pathlib import Path
from types import SimpleNamespace

from harness import ROOT, http_client
from harness.desk import serving, start_brake
from harness.edge import ALL, Edge
from harness.nginx import write_frame
from harness.operators import with_operators
from harness.processes import HOST, PATIENCE, Processes, eventually, free_port, listens, terminate
from harness.tls import hashed, make_certificate

LOGIN = ("anna", "to-test-the-page")
FLEET = "acme"
# what the configuration of many fleets has, for two of them that are one desk
FLEETS = {
    r"(?m)^    http-request redirect location /page/ if open": """
    http-request return status 200 content-type application/json string \
'{"operator":"anna","fleets":["acme","other"]}' if { path /fleets }
    http-request replace-path /fleets/[^/]+/?(.*) /\\1 if { path_beg /fleets/ }
    http-request redirect location /page/ if open"""
}


class Environment:
    """A new desk behind a proxy. `operators` are those of its groups,
    and `edits` what else a keeper writes into a configuration."""

    def __init__(
        self,
        order,
        folder,
        proxy="haproxy",
        approval=False,
        limit=None,
        fleets=False,
        operators=None,
        edits=None,
    ):
        self.order, self.folder, self.approval, self.fleets = order, Path(folder), approval, fleets
        self.login = LOGIN
        self.operators, self.edits = operators or {}, edits or (lambda _, text: text)
        self.port, self.behind = free_port(), free_port()
        self.children, self.environment = [], None
        self.processes = Processes(self.folder)
        self.client = http_client.connect(self.port, trusted=http_client.trust_all())
        # the browser and the proxies read this folder as users of their own
        self.folder.chmod(0o755)
        try:
            self.server = self.serve(limit)
            self.proxy = self.start(getattr(self, proxy)(), self.port)
        except BaseException:
            self.end()
            raise

    def start(self, words, port, **how):
        child = subprocess.Popen(
            list(map(str, words)),
            stdout=open(self.folder / "said", "ab"),
            stderr=open(self.folder / "errors", "ab"),
            env=self.environment,
            **how,
        )
        self.children.append(child)
        eventually(str(words[0]), lambda: listens(port), 2 * PATIENCE, child=child)
        return child

    def serve(self, limit=None):
        more = ["--approval"] if self.approval else []
        words = serving(self.order.program, self.folder / "desk.db", self.behind, *more)
        how = (
            {
                "preexec_fn": lambda: resource.setrlimit(resource.RLIMIT_FSIZE, (limit, limit)),
                "restore_signals": False,
            }
            if limit
            else {}
        )
        return self.start(words, self.behind, **how)

    def end(self):
        self.client.close()
        self.processes.end_all()
        for it in self.children:
            terminate(it)

    def configured(self, name, changes):
        """A configuration of deploy/, for this folder and these ports; each change has to apply."""
        text = with_operators(
            (self.order.deploy / name).read_text(encoding="utf-8"), self.operators
        )
        text = self.edits(name, text)
        for old, new in changes.items():
            assert re.search(old, text), f"{name} has no {old}"
            text = re.sub(old, lambda _, it=new: it, text)
        (self.folder / name).parent.mkdir(exist_ok=True)
        (self.folder / name).write_text(text)
        return self.folder / name

    # which form of the edge it is, and which fleets that has
    form, served = "single", None

    def haproxy(self):
        """The edge before the HAProxy that has the desk, which is started here."""
        users = self.operators or {LOGIN[0]: ALL}
        self.edge = Edge(
            self.folder,
            self.behind,
            users,
            LOGIN[1],
            form=self.form,
            fleets=self.served,
            edits=self.edited,
        )
        self.edge.port = self.port
        self.environment = self.edge.environment
        self.start_at(self.edge.run / "haproxy-desks/desks.sock", self.edge.desks_words())
        return self.edge.edge_words()

    def edited(self, name, text):
        """A file of deploy/haproxy as a keeper of this test has it; each change has to apply."""
        text = self.edits(name, text)
        if self.fleets and name.endswith("20-guards.cfg"):
            for old, new in FLEETS.items():
                assert re.search(old, text), f"{name} has no {old}"
                text = re.sub(old, lambda _, it=new: it, text, count=1)
        return text

    def start_at(self, path, words):
        """Starts what listens at a path."""
        child = subprocess.Popen(
            list(map(str, words)),
            env=self.environment,
            stdout=subprocess.DEVNULL,
            stderr=open(self.folder / "errors", "ab"),
        )
        self.children.append(child)
        eventually(str(words[0]), path.exists, child=child)

    def brake(self):
        """fwdesk-brake behind its socket, as fwdesk-brake.socket has it."""
        masters = [self.edge.desks_master]
        start_brake(self.processes, self.edge.run / "fwdesk-brake.sock", self.edge.held, masters)

    def journal(self):
        """What the proxies and the program have said."""
        logs = (self.folder / it for it in ("errors", "said"))
        return "\n".join(it.read_text(errors="replace")[-2000:] for it in logs if it.exists())

    def nginx(self):
        make_certificate(self.folder)
        (self.folder / "operators").write_text(
            "".join(f"{it}:{hashed(LOGIN[1])}\n" for it in {LOGIN[0]: "", **self.operators})
        )
        part = self.configured(
            "nginx/fwdesk.conf",
            {
                r"listen 8443 ssl": f"listen {HOST}:{self.port} ssl",
                r"/etc/fwdesk": str(self.folder),
                r"127\.0\.0\.1:8080": f"{HOST}:{self.behind}",
                r"/usr/share/fwdesk/page": f"{ROOT}/web",
                r"syslog:server=unix:/dev/log,nohostname": f"{self.folder}/audit",
            },
        )
        http = "access_log off; include /etc/nginx/mime.types;"
        return write_frame(self.folder, part, http)

    def ask(self, method, path, body=None, fields=None):
        """Asks through the proxy. Answers status, fields and body."""
        if fields is None:
            fields = http_client.login(*self.login)
        try:
            return self.once(method, path, body, fields)
        except (ConnectionError, ssl.SSLError):
            # the kept connection was closed in the meantime
            self.client.close()
            return self.once(method, path, body, fields)

    def once(self, method, path, body, fields):
        reply = http_client.exchange(self.client, method, path, body, fields)
        return reply.status, reply.fields, reply.body

    def api(self, method, path, body=None):
        status, _, told = self.ask(method, path, body)
        assert status in (200, 201), f"{method} {path}: {status} {told[:200]}"
        return json.loads(told)

    def fleet(self, count, more=""):
        """A module, a set and so many devices."""
        self.api(
            "POST", "/rest/v1/softwaremodules", [{"name": "app", "type": "os", "version": "1.0"}]
        )
        self.api(
            "POST",
            "/rest/v1/distributionsets",
            [{"name": "r2", "version": "1.0", "modules": [{"id": 1}]}],
        )
        rows = "".join(f"dev-{k:05},Device {k},tok-dev-{k:05},lab\n" for k in range(1, count + 1))
        self.api("POST", "/desk/v1/import", f"controllerid,name,token,tags\n{rows}{more}")

    def asked(self, path, fields):
        """What somebody with these fields is answered."""
        status, _, told = self.ask("GET", path, fields=fields)
        assert status == 200, (path, status, told)
        return json.loads(told)

    def actions(self, rollout=1):
        """The table of a rollout's actions."""
        return list(
            csv.DictReader(
                self.ask("GET", f"/desk/v1/rollouts/{rollout}/actions")[2].decode().splitlines()
            )
        )

    def plan(self, name="spring", groups=3, success=50, error=50, start=True, set=1):
        condition = lambda percent: {"condition": "THRESHOLD", "expression": str(percent)}
        plan = {
            "name": name,
            "distributionSetId": set,
            "targetFilterQuery": "name==*",
            "amountGroups": groups,
        }
        made = self.api(
            "POST",
            "/rest/v1/rollouts",
            plan | {"successCondition": condition(success), "errorCondition": condition(error)},
        )
        if start:
            self.api("POST", f"/rest/v1/rollouts/{made['id']}/start")
        return made

    def report(self, action, word, details=(), execution="closed", number=None):
        device = f"dev-{action:05}"
        body = {
            "status": {
                "execution": execution,
                "result": {"finished": word},
                "details": list(details),
            },
            **({"number": number} if number else {}),
        }
        path = f"/DEFAULT/controller/v1/{device}/deploymentBase/{action}/feedback"
        told = self.ask("POST", path, body, {"Authorization": f"TargetToken tok-{device}"})
        assert told[0] == 200, told

    def address(self, place=""):
        return f"https://{HOST}:{self.port}/page/{place}"


class Fleets(Environment):
    """A desk that is one of two fleets. The other one's isn't there, since nothing is to come so far."""

    form = "fleets"

    @property
    def served(self):
        return {FLEET: self.behind, "other": free_port()}

    def once(self, method, path, body, fields):
        return super().once(
            method, path if path.startswith("http") else f"/fleets/{FLEET}{path}", body, fields
        )


# each topology: its environment, and by which proxy that is
TOPOLOGIES = {
    "haproxy": (Environment, "haproxy"),
    "nginx": (Environment, "nginx"),
    "fleets": (Fleets, "haproxy"),
}


def topology(name, order, folder, **ways):
    """A new desk behind a topology."""
    made, proxy = TOPOLOGIES[name]
    return made(
        SimpleNamespace(program=order.program, deploy=ROOT / "deploy"), folder, proxy, **ways
    )
