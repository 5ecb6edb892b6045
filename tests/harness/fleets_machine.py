"""A Debian of its own with many fleets, as deploy/haproxy and fwdesk-fleet have them, for tests/e2e/fleets/run and bench/fleets;
not run by itself.

The package is installed there as on any machine, systemd starts the units, and both HAProxys run from the committed
files. What asks them is the script itself, which moves into that Debian's network."""
import ctypes
import json
import multiprocessing
import os
import random
import signal
import sys
import tempfile
import time
from pathlib import Path

from as_module import as_module
from harness import ROOT, http_client
from harness.crowd import Client, Crowd
from harness.debian_machine import ROOT as DEBIANS
from harness.debian_machine import Debian, lines_of, make_root

CLONE_NEWNET = 0x40000000
# the Debian of tests/e2e/hawkbit, which has what its services need besides
DEBIAN = DEBIANS.with_name("fwdesk-hawkbit-debian")
RECORDS = "/var/lib/private/fwdesk-fleets"
# ports, of which the third is the one of pipelines written for hawkBit
TLS, LOCAL, PIPELINES = 8443, 8081, 8445
NAME, SECRET = "desk.example", "secret"
# beside what docs/FLEETS.md sets up: the port of this machine that the checks ask, and passwords in plain words, so that
# thousands of logins are asked in seconds
OWN = """
cd /etc/fwdesk/haproxy.d && echo '127.0.0.1 {name}' >> /etc/hosts
sed -i 's|^global$|&\\n    setenv FWDESK_LOCAL_PORT {port}|' 10-own.cfg
printf 'userlist operators\\n{users}' > 20-operators.cfg
systemctl restart haproxy
"""
BASE = "/DEFAULT/controller/v1"
# the longest that clients poll, in seconds: longer than any check takes on a busy machine
LONGEST = 7200


package = as_module(ROOT / "tools/package")


def fleet(number):
    return f"f{number:02}"


def device(name, number):
    return f"{name}-{number:05}"


def poll(name, way, number, tls=False):
    """The bytes of a poll, by one of the ways in which a request is led to its fleet,
    and as a device of that way's id."""
    path, host = {
        "path": (f"/fleets/{name}", "localhost"),
        "host": ("", f"{name}.desk.example"),
        "prefix": ("", "localhost"),
    }[way]
    id = device(name, number)
    return f"GET {path}{BASE}/{id} HTTP/1.1\r\nHost: {host}\r\nAuthorization: TargetToken tok-{id}\r\n\r\n".encode()


def report(name, number, action, said):
    """The bytes of a device's report on an action, led to its fleet by its id."""
    own = device(name, number)
    head = f"POST {BASE}/{own}/deploymentBase/{action}/feedback HTTP/1.1\r\nHost: localhost\r\n"
    fields = f"Authorization: TargetToken tok-{own}\r\nContent-Length: {len(said)}\r\n\r\n"
    return f"{head}{fields}{said}".encode()


WAYS = ("path", "host", "prefix")
# at the machine's own port, which answers to the machine's own names alone
NEAR_WAYS = ("path", "prefix")

# makes the files of fleets f01, f02 .., each with so many devices
MAKE = """
import os, pathlib, subprocess, sys
fleets, devices = map(int, sys.argv[1:])
os.umask(0o077)
for number in range(1, fleets + 1):
    name = f"f{number:02}"
    folder = pathlib.Path("/var/lib/private/fwdesk-fleets", name)
    folder.mkdir(parents=True)
    ids = [f"{name}-{it:05}" for it in range(1, devices + 1)]
    pathlib.Path("/tmp/fleet.csv").write_text("controllerid,name,token,tags\\n" + \
"".join(f"{it},{it},tok-{it},\\n" for it in ids))
    subprocess.run(["fwdesk", "import", "--db", folder / "desk.db", "--file", "/tmp/fleet.csv"], check=True, \
stdout=subprocess.DEVNULL)
    pathlib.Path("/etc/fwdesk/fleets", name + ".program").symlink_to("/usr/bin/fwdesk")
    conf = f'PORT={20000 + number}\\nHOSTS="{name}.desk.example"\\nPREFIXES="{name}-"\\nOPERATORS="anna"\\n'
    pathlib.Path("/etc/fwdesk/fleets", name + ".conf").write_text(conf)
"""


class Machine(Debian):
    """The Debian with the package and both proxies, and this process within its network."""

    def __init__(self, root, program, operators, records=None):
        """`records` is an empty folder of this machine's disk for the fleets' files, which are in memory otherwise."""
        make_root(root)
        super().__init__(root, kept={RECORDS: records} if records else {})
        self.program, self.operators = program, operators

    def __enter__(self):
        # so that nothing is left where it is ended
        signal.signal(signal.SIGTERM, lambda *_: sys.exit(1))
        super().__enter__()
        try:
            self.install()
        except BaseException:
            self.__exit__(None, None, None)
            raise
        return self

    def install(self):
        """The packages, and the lines of docs/FLEETS.md, all but that of the first fleet."""
        with tempfile.TemporaryDirectory(prefix="fwdesk-fleets-") as out:
            for it in package.make(self.program, Path(out), quick=True):
                self.gives(f"cat > /root/{it.name}", it.read_bytes())
        self.gives("dpkg -i /root/*.deb")
        lines = lines_of("FLEETS.md", "## Set it up", "fwdesk-setup")
        self.gives(
            "set -e\n" + "".join(it for it in lines if not it.startswith("fwdesk-fleet add "))
        )
        users = "".join(f"    user {it} insecure-password {SECRET}\\n" for it in self.operators)
        self.gives("set -e" + OWN.format(name=NAME, port=LOCAL, users=users))
        self.enter_network()

    def enter_network(self):
        with open(f"/proc/{self.first_process()}/ns/net") as it:
            assert (
                ctypes.CDLL(None, use_errno=True).setns(it.fileno(), CLONE_NEWNET) == 0
            ), os.strerror(ctypes.get_errno())

    def add(self, name, *words):
        """A fleet that is led by each of the three ways; the beginning of its devices' ids is its name's."""
        self.gives(
            f"fwdesk-fleet add {name} --host {name}.desk.example --prefix {name}- {' '.join(words)}"
        )

    def make(self, fleets, devices):
        """So many fleets with their devices at once, by their files and one call of fwdesk-fleet:
        additions one by one take their time."""
        self.gives("cat > /tmp/make.py", MAKE.encode())
        self.gives(f"python3 /tmp/make.py {fleets} {devices} && fwdesk-fleet settle")

    def fill(self, name, devices):
        """Its devices, as one import."""
        rows = "".join(
            f"{it},{it},tok-{it},\n"
            for it in (device(name, number) for number in range(1, devices + 1))
        )
        status, said = ask(
            "POST", f"/fleets/{name}/desk/v1/import", f"controllerid,name,token,tags\n{rows}"
        )
        assert status == 200, (status, said)

    def offers(self, name, size):
        """A rollout of an artifact of so many bytes to all of its devices."""
        own = f"/fleets/{name}/rest/v1"
        half = {"condition": "THRESHOLD", "expression": "100"}
        plan = {
            "name": "r",
            "distributionSetId": 1,
            "targetFilterQuery": "name==*",
            "amountGroups": 1,
            "successCondition": half,
            "errorCondition": half,
        }
        for path, body in (
            ("softwaremodules", [{"name": "app", "type": "os", "version": "1"}]),
            ("softwaremodules/1/artifacts?filename=app.bin", bytes(size)),
            ("distributionsets", [{"name": "s", "version": "1", "modules": [{"id": 1}]}]),
            ("rollouts", plan),
        ):
            status, said = ask(
                "POST", f"{own}/{path}", body if isinstance(body, bytes) else json.dumps(body)
            )
            assert status == 201, (path, status, said)

    def admin(self, socket, order):
        """What a HAProxy answers to an order."""
        line = (
            "import socket; s = socket.socket(socket.AF_UNIX); s.connect('%s'); s.sendall(b'%s\\n'); "
            "print(s.makefile().read())"
        )
        return self.gives(f'python3 -c "{line % (socket, order)}"')

    def worker(self, socket):
        """The number of the process that a HAProxy serves with."""
        return next(
            it for it in self.admin(socket, "show info").splitlines() if it.startswith("Pid:")
        )


def ask(method, path, body=None, port=LOCAL, user=None, **fields):
    """Asks once, through the port without TLS and logins where nothing else is said,
    and gives the status and the body."""
    trusted = http_client.trust_all() if port in (TLS, PIPELINES) else None
    own = {key.replace("_", "-"): value for key, value in fields.items()}
    if user:
        own["Authorization"] = login(user)
    reply = http_client.ask(method, path, body, own, port=port, trusted=trusted)
    return reply.status, reply.body.decode(errors="replace")


def login(user, password=SECRET):
    return http_client.login(user, password)["Authorization"]


def requests(names, devices, stop):
    """Polls of any of these fleets at the machine's own port, until it is told to stop."""
    chance = random.Random(0)
    while not stop.is_set():
        yield poll(chance.choice(names), chance.choice(NEAR_WAYS), chance.randint(1, devices))


def crowd(names, devices, clients, stop, tell):
    """So many clients over kept connections, in a process of their own."""
    alike = requests(names, devices, stop)
    them = Crowd(LOCAL, [Client("127.0.200.1", alike) for _ in range(clients)])
    waiting = them.run(LONGEST)
    them.waits.sort()
    tell.send(
        (
            dict(them.told),
            waiting,
            them.late(),
            them.waits[-1] if them.waits else 0.0,
            len(them.waits),
        )
    )


class Polls:
    """Clients that poll these fleets for as long as a `with` lasts, and what they were told: statuses, and waits in
    milliseconds and seconds."""

    def __init__(self, names, devices, clients):
        self.stop = multiprocessing.Event()
        self.hear, tell = multiprocessing.Pipe(duplex=False)
        self.process = multiprocessing.Process(
            target=crowd, args=(names, devices, clients, self.stop, tell)
        )

    def __enter__(self):
        self.process.start()
        self.began = time.monotonic()
        time.sleep(0.5)
        return self

    def __exit__(self, *_):
        self.seconds = time.monotonic() - self.began
        self.stop.set()
        self.told, self.unanswered, self.late, self.longest, self.answered = self.hear.recv()
        self.process.join()

    def whole(self):
        """Whether each poll was answered, and each answer was 200."""
        return not self.unanswered and set(self.told) == {"200"}

    def __str__(self):
        rate = self.answered / self.seconds
        return (
            f"{rate:.0f} polls a second, 99 of 100 within {self.late:.1f} ms, "
            f"the longest {self.longest * 1000:.0f} ms, told {self.told}"
        )
