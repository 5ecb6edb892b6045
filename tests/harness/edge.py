"""The edge as deploy/haproxy has it: both HAProxys in a folder, before a desk. Not run by itself.

No file is rewritten for a test: all places are variables of the configuration. `edits` changes a copy of the package's
files, for tests that play a wrong configuration."""

import contextlib
import os
import re
import resource
import shutil
import signal
import subprocess
import sys
from dataclasses import dataclass, field
from pathlib import Path
from typing import Callable

from harness import ROOT
from harness.processes import HOST, children, eventually, free_port, keep_priority, listens
from harness.tls import hashed, make_certificate

HAPROXY = ROOT / "deploy/haproxy"
ALL = "look,steer,approve,hold"
# each form, and the variables that make it
FORMS = {
    "single": {},
    "fleets": {"FWDESK_MANY": "1"},
    "failover": {"FWDESK_ADDRESSES": "{folder}/addresses.map", "FWDESK_NO_PAGE": "1"},
    "pod": {"FWDESK_NO_PAGE": "1", "FWDESK_NO_BRAKE": "1"},
    # a single machine whose own way in is a port besides
    "port": {"FWDESK_LOCAL_PORT": "{local_port}"},
}
FLEET = "acme"
# what the HAProxy before the desk has in its environment
MEMORY = dict(
    re.findall(r"(MALLOC_\w+)=(\d+)", (ROOT / "deploy/systemd/haproxy-desks.service").read_text())
)
# files that the edge has open at the most: two of each connection of its `maxconn`, and its own
FILES = 20_000


def leave(_: str, text: str) -> str:
    """A file of the package as it is."""
    return text


@dataclass
class Edge:
    """Both HAProxys of one form. `operators` are names with their groups, all with one password, of which a HAProxy is spared
    the effort for those of `cheap`; `more` are variables."""

    folder: Path
    behind: int
    operators: dict[str, str] = field(default_factory=lambda: {"anna": ALL})
    password: str = "a secret of anna's"
    form: str = "single"
    host: str = HOST
    more: dict[str, str] = field(default_factory=dict)
    edits: Callable[[str, str], str] = leave
    fleets: dict[str, int] | None = None
    cheap: frozenset[str] = frozenset()

    def __post_init__(self) -> None:
        self.port, self.local_port = free_port(), free_port()
        self.metrics, self.desks_metrics, self.health = free_port(), free_port(), free_port()
        self.run = self.folder / "run"
        self.local, self.devices = self.run / "fwdesk/edge.sock", self.run / "fwdesk/devices.sock"
        self.admin = self.run / "haproxy/admin.sock"
        self.master, self.desks_master = self.run / "edge-master.sock", self.run / "master.sock"
        self.held, self.log = self.folder / "held.map", self.folder / "audit"
        self.children: list[subprocess.Popen] = []
        self.write()

    def write(self) -> None:
        """The files that both read: the package's parts, and the operator's own."""
        for it in ("run/haproxy", "run/haproxy-desks", "run/fwdesk", "own", "edge", "desks"):
            (self.folder / it).mkdir(parents=True, exist_ok=True)
        self.held.touch()
        make_certificate(self.folder)
        for part in ("edge", "desks"):
            for file in sorted((HAPROXY / part).glob("*.cfg")):
                text = self.edits(f"haproxy/{part}/{file.name}", file.read_text(encoding="utf-8"))
                (self.folder / part / file.name).write_text(text)
        words = [sys.executable, ROOT / "tools/web-config", ROOT / "web"]
        web = subprocess.run(words, check=True, stdout=subprocess.PIPE, text=True).stdout
        (self.folder / "edge/50-web.cfg").write_text(self.edits("haproxy/edge/50-web.cfg", web))
        own = self.edits("haproxy/local/10-own.cfg", "global\n")
        (self.folder / "own/10-own.cfg").write_text(own)
        kinds = {cheap: hashed(self.password, "-1" if cheap else "-6") for cheap in (False, True)}
        users = "".join(
            f"    user {it} password {kinds[it in self.cheap]}\n" for it in self.operators
        )
        (self.folder / "own/20-operators.cfg").write_text(f"userlist operators\n{users}")
        may = "".join(f"{name} {groups}\n" for name, groups in self.operators.items() if groups)
        (self.folder / "own/operators.map").write_text(may)
        if self.form in ("fleets", "failover"):
            self.write_fleets()

    def write_fleets(self) -> None:
        """Of many fleets what fwdesk-fleet writes, of a cluster the map of its addresses; both have a fleet that isn't there."""
        fleets = self.fleets or {FLEET: self.behind, "other": free_port()}
        (self.folder / "addresses.map").write_text(f"{self.host} {FLEET}\n::1 {FLEET}\n")
        maps = self.folder / "maps"
        maps.mkdir(exist_ok=True)
        named = {name: groups for name, groups in self.operators.items() if groups}
        own = ",".join(f'"{it}"' for it in fleets)
        for name, lines in {
            "names": [f"{it} {it}" for it in fleets],
            "hosts": [f"{it}.desk.example {it}" for it in fleets],
            "prefixes": [f"{it}- {it}" for it in fleets],
            "operators": [f"{who}@{it} {groups}" for it in fleets for who, groups in named.items()],
            "lists": [f"{who} {own}" for who in named],
            "firsts": [f"{who} {min(fleets)}" for who in named],
        }.items():
            (maps / f"{name}.map").write_text("".join(f"{it}\n" for it in lines))
        servers = "".join(f"    server {it} {HOST}:{port}\n" for it, port in fleets.items())
        chosen = "    use-server %[var(txn.fleet)] if { always_true }\n"
        (self.folder / "servers.cfg").write_text(f"backend desks from desk\n{chosen}{servers}")

    @property
    def base(self) -> str:
        """What stands before each path that is asked at the TLS port."""
        return f"/fleets/{FLEET}" if self.form == "fleets" else ""

    @property
    def near_base(self) -> str:
        """What stands before each path that is asked by the machine's own socket."""
        return f"/fleets/{FLEET}" if self.form in ("fleets", "failover") else ""

    @property
    def environment(self) -> dict[str, str]:
        """The variables that both are started with."""
        own = {
            "FWDESK_ROOTLESS": "1",
            "FWDESK_RUN": str(self.run),
            "FWDESK_BIND": f"{self.host}:{self.port}",
            "FWDESK_CERTIFICATE": f"{self.folder}/server.pem",
            "FWDESK_OPERATORS": f"{self.folder}/own/operators.map",
            "FWDESK_MAPS": f"{self.folder}/maps",
            "FWDESK_HELD": str(self.held),
            "FWDESK_SERVER": f"{HOST}:{self.behind}",
            "FWDESK_METRICS": f"{HOST}:{self.metrics}",
            "FWDESK_DESKS_METRICS": f"{HOST}:{self.desks_metrics}",
            **FORMS[self.form],
            **({"FWDESK_HEALTH": f"{HOST}:{self.health}"} if self.form == "pod" else {}),
            **self.more,
        }
        places = {"folder": self.folder, "local_port": self.local_port}
        return os.environ | {key: it.format(**places) for key, it in own.items()}

    def desks_words(self) -> list[str]:
        """The HAProxy before the desks, as haproxy-desks.service starts it."""
        servers = ["-f", str(self.folder / "servers.cfg")] if self.named else []
        parts = ["-f", str(self.folder / "own"), "-f", str(self.folder / "desks"), *servers]
        return ["haproxy", "-W", "-S", str(self.desks_master), *parts]

    def edge_words(self) -> list[str]:
        """The edge, as haproxy.service starts it."""
        parts = ["-f", str(self.folder / "own"), "-f", str(self.folder / "edge")]
        return ["haproxy", "-W", "-S", str(self.master), *parts]

    @property
    def named(self) -> bool:
        """Whether requests are for a fleet that has a name."""
        return self.form in ("fleets", "failover")

    def refused(self) -> str:
        """What HAProxy says against the files of either, a warning too, or nothing."""
        told = ""
        for words in (self.desks_words(), self.edge_words()):
            ran = subprocess.run(
                [*words, "-c", "-dW"], env=self.environment, capture_output=True, text=True
            )
            told += ran.stdout + ran.stderr if ran.returncode else ""
        return told

    def start(self) -> "Edge":
        """Starts both, and waits until they listen."""
        self.desks = self.begin("desks", self.desks_words(), self.run / "haproxy-desks/desks.sock")
        self.edge = self.begin("edge", self.edge_words(), self.local)
        return self

    def begin(self, name: str, words: list[str], path: Path) -> subprocess.Popen:
        """Starts one, which makes a socket. The edge tells its audit on standard output, and both whatever else on standard
        error, which is the file of its name."""
        # one that was killed leaves its socket
        path.unlink(missing_ok=True)
        own = self.folder / f"{name}.log"
        with open(self.log, "ab") as audit, open(own, "ab") as told:
            child = subprocess.Popen(
                words,
                env=self.environment | (MEMORY if name == "desks" else {}),
                stdout=audit,
                stderr=told,
                start_new_session=True,
            )
        self.children.append(child)
        keep_priority(child)
        child.log = own  # type: ignore[attr-defined]
        is_there = lambda: path.exists() and (name != "edge" or self.is_open())
        eventually(f"the {name}'s {path.name}", is_there, child=child, pause=0.02)
        return child

    def is_open(self) -> bool:
        """Whether somebody listens to the TLS port."""
        return listens(self.port) if self.host == HOST else True

    def workers(self, master: subprocess.Popen) -> list[int]:
        """The processes that a master has started."""
        return sorted(children(master.pid))

    def memory(self, master: subprocess.Popen) -> int:
        """Resident memory of a master's processes, in bytes."""
        pages = 0
        for it in self.workers(master):
            # (one of before a reload may end meanwhile)
            with contextlib.suppress(FileNotFoundError, ProcessLookupError):
                pages += int(Path(f"/proc/{it}/statm").read_text().split()[1])
        return pages * resource.getpagesize()

    def reload(self) -> None:
        """Reloads the edge, as `systemctl reload haproxy` does."""
        before = self.workers(self.edge)
        self.edge.send_signal(signal.SIGUSR2)
        is_new = lambda: set(self.workers(self.edge)) - set(before)
        eventually("the edge's reload", is_new, pause=0.02)

    def audit(self) -> list[str]:
        """The lines of the audit so far."""
        return [
            it
            for it in self.log.read_text(errors="replace").splitlines()
            if it.startswith("audit ")
        ]

    def journal(self) -> str:
        """The end of what both have said."""
        logs = (self.folder / f"{it}.log" for it in ("edge", "desks"))
        return "\n".join(it.read_text(errors="replace")[-900:] for it in logs if it.exists())

    def end(self) -> None:
        """Ends both, with all that they started."""
        for it in self.children[::-1]:
            try:
                os.killpg(it.pid, signal.SIGKILL)
            except ProcessLookupError:
                pass
            it.wait()
        self.children.clear()


def may_open_files() -> bool:
    """Whether this process, and what it starts, may have as many files open as the edge; root is allowed to allow it."""
    soft, hard = resource.getrlimit(resource.RLIMIT_NOFILE)
    if hard != resource.RLIM_INFINITY and hard < FILES:
        try:
            resource.setrlimit(resource.RLIMIT_NOFILE, (soft, FILES))
        except (OSError, ValueError):
            return False
    return True


def missing() -> str:
    """What HAProxy, or a test of it, needs and this machine hasn't."""
    lacks = [it for it in ("haproxy", "openssl") if not shutil.which(it)]
    if not may_open_files():
        lacks.append(f"limit of {FILES} open files (ulimit -Hn)")
    return lacks[0] if lacks else ""


def is_there() -> bool:
    """Whether HAProxy and what a test of it needs are here."""
    return not missing()
