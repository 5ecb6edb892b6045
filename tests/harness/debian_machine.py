"""A Debian 12 that systemd runs in, by systemd-nspawn, for root alone. Not run by itself.

Its files are made once by debootstrap. What a test writes in it is gone with it; it has a network of its own, which
reaches nobody."""
import fcntl
import os
import re
import shutil
import signal
import subprocess
import time
import traceback
from collections.abc import Callable, Iterable
from pathlib import Path

from harness.processes import wait_for

ROOT = Path("/var/tmp/fwdesk-debian")
DOCS = Path(__file__).resolve().parents[2] / "docs"
# what it has beside its base
WITHIN = (
    "systemd,systemd-sysv,dbus,procps,curl,jq,sqlite3,python3,python3-aiohttp,haproxy,nginx-light,"
    "openssl,socat"
)
# seconds until its first process is there, until systemd is up, and for one command
FIRST, UP, COMMAND = 30, 90, 300


def make_root(root: Path = ROOT, within: str = WITHIN) -> None:
    """Makes the files, which takes some minutes, where they aren't there. Whoever else wants them waits meanwhile."""
    with open(f"{root}.lock", "w", encoding="ascii") as lock:
        fcntl.flock(lock, fcntl.LOCK_EX)
        if not root.is_dir():
            debootstrap(root, within)
    for it in ("usr/sbin/haproxy", "usr/lib/python3/dist-packages/aiohttp"):
        assert (root / it).exists(), f"{root} has no {it}: remove it"


def debootstrap(root: Path, within: str) -> None:
    """Makes a Debian with these packages; a folder that is there is whole."""
    print(f"debootstrap makes {root}, which takes some minutes", flush=True)
    unfinished = root.with_name(f"{root.name}.unfinished")
    shutil.rmtree(unfinished, ignore_errors=True)
    words = ["debootstrap", "--variant=minbase", f"--include={within}", "bookworm", unfinished]
    subprocess.run([str(it) for it in words], check=True, stdout=subprocess.DEVNULL)
    unfinished.rename(root)


def lines_of(page: str, after: str, has: str) -> list[str]:
    """The commands of a page: the indented block behind these words that has this one, a line each."""
    text = (DOCS / page).read_text(encoding="utf-8").partition(after)[2]
    blocks = re.findall(r"(?m)(?:^    .*\n)+", text)
    return [it[4:] for it in next(it for it in blocks if has in it).splitlines(keepends=True)]


def run_checks(checks: Iterable[tuple[Callable[..., None], object]]) -> tuple[int, int]:
    """Runs checks in their order, each with what it takes, and tells each; how many passed and failed."""
    passed = failed = 0
    for check, given in checks:
        began, words = time.monotonic(), " ".join((check.__doc__ or "").split())
        name = check.__name__
        try:
            check(given)
            passed += 1
            print(f"passed {name}, {time.monotonic() - began:.0f} s: {words}", flush=True)
        except (AssertionError, subprocess.SubprocessError, OSError, ValueError) as error:
            failed += 1
            # an assertion without words is told by its line
            *_, place = traceback.extract_tb(error.__traceback__)
            why = f"line {place.lineno}, {place.line}: {error}"
            print(f"FAILED {name}: {words}\n    {why}", flush=True)
    return passed, failed


class Debian:
    """The machine, from its start to its end."""

    def __init__(
        self, root: Path = ROOT, share: Path | None = None, kept: dict[str, Path] | None = None
    ):
        """`share` is a folder that it has as /media, to read; `kept` are those that it writes on this machine's disk, by
        its paths."""
        make_root(root)
        self.root, self.share, self.kept = root, share, kept or {}

    def __enter__(self):
        words = ["systemd-nspawn", "-q", "--boot", "--volatile=overlay", "--register=no"]
        words += ["--keep-unit", "--private-network", "--console=pipe"]
        # so that systemd may put a filter before its services' addresses
        words += ["--capability=CAP_BPF", "--system-call-filter=bpf"]
        words += ["-M", f"fwdesk-try-{os.getpid()}", "-D", str(self.root)]
        words += [f"--bind-ro={self.share}:/media"] if self.share else []
        words += [f"--bind={it.resolve()}:{path}" for path, it in self.kept.items()]
        self.child = subprocess.Popen(
            words,
            env={**os.environ, "SYSTEMD_NSPAWN_UNIFIED_HIERARCHY": "1"},
            stdin=subprocess.DEVNULL,
            stdout=subprocess.DEVNULL,
            stderr=subprocess.PIPE,
        )
        if not self.until(self.first_process, FIRST):
            told = self.child.stderr.read().decode() if self.child.poll() is not None else ""
            raise AssertionError(f"systemd-nspawn: {told}")
        assert self.until(self.is_up, UP), "systemd doesn't come up"
        return self

    def __exit__(self, *_):
        self.child.terminate()
        try:
            self.child.wait(timeout=60)
        except subprocess.TimeoutExpired:
            self.child.send_signal(signal.SIGKILL)
            self.child.wait()

    def first_process(self) -> str:
        """The number of its first process, where it has begun."""
        return Path(f"/proc/{self.child.pid}/task/{self.child.pid}/children").read_text().strip()

    def is_up(self) -> bool:
        return self.does("systemctl is-system-running --wait")[1] in ("running", "degraded")

    @staticmethod
    def until(holds, seconds: float):
        """Waits until something holds, and gives what it then is."""
        return wait_for(holds, seconds, 0.2)

    def journal(self) -> str:
        """The end of its journal, for a test that fails."""
        return self.does("journalctl -n 60 --no-pager")[1] if self.first_process() else ""

    def does(self, line: str, given: bytes | None = None) -> tuple[int, str]:
        """Runs a line of shell in it, and gives its status and what it says."""
        words = ["nsenter", "-t", self.first_process(), "-a", "bash", "-c", line]
        ran = subprocess.run(
            words, input=given, stdout=subprocess.PIPE, stderr=subprocess.STDOUT, timeout=COMMAND
        )
        return ran.returncode, ran.stdout.decode(errors="replace").strip()

    def gives(self, line: str, given: bytes | None = None) -> str:
        """What a line of shell says that has to succeed."""
        status, told = self.does(line, given)
        assert status == 0, f"{line}: status {status}: {told[-900:]}"
        return told


def exposure(machine: Debian, unit: str) -> float:
    """What systemd says of how much a unit leaves to its program, from 0 to 10."""
    told = machine.gives(f"systemd-analyze security {unit} | tail -1")
    return float(told.rpartition(".service: ")[2].split()[0])
