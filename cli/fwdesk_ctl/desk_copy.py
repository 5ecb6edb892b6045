"""Copies of the database: consistent, in one file, and verified by the program."""
import contextlib
import shutil
import sqlite3
import subprocess
import time
from pathlib import Path

from fwdesk_ctl.errors import NotDone, Wrong
from fwdesk_ctl.standstill import standing_still

UNIT, LOG = "fwdesk.service", "-wal"


def log_of(desk: Path) -> Path:
    """The log beside a desk's file, which has what was committed last."""
    return desk.with_name(desk.name + LOG)


def systemctl(*words: str, must: bool = True) -> str:
    """What systemctl says; it has to do it where it must."""
    try:
        ran = subprocess.run(["systemctl", *words], capture_output=True, text=True, timeout=300)
    except (OSError, subprocess.TimeoutExpired) as error:
        raise NotDone(f"systemctl {' '.join(words)}: {error}") from None
    if must and ran.returncode:
        raise NotDone(f"systemctl {' '.join(words)}: {(ran.stderr or ran.stdout).strip()}")
    return ran.stdout.strip()


def main_pid() -> int:
    """The process of the service, or 0 where it doesn't run."""
    told = systemctl("show", "--property=MainPID", "--value", UNIT, must=False)
    return int(told) if told.isdecimal() else 0


def program(*words: str) -> subprocess.CompletedProcess:
    try:
        return subprocess.run(["fwdesk", *words], capture_output=True, text=True)
    except OSError as error:
        raise NotDone(f"fwdesk: {error.strerror}") from None


def version() -> str:
    """The program's own version, which it tells with status 2."""
    ran = program("--version")
    return (ran.stderr or ran.stdout).strip().splitlines()[-1]


def merge(desk: Path) -> None:
    """Brings the log into the file and takes it away, so that one file has all; nothing may have it open."""
    try:
        with contextlib.closing(sqlite3.connect(desk)) as link:
            busy = link.execute("PRAGMA wal_checkpoint(TRUNCATE)").fetchone()[0]
    except sqlite3.Error as error:
        raise NotDone(f"{desk}: {error}") from None
    if busy or log_of(desk).exists():
        raise NotDone(f"{desk} is open elsewhere: its log isn't taken in")


def verify(desk: Path) -> None:
    """Has the program look at each row; raises NotDone where the file isn't whole."""
    ran = program("verify", "--db", str(desk))
    if ran.returncode or ran.stdout.strip().splitlines()[-1:] != ["ok"]:
        told = ran.stdout.strip() or ran.stderr.strip().splitlines()[-1:] or ["nothing"]
        raise NotDone(f"fwdesk verify says of {desk}: {told if isinstance(told, str) else told[0]}")
    merge(desk)


def warm(file: Path) -> None:
    """Reads a file once, so that the copy of it is short."""
    with open(file, "rb") as it:
        while it.read(1 << 20):
            pass


def copy_pair(desk: Path, to: Path) -> float:
    """Copies the file and its log while the service stands still; gives the seconds that this took."""
    if not desk.is_file() or not desk.stat().st_size:
        raise Wrong(f"there is no desk: {desk} is missing or empty")
    pair = [it for it in (desk, log_of(desk)) if it.exists()]
    size, free = sum(it.stat().st_size for it in pair), shutil.disk_usage(to.parent).free
    if free < 2 * size + (16 << 20):
        raise NotDone(f"{to.parent} has {free:,} bytes left, and twice {size:,} are needed")
    for it in pair:
        warm(it)
    began = time.monotonic()
    with standing_still(main_pid()):
        shutil.copyfile(desk, to)
        if log_of(desk).exists():
            shutil.copyfile(log_of(desk), log_of(to))
    seconds = time.monotonic() - began
    to.chmod(0o600)
    return seconds
