"""Timers of systemd, each of which says in a line of its own what it is for; and the book of what came of them."""
import contextlib
import json
import os
import re
import subprocess
from collections.abc import Iterator
from pathlib import Path
from typing import Any

from fwdesk_ctl.atomic import alone, placed, synced
from fwdesk_ctl.errors import NotDone
from fwdesk_ctl.terminal import make_printable

UNITS = Path(os.environ.get("FWDESK_UNITS") or "/etc/systemd/system")
BOOK = Path(os.environ.get("FWDESK_CLOCK") or "/var/lib/fwdesk-clock")
SECONDS = 120  # for one command of systemctl
WAITS = 60  # seconds for somebody else who changes the book
EMPTY = {"last": 0, "begun": {}, "counts": {}, "ended": []}


def run_systemctl(*words: str) -> subprocess.CompletedProcess[str]:
    """systemctl as it ended, with its output. NotDone where it isn't there, or takes too long."""
    try:
        return subprocess.run(
            ["systemctl", *words], capture_output=True, text=True, timeout=SECONDS
        )
    except OSError as error:
        raise NotDone(f"timers are kept by systemd: systemctl: {error.strerror}") from None
    except subprocess.TimeoutExpired:
        raise NotDone(f"systemctl {' '.join(words)}: no answer within {SECONDS} s") from None


def systemctl(*words: str, must: bool = True) -> str:
    """What systemctl prints. NotDone where it fails, if it must not."""
    ran = run_systemctl(*words)
    if must and ran.returncode:
        raise NotDone(f"systemctl {' '.join(words)}: {(ran.stderr or ran.stdout).strip()}")
    return ran.stdout


def is_time(text: str) -> bool:
    """Whether systemd reads a calendar time as one."""
    words = ["systemd-analyze", "calendar", "--iterations=1", text]
    return subprocess.run(words, capture_output=True).returncode == 0


def timers(pattern: str) -> Iterator[Any]:
    """What each of ours is for; one that ends meanwhile is none."""
    for file in sorted(UNITS.glob(pattern)):
        with contextlib.suppress(FileNotFoundError):
            text = file.read_text(encoding="utf-8")
            if told := re.search(r"^What=(.*)$", text, re.M):
                yield json.loads(told[1])


def format_timer(about: str, times: list[str], service: str, what: Any) -> str:
    """The text of a timer's unit. Its last section is for us alone: systemd passes over one that begins with X-."""
    lines = [
        "# written by fwdesk-ctl, which reads its last line",
        "[Unit]",
        f"Description={make_printable(about).replace('%', '%%')}",
        "",
        "[Timer]",
        *(f"OnCalendar={it}" for it in times),
        "Persistent=true",
        "OnActiveSec=0",
        "AccuracySec=1s",
        f"Unit={service}",
        "",
        "[Install]",
        "WantedBy=timers.target",
        "",
        "[X-Fwdesk]",
        f"What={json.dumps(what)}",
        "",
    ]
    return "\n".join(lines)


def place(name: str, about: str, times: list[str], service: str, what: Any) -> None:
    """Makes a timer, or makes it again; it is kept through a reboot, and looks immediately and after each boot whether
    something is due."""
    placed(UNITS / name, [format_timer(about, times, service, what).encode()])
    systemctl("enable", "--quiet", name)
    systemctl("restart", name)


def take_away(name: str) -> None:
    """Ends a timer, and all that is kept of it. What it has started goes on."""
    systemctl("disable", "--quiet", "--now", name, must=False)
    systemctl("clean", "--what=state", name, must=False)
    (UNITS / name).unlink(missing_ok=True)
    synced(UNITS)
    systemctl("daemon-reload", must=False)


def known() -> dict[str, Any]:
    """What is known beside the timers."""
    file = BOOK / "orders.json"
    return json.loads(file.read_text("utf-8")) if file.exists() else json.loads(json.dumps(EMPTY))


@contextlib.contextmanager
def book() -> Iterator[dict[str, Any]]:
    """The same, to be changed by one at a time; what was changed in it is on the disk afterwards. Locked where
    somebody else changes it for longer than WAITS seconds."""
    BOOK.mkdir(parents=True, exist_ok=True)
    BOOK.chmod(0o755)
    with alone(BOOK, WAITS):
        told = known()
        try:
            yield told
        finally:
            if told != known():
                placed(BOOK / "orders.json", [json.dumps(told).encode()])
