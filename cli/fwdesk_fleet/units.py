"""The fleets' units, fwdesk@NAME.service."""
import subprocess
import sys

from fwdesk_fleet import places
from fwdesk_fleet.fleets import Fleet


def systemctl(*words: str) -> tuple[bool, str]:
    """Whether systemctl did it, and what it printed."""
    ran = subprocess.run(
        ["systemctl", "-q", *words], stdout=subprocess.PIPE, stderr=subprocess.STDOUT, text=True
    )
    return ran.returncode == 0, ran.stdout


def read_state(fleet: Fleet) -> str:
    """`active`, `inactive`, `failed` .. ."""
    words = ["systemctl", "is-active", fleet.unit]
    return subprocess.run(words, stdout=subprocess.PIPE, text=True).stdout.strip()


def begin_units(all_fleets: list[Fleet]) -> None:
    """Starts and enables each unit that isn't enabled yet: an enabled one was started once, and who stopped it has a
    reason."""
    started = []
    for fleet in all_fleets:
        if (places.WANTED / fleet.unit).is_symlink():
            continue
        is_done, output = systemctl("start", fleet.unit)
        if is_done:
            started.append(fleet.unit)
        else:
            print(f"{fleet.unit}: {output}", file=sys.stderr)
    if started:
        systemctl("enable", *started)


def end_units(all_fleets: list[Fleet]) -> None:
    """Stops and disables those whose fleets aren't there any more."""
    own = {it.unit for it in all_fleets}
    listed = systemctl("list-units", "--all", "--plain", "--no-legend", "fwdesk@*.service")[1]
    there = {line.split()[0] for line in listed.splitlines()}
    there |= {it.name for it in places.WANTED.glob("fwdesk@*.service")}
    for unit in sorted(there - own):
        systemctl("disable", "--now", unit)
        systemctl("reset-failed", unit)
