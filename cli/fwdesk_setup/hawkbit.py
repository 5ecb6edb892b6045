"""The doors for hawkBit's clients: of devices nginx on port 8444, of pipelines HAProxy on port 8445, each with a service behind."""
import re
import secrets
import shutil
from pathlib import Path

from fwdesk_setup import places
from fwdesk_setup.errors import NotDone, Refused
from fwdesk_setup.files import point_to, write_whole
from fwdesk_setup.run import output_of, run, systemctl

SOCKET, SERVICE = "fwdesk-hawkbit.socket", "fwdesk-hawkbit.service"
UNITS = (SOCKET, "nginx.service")
# the package's own file, so an upgrade brings another one
CONFIGURATION = places.SHARE / "nginx/hawkbit-polls.conf"
LINK = places.ROOT / "etc/nginx/conf.d/fwdesk-hawkbit.conf"
# large images, which operators may put there
FIRMWARE = places.ROOT / "srv/firmware"
MANAGE_SOCKET, MANAGE_SERVICE = "fwdesk-hawkbit-manage.socket", "fwdesk-hawkbit-manage.service"
# what HAProxy's part for pipelines heeds, in a file of its own, so that it is taken away whole
SWITCH = """# written by fwdesk-setup --hawkbit-manage: hawkBit's Management API (docs/HAWKBIT.md). fwdesk-setup --undo takes it away
global
    setenv FWDESK_HAWKBIT_MANAGE 1
    setenv FWDESK_HAWKBIT_BIND :8445
"""
BIND = re.compile(r"(?m)^\s*setenv\s+FWDESK_HAWKBIT_BIND\s+\S*:([0-9]+)\s*$")


def switch() -> Path:
    return places.OWN / "15-hawkbit-manage.cfg"


def key() -> Path:
    """The key that makes the tokens of targets which come without one."""
    return places.ETC / "hawkbit.key"


def refuse_many_fleets() -> None:
    """Refuses a machine of many fleets, which a look from outside by this command's own way doesn't fit."""
    own = "\n".join(it.read_text(encoding="utf-8") for it in sorted(places.OWN.glob("*.cfg")))
    if re.search(r"(?m)^\s*(preset|set)env\s+FWDESK_(MANY|ADDRESSES)\b", own):
        raise Refused(
            "--hawkbit-manage: this machine has many fleets. Write the switch by hand, by the lines of "
            "docs/HAWKBIT.md"
        )


def refuse_missing(unit: str) -> None:
    """Refuses a machine without what the service behind a door is made of."""
    if run("systemctl", "cat", unit)[0]:
        raise Refused(f"{unit}: not there. It is of the package fwdesk-hawkbit: install that first")


def refuse_missing_nginx() -> None:
    if not shutil.which("nginx"):
        raise Refused("nginx: not there. apt install nginx-light")
    if not CONFIGURATION.exists():
        raise Refused(f"{CONFIGURATION}: not there; the package isn't whole")


def make_firmware() -> bool:
    """Makes the folder of large images; tells whether it wasn't there."""
    if FIRMWARE.exists():
        return False
    FIRMWARE.mkdir()
    shutil.chown(FIRMWARE, group="fwdesk-firmware")
    FIRMWARE.chmod(0o2775)
    return True


def enable() -> bool:
    """Opens the door of devices now and at each boot; tells whether it was shut."""
    if LINK.is_symlink() and all(systemctl("is-active", "-q", it) for it in UNITS):
        return False
    make_firmware()
    output_of("systemctl", "enable", "-q", "--now", SOCKET)
    point_to(LINK, str(CONFIGURATION))
    status, said = run("nginx", "-t")
    if status:
        LINK.unlink()
        raise NotDone(
            f"nginx doesn't take {CONFIGURATION}, which is taken out again:\n{said[-600:]}"
        )
    output_of("systemctl", "enable", "-q", UNITS[1])
    output_of("systemctl", "reload-or-restart", UNITS[1])
    return True


def open_management() -> bool:
    """Opens the door of pipelines, now and at each boot, but for HAProxy, which has to read the switch; tells whether anything
    changed. A key that is there stays, and so does a switch: its port is the operator's."""
    changed = make_firmware()
    if not key().exists():
        changed = write_whole(key(), f"{secrets.token_hex(32)}\n", 0o600) or changed
    if not switch().exists():
        changed = write_whole(switch(), SWITCH) or changed
    if all(systemctl(it, "-q", MANAGE_SOCKET) for it in ("is-active", "is-enabled")):
        return changed
    output_of("systemctl", "enable", "-q", "--now", MANAGE_SOCKET)
    return True


def management_port() -> int | None:
    """The port of pipelines; None where their door is shut."""
    if not switch().is_file():
        return None
    found = BIND.search(switch().read_text(encoding="utf-8"))
    return int(found[1]) if found else 8445


def close_management() -> bool:
    """Shuts the door of pipelines, but for HAProxy, which has to be started anew: a reload keeps the variable. Tells whether it
    was open. The key stays, since devices have tokens of it."""
    was_open = switch().exists()
    switch().unlink(missing_ok=True)
    systemctl("disable", "-q", "--now", MANAGE_SOCKET)
    systemctl("stop", MANAGE_SERVICE)
    return was_open


def close() -> None:
    """Shuts the door of devices, where it leads to the package's own file."""
    if not LINK.is_symlink():
        return
    LINK.unlink()
    systemctl("try-reload-or-restart", UNITS[1])
    systemctl("disable", "-q", "--now", SOCKET)
    systemctl("stop", SERVICE)
