"""Tests of the units in deploy/systemd: how much each leaves to its program, and what its sockets endure."""
import re
import shutil
import subprocess
import tempfile
from pathlib import Path

from fwdesk_setup import proxy

ROOT = Path(__file__).resolve().parents[2]
UNITS = ROOT / "deploy/systemd"
GROUPS = ROOT / "debian/fwdesk.sysusers"
# of 10: what `systemd-analyze security` says of a unit without any confinement is 9.6
MOST = 4.0
# those that only ask the desk need no root
UNPRIVILEGED = ("console", "console@", "consoles", "follow", "once@")


def measure_exposure(name: str, text: str) -> float:
    """How exposed a unit is, from 0 to 10, by `systemd-analyze security`, which doesn't start it."""
    with tempfile.TemporaryDirectory() as folder:
        # (a template is looked at by an instance)
        name = name.replace("@.", "@x.")
        Path(folder, name).write_text(text)
        words = ["systemd-analyze", "security", "--offline=true", "--no-pager", f"./{name}"]
        ran = subprocess.run(words, cwd=folder, capture_output=True, text=True, check=True)
    (found,) = re.findall(r"Overall exposure level for \S+: ([0-9.]+)", ran.stdout)
    return float(found)


def test_each_service_is_confined():
    if not shutil.which("systemd-analyze"):
        print(
            "left out, since there is no systemd-analyze: how much each unit leaves to its program"
        )
        return
    texts = {it.name: it.read_text() for it in sorted(UNITS.glob("*.service"))}
    # Debian's unit has a command, and no confinement
    texts[proxy.EDGE] = f"[Service]\nExecStart=/usr/sbin/haproxy\n{proxy.CONFINED}"
    exposed = {name: measure_exposure(name, text) for name, text in texts.items()}
    assert len(exposed) > 10
    assert {name: level for name, level in exposed.items() if level >= MOST} == {}


def test_what_only_asks_the_desk_has_a_user_of_its_own():
    for name in UNPRIVILEGED:
        lines = (UNITS / f"fwdesk-{name}.service").read_text().splitlines()
        assert "DynamicUser=yes" in lines and "CapabilityBoundingSet=" in lines, name


def test_no_user_of_its_own_has_the_name_of_a_group():
    """systemd doesn't start a unit with DynamicUser whose user would be named as a group is that somebody else has made."""
    groups = set(re.findall(r"(?m)^g (\S+)", GROUPS.read_text()))
    users = {it.stem for it in UNITS.glob("*.service") if "DynamicUser=yes" in it.read_text()}
    assert len(groups) > 2 and len(users) > 5
    assert groups & users == set()


def test_no_socket_is_given_up_for_good():
    """Neither under many connections, each of which starts a service, nor where a service ends as soon as it is started."""
    units = sorted(UNITS.glob("*.socket"))
    assert len(units) > 5
    for it in units:
        assert "TriggerLimitIntervalSec=0" in it.read_text().splitlines(), it.name
