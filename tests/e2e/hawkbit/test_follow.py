"""docs/DEVICES.md followed as a new user would, with Debian's swupdate: its blocks are run as they stand there, in a booted Debian,
and the device is updated. Some seven minutes, of which five are between two polls. As root; left out where systemd-nspawn, debootstrap,
debhelper or swupdate isn't there."""

import hashlib
import os
import re
import shutil
import subprocess
import time
from pathlib import Path

import pytest

from harness.debian_machine import Debian, make_root
from harness.packages import pack_image
from harness.processes import found
from harness.tls import self_sign

from . import stage
from .test_units import NAME, ROOT, lines_of

PAGE = "DEVICES.md"
IMAGE = "pump-2.1.swu"


def make_image(folder: Path) -> None:
    """A signed image that swupdate puts into a file, and the certificate of who signed it."""
    payload = stage.payload("follow", 100_000)
    described = f"""software = {{ version = "2.1"; hardware-compatibility: [ "1.0" ]; files: ( {{
        filename = "payload"; path = "/root/installed"; type = "rawfile";
        sha256 = "{hashlib.sha256(payload).hexdigest()}"; }} ); }}"""
    (folder / "sw-description").write_text(described)
    use = "extendedKeyUsage=emailProtection"
    key, crt = self_sign(folder, "signer", "/CN=signer", use, ("-newkey", "rsa:2048"))
    words = "openssl cms -sign -binary -nosmimecap -outform DER"
    files = ["-signer", str(crt), "-inkey", str(key), "-in", str(folder / "sw-description")]
    subprocess.run([*words.split(), *files, "-out", str(folder / "signed")], check=True)
    members = [("sw-description", described.encode())]
    members += [("sw-description.sig", (folder / "signed").read_bytes()), ("payload", payload)]
    (folder / IMAGE).write_bytes(pack_image(members))
    (folder / "payload").write_bytes(payload)


def copy_swupdate(folder: Path) -> None:
    """This Debian's swupdate with its libraries, for the other one, which has no network."""
    program = found("swupdate")
    told = subprocess.run(["ldd", program], check=True, capture_output=True, text=True).stdout
    (folder / "lib").mkdir()
    for it in re.findall(r"=> (/\S+)", told):
        shutil.copy(it, folder / "lib")
    shutil.copy(program, folder / "swupdate")


@pytest.fixture
def folder(tmp_path):
    lacks = [
        it for it in ("systemd-nspawn", "debootstrap", "dh", "swupdate") if not shutil.which(it)
    ]
    if lacks or os.geteuid() != 0:
        pytest.skip(f"needs root, and {', '.join(lacks) or 'nothing else'}")
    words = [stage.ROOT / "tools/package", "--out", tmp_path, "--program", stage.PROGRAM, "--quick"]
    subprocess.run([str(it) for it in words], check=True, stdout=subprocess.DEVNULL)
    make_root(ROOT)
    make_image(tmp_path)
    copy_swupdate(tmp_path)
    return tmp_path


class Steps:
    """The page's blocks in a machine, and how long each took."""

    def __init__(self, machine):
        self.machine, self.took = machine, []

    def run(self, name, words):
        began = time.monotonic()
        told = self.machine.gives(f"cd /root; set -e; {words}")
        self.took.append(f"{name}: {time.monotonic() - began:.1f} s")
        return told


# swupdate as systemd starts it: it ignores SIGPIPE. What isn't of the page is where its libraries lie
START = "systemd-run -q --unit=swupdate -E LD_LIBRARY_PATH=/opt/lib {}"


def test_three_steps_lead_to_an_updated_device(folder, capsys):
    with Debian(ROOT, folder) as machine:
        steps = Steps(machine)
        machine.gives(f"echo '127.0.0.1 {NAME} localhost' >> /etc/hosts")
        machine.gives(
            "dpkg -i /media/fwdesk_*.deb; cp -r /media/lib /opt; cp /media/swupdate /usr/bin"
        )
        began = time.monotonic()
        # step 1; apt has no network here
        lines = lines_of(PAGE, "## Step 1", "fwdesk-setup")
        assert lines.startswith("apt install nginx-light ./fwdesk-hawkbit_"), lines
        steps.run("step 1", f"dpkg -i /media/fwdesk-hawkbit_*.deb; {lines.partition(chr(10))[2]}")
        look = lines_of(PAGE, "Devices come by port 8444", "curl")
        machine.gives("cp /etc/fwdesk/ca.crt /root")
        assert machine.until(lambda: machine.gives(f"cd /root; ({look}) 2> /dev/null") == "401", 30)
        # step 2
        steps.run("step 2", lines_of(PAGE, "## Step 2", "fwdesk-ctl tokens"))
        token = machine.gives("sed -n 2p /root/fleet.csv").split(",")[2]
        settings = lines_of(PAGE, "**swupdate** has this", "suricatta").replace("TOKEN", token)
        machine.gives("mkdir -p /etc/swupdate; cat > /etc/swupdate.cfg", settings.encode())
        machine.gives("cp /media/signer.crt /etc/fwdesk/ca.crt /etc/swupdate/")
        page = (stage.ROOT / "docs" / PAGE).read_text(encoding="utf-8")
        start = re.search(r"is started as `(swupdate [^`]+)`", page)[1]
        board = re.search(r"`/etc/hwrevision`\s+[(]`([^`]+)`[)]", page)[1]
        machine.gives(f"echo '{board}' > /etc/hwrevision")
        machine.gives(START.format(start))
        # step 3
        machine.gives(f"cp /media/{IMAGE} /root")
        block = lines_of(PAGE, "## Step 3", "firmware-add")
        rollout = steps.run("step 3", f"{block}\necho $rollout")
        waited = time.monotonic()
        done = lambda: machine.does("cmp /root/installed /media/payload")[0] == 0
        assert machine.until(done, 700), machine.does("journalctl -u swupdate -n 30")[1]
        steps.took.append(f"until it is installed: {time.monotonic() - waited:.0f} s")
        # the restart that the page asks for
        machine.gives("systemctl kill -s KILL swupdate")
        gone = "systemctl reset-failed swupdate 2> /dev/null; systemctl show -p LoadState --value swupdate"
        assert machine.until(lambda: machine.gives(gone) == "not-found", 60)
        machine.gives(START.format(f'{start.removesuffix(chr(39) * 2)}"-c 2"'))
        steps.run("until it is reported", f"fwdesk-ctl wait {rollout.splitlines()[-1]}")
        minutes = (time.monotonic() - began) / 60
        assert '"in_sync"' in machine.gives(
            "curl -s --unix-socket /run/fwdesk/edge.sock http://localhost/rest/v1/targets/dev-01"
        )
    with capsys.disabled():
        print("", *steps.took, f"DEVICES followed in {minutes:.1f} minutes", sep="\n")
