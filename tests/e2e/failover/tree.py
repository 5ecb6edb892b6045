"""The Debian that the nodes of tests/e2e/failover/run boot: made once by debootstrap, and given the files of
deploy/pacemaker at each run."""
import shutil
import subprocess
from pathlib import Path

from harness.alone import said
from harness.tls import make_certificate

HERE = Path(__file__).resolve().parent
ROOT = HERE.parents[2]
DEPLOY = ROOT / "deploy"
CLUSTER = DEPLOY / "pacemaker"
WITHIN = (
    "pacemaker corosync pacemaker-cli-utils pcs resource-agents haproxy iproute2 e2fsprogs procps psmisc kmod "
    "netcat-openbsd curl"
)
UNIT = "fwdesk@.service"


def debian(root):
    """Made where it isn't there; nothing is started while it is made."""
    if (root / "usr/sbin/pacemakerd").is_file():
        return
    print(f"debootstrap makes {root}, which takes some minutes", flush=True)
    unfinished = root.with_name(f"{root.name}.unfinished")
    shutil.rmtree(unfinished, ignore_errors=True)
    said(
        "debootstrap",
        "--variant=minbase",
        "--include=systemd,systemd-sysv,dbus,ca-certificates",
        "bookworm",
        unfinished,
    )
    put(unfinished, "usr/sbin/policy-rc.d", "#!/bin/sh\nexit 101\n", 0o755)
    shutil.copy("/etc/resolv.conf", unfinished / "etc/resolv.conf")
    said(
        "chroot",
        unfinished,
        "env",
        "DEBIAN_FRONTEND=noninteractive",
        "apt-get",
        "install",
        "-y",
        "-q",
        "--no-install-recommends",
        *WITHIN.split(),
    )
    said("chroot", unfinished, "apt-get", "clean")
    unfinished.rename(root)


def put(root, place, contents, mode=0o644):
    file = root / place
    file.parent.mkdir(parents=True, exist_ok=True)
    file.unlink(missing_ok=True)
    file.write_bytes(contents if isinstance(contents, bytes) else contents.encode())
    file.chmod(mode)


def text(file):
    """A file of deploy as a Debian package has it."""
    return file.read_text(encoding="utf-8").replace("/usr/local/bin/fwdesk", "/usr/bin/fwdesk")


def unit():
    """The unit of a fleet, of many fleets on one machine."""
    return text(DEPLOY / "systemd" / UNIT)


def put_proxies(root, fleets):
    """Both HAProxys of a node, with a login and a server for each fleet, as docs/FAILOVER.md has them."""
    for part in ("edge", "desks"):
        for it in sorted((DEPLOY / "haproxy" / part).glob("*.cfg")):
            put(root, f"usr/share/fwdesk/haproxy/{part}/{it.name}", text(it))
    own, password = "etc/fwdesk/haproxy.d", said(
        "openssl", "passwd", "-6", "-salt", "lab", "secret"
    )
    local = DEPLOY / "haproxy/local"
    put(root, f"{own}/10-own.cfg", text(CLUSTER / "haproxy.cfg"))
    users = text(local / "20-operators.cfg").replace("@PASSWORD@", password)
    put(root, f"{own}/20-operators.cfg", users)
    put(root, f"{own}/operators.map", text(local / "operators.map"))
    put(root, "var/lib/fwdesk-brake/held.map", "")
    head = [it for it in text(CLUSTER / "servers.cfg").splitlines() if "    server " not in it]
    servers = [f"    server {it} 127.0.0.1:{20001 + n}" for n, it in enumerate(fleets)]
    put(root, "etc/haproxy/fleets/servers.cfg", "\n".join([*head, *servers, ""]))
    units = "etc/systemd/system"
    put(root, f"{units}/haproxy-desks.service", text(DEPLOY / "systemd/haproxy-desks.service"))
    # fwdesk-fleet isn't on these nodes
    put(
        root,
        f"{units}/haproxy-desks.service.d/lab.conf",
        '[Service]\nExecStartPre=\nEnvironment="SERVERS=-f /etc/haproxy/fleets/servers.cfg"\n',
    )
    put(
        root,
        f"{units}/haproxy.service.d/fwdesk.conf",
        "[Unit]\nWants=haproxy-desks.service\nAfter=haproxy-desks.service\n[Service]\n"
        'Environment="CONFIG=/etc/fwdesk/haproxy.d"\n'
        'Environment="EXTRAOPTS=-f /usr/share/fwdesk/haproxy/edge -S /run/haproxy-master.sock"\n',
    )
    put(root, "etc/tmpfiles.d/fwdesk.conf", text(ROOT / "debian/fwdesk.tmpfiles"))
    put(root, "etc/sysusers.d/fwdesk.conf", text(ROOT / "debian/fwdesk.sysusers"))


def certificate(root):
    made = make_certificate(root / "etc/fwdesk", subject="/CN=fwdesk")
    put(root, "etc/fwdesk/server.pem", made.read_bytes(), 0o644)


def prepare(root, program, addresses, token):
    """Puts onto the nodes what an operator puts there. `addresses` are the fleets'."""
    debian(root)
    put(root, "usr/bin/fwdesk", program.read_bytes(), 0o755)
    put(root, f"etc/systemd/system/{UNIT}", unit())
    put(root, f"etc/systemd/system/{UNIT}.d/60-cluster.conf", text(CLUSTER / "60-cluster.conf"))
    put(
        root,
        "etc/corosync/corosync.conf",
        text(CLUSTER / "corosync.conf").replace("token: 3000", f"token: {token}"),
    )
    put(root, "etc/corosync/authkey", bytes(range(256)), 0o400)
    for it in ("cluster-setup", "cluster-fleet"):
        put(root, f"usr/local/sbin/{it}", text(CLUSTER / it), 0o755)
    certificate(root)
    put_proxies(root, addresses)
    put(
        root,
        "etc/fwdesk/addresses.map",
        "".join(f"{address} {it}\n" for it, address in addresses.items()),
    )
    folders = root / "var/lib/private/fwdesk-fleets"
    shutil.rmtree(folders, ignore_errors=True)
    (root / "var/lib/private").mkdir(exist_ok=True, mode=0o700)
    folders.mkdir()
    for n, it in enumerate(addresses):
        put(root, f"etc/fwdesk/fleets/{it}.conf", f"PORT={20001 + n}\n")
        link = root / f"etc/fwdesk/fleets/{it}.program"
        link.unlink(missing_ok=True)
        link.symlink_to("/usr/bin/fwdesk")
        (folders / it).mkdir(mode=0o700)
    of_the_lab(root)


def of_the_lab(root):
    """What the nodes have since they are none: the switch's agent, an address, and logs that outlive them."""
    put(root, "usr/sbin/fence_switch", (HERE / "fence_switch").read_bytes(), 0o755)
    put(root, "etc/systemd/system/lab-net.service", text(HERE / "lab-net.service"))
    put(
        root,
        "etc/systemd/journald.conf.d/lab.conf",
        "[Journal]\nStorage=persistent\nSyncIntervalSec=1s\n",
    )
    (root / "var/log/journal").mkdir(exist_ok=True)
    (root / "etc/hostname").unlink(missing_ok=True)
    put(root, "etc/hosts", "127.0.0.1 localhost\n10.77.0.1 n1\n10.77.0.2 n2\n")
    subprocess.run(
        [
            "systemctl",
            f"--root={root}",
            "-q",
            "enable",
            "lab-net",
            "corosync",
            "pacemaker",
            "haproxy",
            "haproxy-desks",
        ],
        check=True,
    )
    # what a node has by Debian and doesn't need here
    masked = (
        "pcsd pcsd-ruby e2scrub_reap apt-daily.timer apt-daily-upgrade.timer dpkg-db-backup.timer "
        "e2scrub_all.timer fstrim.timer"
    )
    subprocess.run(["systemctl", f"--root={root}", "-q", "mask", *masked.split()], check=True)
