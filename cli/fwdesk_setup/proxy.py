"""HAProxy as the service of this machine: its units, and what it reads."""
import contextlib
from pathlib import Path

from fwdesk_setup import parts, places
from fwdesk_setup.errors import NotDone
from fwdesk_setup.files import write_whole
from fwdesk_setup.run import run, systemctl

EDGE, DESKS = "haproxy.service", "haproxy-desks.service"
SOCKETS = ("fwdesk-brake.socket", "fwdesk-console.socket")
MADE = "# written by fwdesk-setup, which also takes it away: fwdesk-setup --undo\n"
# what the edge is left with, as haproxy-desks.service has it: it makes its sockets in /run, some in folders of the user haproxy
CONFINED = """ProtectSystem=strict
ReadWritePaths=/run
ProtectHome=read-only
CapabilityBoundingSet=CAP_SETUID CAP_SETGID CAP_CHOWN CAP_FOWNER CAP_DAC_OVERRIDE CAP_KILL CAP_SYS_RESOURCE CAP_NET_BIND_SERVICE CAP_SYS_CHROOT
RestrictAddressFamilies=AF_UNIX AF_INET AF_INET6
PrivateTmp=yes
PrivateDevices=yes
ProtectClock=yes
ProtectControlGroups=yes
ProtectHostname=yes
ProtectKernelLogs=yes
ProtectKernelModules=yes
ProtectKernelTunables=yes
NoNewPrivileges=yes
RestrictNamespaces=yes
RestrictRealtime=yes
RestrictSUIDSGID=yes
LockPersonality=yes
SystemCallArchitectures=native
SystemCallFilter=@system-service chroot
SystemCallErrorNumber=EPERM
"""


def drop_ins() -> dict:
    """What systemd is told of both stages of the proxy beside the units of the packages."""
    own, copy = places.OWN, places.CURRENT
    edge = f"""{MADE}[Unit]
Wants={DESKS}
After={DESKS}

[Service]
Environment="CONFIG={own}" "EXTRAOPTS=-f {copy}/edge -S /run/haproxy-master.sock"
RuntimeDirectory=fwdesk
RuntimeDirectoryPreserve=yes
MemoryMax=2G
{CONFINED}"""
    desks = f"""{MADE}[Service]
ExecStartPre=
ExecStartPre=+/bin/sh -c 'test ! -d /etc/fwdesk/fleets || exec /usr/sbin/fwdesk-fleet settle --files'
ExecStart=
ExecStart=/usr/sbin/haproxy -Ws -f {own} -f {copy}/desks $SERVERS -S /run/haproxy-desks/master.sock
"""
    return {
        places.UNITS / f"{EDGE}.d/fwdesk.conf": edge,
        places.UNITS / f"{DESKS}.d/fwdesk.conf": desks,
    }


def is_set_up() -> bool:
    """Whether fwdesk-setup has set this machine's proxy up."""
    return next(iter(drop_ins())).exists()


def write_units() -> bool:
    """Writes the drop-ins, and tells whether anything changed. Those that keep a copied configuration of 1.0.0 going come
    before them by their names and stay, for `remove_units`."""
    changed = [write_whole(path, text) for path, text in drop_ins().items()]
    if any(changed):
        systemctl("daemon-reload")
    return any(changed)


def remove_units() -> bool:
    """Takes the drop-ins away: HAProxy is what its own package makes of it."""
    found = [it for it in drop_ins() if it.exists()]
    for it in (*found, link_file()):
        it.unlink(missing_ok=True)
    with contextlib.suppress(OSError):
        link_file().parent.rmdir()  # (where nobody has put a file of his own there)
    systemctl("daemon-reload")
    return bool(found)


def link_file() -> Path:
    """What has the console's messages lead to the web UI."""
    return places.UNITS / "fwdesk-console.service.d/fwdesk.conf"


def write_link(address: str) -> bool:
    """Has the console's messages lead to the web UI of an address, and tells whether they led elsewhere."""
    line = f"Environment=FWDESK_LINK={address}/page/\n"
    changed = write_whole(link_file(), f"{MADE}[Service]\n{line}")
    if changed:
        systemctl("daemon-reload")
        systemctl("try-restart", "fwdesk-console.service")
    return changed


def own_text(name: str, port: int, certificate: str, local_port: int | None) -> str:
    """The operator's own settings, by the package's template. Who set 1.0.0 up by hand is reached by more names than one,
    and by port 8081 of this machine, so there no name is compared. `setenv`, since a reload keeps what `presetenv` set.
    """
    template = places.SHARE / "haproxy/local/10-own.cfg"
    lines = []
    for line in template.read_text(encoding="utf-8").splitlines():
        name_of = line.split()[1] if line.startswith("    setenv ") else None
        if name_of == "FWDESK_BIND":
            line = f"    setenv FWDESK_BIND :{port}"
        elif name_of == "FWDESK_CERTIFICATE":
            line = f"    setenv FWDESK_CERTIFICATE {certificate}"
        elif name_of == "FWDESK_HOSTS" and local_port:
            line = f"    setenv FWDESK_LOCAL_PORT {local_port}"
        lines.append(line.replace("@NAME@", f"[{name}]" if ":" in name else name))
    return "\n".join(lines) + "\n"


def forgive() -> None:
    """Has systemd start a stage again that failed so often that it would refuse to."""
    for unit in (DESKS, EDGE):
        systemctl("reset-failed", unit)


def start() -> None:
    """Starts both stages, now and at each boot, and the sockets behind them."""
    forgive()
    for unit in (DESKS, EDGE):
        status, said = run("systemctl", "restart", unit)
        if status:
            log = run("journalctl", "-u", unit, "-n", "8", "-o", "cat")[1]
            raise NotDone(f"{unit} doesn't start: {said}\n{log}")
    run("systemctl", "enable", "-q", EDGE, DESKS)
    run("systemctl", "enable", "-q", "--now", *SOCKETS)


def reload(desks_too: bool) -> None:
    """Has the running proxy read its files anew. The stage before the desk is started anew, for a moment, where it has to be."""
    if desks_too:
        systemctl("try-restart", DESKS)
    systemctl("try-reload-or-restart", EDGE)


def same_desks(one: str | None, other: str) -> bool:
    """Whether two copies have the same stage before the desk."""
    if one is None or not (places.COPIES / one / "desks").is_dir():
        return False
    digests = {parts.digest_of([places.COPIES / it / "desks"]) for it in (one, other)}
    return len(digests) == 1
