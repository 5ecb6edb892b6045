"""Which program listens on a port of this machine, as the kernel has it."""
import contextlib
import errno
import os
import socket
from pathlib import Path

LISTENS = "0A"  # the state of a socket in /proc/net/tcp


def is_taken(port: int) -> bool:
    """Whether nobody else can listen on a port, by IPv4 or IPv6."""
    for family, address in ((socket.AF_INET, "0.0.0.0"), (socket.AF_INET6, "::")):
        try:
            with socket.socket(family, socket.SOCK_STREAM) as probe:
                # (else connections that ended a moment ago would count)
                probe.setsockopt(socket.SOL_SOCKET, socket.SO_REUSEADDR, 1)
                if family == socket.AF_INET6:
                    probe.setsockopt(socket.IPPROTO_IPV6, socket.IPV6_V6ONLY, 1)
                probe.bind((address, port))
        except OSError as error:
            # a machine without IPv6 has no such family, or no address of it
            if error.errno == errno.EADDRINUSE:
                return True
    return False


def sockets_on(port: int) -> set[str]:
    """What a descriptor of a socket that listens on a port leads to."""
    found = set()
    for table in ("tcp", "tcp6"):
        path = Path("/proc/net", table)
        for line in path.read_text(encoding="ascii").splitlines()[1:] if path.exists() else []:
            fields = line.split()
            if fields[3] == LISTENS and int(fields[1].rpartition(":")[2], 16) == port:
                found.add(f"socket:[{fields[9]}]")
    return found


def targets_of(process: Path) -> set[str]:
    """What the descriptors of a process lead to; it may close some, or end, meanwhile."""
    found = set()
    try:
        for it in (process / "fd").iterdir():
            with contextlib.suppress(FileNotFoundError):
                found.add(os.readlink(it))
    except OSError:
        pass
    return found


def listener_on(port: int) -> str | None:
    """The name of the program that listens on a port; None where the port is free."""
    if not is_taken(port):
        return None
    wanted = sockets_on(port)
    # the lowest number is that of the process whose children the others are
    for process in sorted(Path("/proc").glob("[0-9]*"), key=lambda it: int(it.name)):
        if targets_of(process) & wanted:
            with contextlib.suppress(OSError):
                name = (process / "comm").read_text(encoding="utf-8").strip()
                return f"{name} (process {process.name})"
    return "another program"
