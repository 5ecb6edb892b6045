"""The sockets that HAProxy asks at and writes to: those of systemd, or of our own."""
import os
import socket
from pathlib import Path


def given_sockets() -> dict[socket.SocketKind, socket.socket]:
    """Those of systemd, by their kind; without systemd none."""
    if os.environ.get("LISTEN_PID") != str(os.getpid()):
        return {}
    found = [socket.socket(fileno=3 + n) for n in range(int(os.environ.get("LISTEN_FDS", "0")))]
    return {it.type: it for it in found}


def bind_socket(path: str, kind: socket.SocketKind) -> socket.socket:
    """A socket of our own, for who runs it by hand."""
    Path(path).unlink(missing_ok=True)
    it = socket.socket(socket.AF_UNIX, kind)
    before = os.umask(0o117)
    try:
        it.bind(path)
    finally:
        os.umask(before)
    return it
