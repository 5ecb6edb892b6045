"""A desk and both halves of the gateway in one command, for the tests of a device client.

The desk is new and in a temporary folder, and all is gone when the command ends. There is no login and no TLS: it
listens to this machine alone."""

import ctypes
import secrets
import shutil
import signal
import socket
import subprocess
import sys
import tempfile
import time
from pathlib import Path
from typing import Any

from aiohttp import web

from fwdesk_hawkbit import devices, journal, manage
from fwdesk_hawkbit.calls import BODY, Gateway
from fwdesk_hawkbit.desk import Desk
from fwdesk_hawkbit.faults import Fault
from fwdesk_hawkbit.kept import Kept
from fwdesk_hawkbit.serve import in_its_form
from fwdesk_hawkbit.sums import Artifacts

HOST = "127.0.0.1"
# seconds until the desk has to listen: a program without its proofs takes long on a busy machine
PATIENCE = 120
PR_SET_PDEATHSIG = 1


def end_with_parent() -> None:
    """The desk doesn't outlive the lab, however that ends."""
    ctypes.CDLL(None).prctl(PR_SET_PDEATHSIG, signal.SIGKILL)


def start_desk(program: str, folder: Path) -> tuple[subprocess.Popen[bytes], str]:
    """A new desk on a port that nobody has, and its URL."""
    path = shutil.which(program)
    if path is None:
        sys.exit(f"fwdesk-hawkbit: there is no program {program}: --program names it")
    with socket.create_server((HOST, 0)) as it:
        port = it.getsockname()[1]
    words = [path, "serve", "--db", str(folder / "desk.db"), "--port", str(port)]
    words += ["--connections", "1000000", "--interface", "both"]
    child = subprocess.Popen(words, stdin=subprocess.DEVNULL, preexec_fn=end_with_parent)
    until = time.monotonic() + PATIENCE
    while not listens(port):
        if child.poll() is not None or time.monotonic() > until:
            sys.exit(f"fwdesk-hawkbit: {program} doesn't serve")
        time.sleep(0.05)
    return child, f"http://{HOST}:{port}"


def listens(port: int) -> bool:
    try:
        socket.create_connection((HOST, port), timeout=5).close()
        return True
    except OSError:
        return False


class Settings(dict[str, Any]):
    """hawkBit's settings, which the device half goes by from the next request on."""

    def __init__(self, service: devices.Service) -> None:
        super().__init__()
        self.service = service

    def apply(self) -> None:
        told: dict[str, Any] = manage.USUAL | dict(self)
        if not told["authentication.targettoken.enabled"]:
            self.pop("authentication.targettoken.enabled")
            raise Fault("unsupported", "a device always comes by its token")
        on = told["authentication.gatewaytoken.enabled"] and told["authentication.gatewaytoken.key"]
        self.service.gateway_token = told["authentication.gatewaytoken.key"] if on else None
        self.service.polling = told["pollingTime"]

    def __setitem__(self, key: str, value: Any) -> None:
        super().__setitem__(key, value)
        self.apply()

    def pop(self, key: str, *usual: Any) -> Any:
        held = super().pop(key, *usual)
        self.apply()
        return held


def build(url: str, folder: Path, hides: bool, registers: bool, largest: int) -> web.Application:
    """Both halves on one port."""
    desk, key = Desk(url, 1), secrets.token_hex(32).encode()
    artifacts = Artifacts(folder / "images", folder / "sums")
    service = devices.Service(desk, desk, artifacts, key=key, registers=registers)
    gateway = Gateway(desk, artifacts, Kept(None), key, largest, hides=hides, is_lab=True)
    gateway.settings = Settings(service)
    app = web.Application(middlewares=[in_its_form], client_max_size=BODY)
    app[devices.SERVICE] = service
    app.add_routes(devices.routes())
    manage.add_to(app, gateway)
    return app


def run(program: str, port: int, hides: bool, registers: bool, largest: int) -> None:
    """Serves until a signal; the first line says where."""
    journal.begin()
    with tempfile.TemporaryDirectory(prefix="fwdesk-lab-") as made:
        folder = Path(made)
        (folder / "images").mkdir()
        child, url = start_desk(program, folder)
        try:
            door = socket.create_server((HOST, port))

            async def begin() -> web.Application:
                app = build(url, folder, hides, registers, largest)
                print(f"http://{HOST}:{door.getsockname()[1]}", flush=True)
                return app

            web.run_app(begin(), sock=door, print=lambda *_: None, access_log=None)
        finally:
            child.terminate()
            child.wait()
