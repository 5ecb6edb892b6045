"""The program as it is served, and the brake before it, as each suite starts them. Not run by itself."""
import os
from pathlib import Path
from typing import Any

from harness import ROOT
from harness.http_client import Reply, ask
from harness.processes import HOST, PATIENCE, Processes, eventually, found, free_port, listens

PROGRAM = Path(os.environ.get("FWDESK_PROGRAM") or ROOT / "crates/fwdesk/out/fwdesk")


def serving(program: Path, database: Path, port: int, *more: object) -> list[str]:
    """The words that serve a desk without an end."""
    words = [program, "serve", "--db", database, "--port", port]
    return [str(it) for it in (*words, "--connections", 1000000, "--interface", "both", *more)]


def start_desk(
    processes: Processes, program: Path, folder: Path, port: int, *more: object, **how: Any
) -> Any:
    """Starts the program over folder/desk.db, and waits until it listens. A program that was compiled without its proofs
    takes a minute on a busy machine."""
    words = serving(program, Path(folder) / "desk.db", port, *more)
    child = processes.start("fwdesk", words, **how)
    eventually("the program", lambda: listens(port), 2 * PATIENCE, child=child)
    return child


class Desk:
    """The program over a new file, and what operators and devices ask of it."""

    def __init__(self, processes: Processes, program: Path, folder: Path, *more: object):
        self.processes, self.port = processes, free_port()
        self.url = f"http://{HOST}:{self.port}"
        self.child = start_desk(processes, program, folder, self.port, *more)

    def ask(
        self, method: str, path: str, body: Any = None, fields: dict[str, str] | None = None
    ) -> Reply:
        return ask(method, path, body, fields, port=self.port)

    def get(self, path: str) -> Any:
        """What a call of an operator answers, which has to succeed."""
        reply = self.ask("GET", path)
        assert reply.status == 200, f"GET {path}: {reply.status} {reply.text}"
        return reply.told


def start_brake(
    processes: Processes, socket: Path, held: Path, masters: list[Path], folder: Path = ROOT / "cli"
) -> dict[str, str]:
    """fwdesk-brake behind its socket, as fwdesk-brake.socket has it; answers the environment that leads it there."""
    own = {
        "FWDESK_BRAKE_FILE": str(held),
        "FWDESK_BRAKE_SOCKETS": " ".join(map(str, masters)),
    }
    given = [word for key, value in own.items() for word in ("-E", f"{key}={value}")]
    listener = [found("systemd-socket-activate"), "--accept", "--inetd", "-l", str(socket), *given]
    child = processes.start("brake", [*listener, str(folder / "fwdesk-brake"), "serve"])
    eventually("the brake's socket", socket.exists, child=child)
    return own
