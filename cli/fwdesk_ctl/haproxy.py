"""Orders to HAProxy by its sockets, on its own machine."""
import re
import socket
import time
from collections.abc import Iterable
from pathlib import Path

from fwdesk_ctl.errors import NotDone, Wrong

# seconds that a HAProxy that starts, or is reloaded, is waited for. With the lock before it (holds.py) somebody who
# holds a fleet is told within 10 seconds if that isn't confirmed
PATIENCE = 5
QUICK = 2  # seconds for one order of those
MOST_BYTES = (
    64 * 1024 * 1024
)  # of an answer: the longest, of a table of 100,000 addresses, has a fifth of it


class NotRunning(Wrong):
    """No HAProxy listens at a socket."""


def ask(path: str | Path, order: str, seconds: float = 30) -> str:
    """What HAProxy answers to an order at its socket; NotRunning where none listens there, Wrong where it doesn't answer
    within so many seconds."""
    until, answer = time.monotonic() + seconds, b""
    try:
        with socket.socket(socket.AF_UNIX) as link:
            link.settimeout(seconds)
            link.connect(str(path))
            link.sendall(f"{order}\n".encode())
            link.shutdown(socket.SHUT_WR)
            while piece := link.recv(1 << 16):
                answer += piece
                if len(answer) > MOST_BYTES or time.monotonic() > until:
                    raise TimeoutError("its answer doesn't end")
    except (FileNotFoundError, ConnectionRefusedError) as error:
        raise NotRunning(f"cannot reach HAProxy's socket {path}: {error.strerror}") from None
    except OSError as error:
        raise Wrong(f"cannot reach HAProxy's socket {path}: {error.strerror or error}") from None
    return answer.decode(errors="replace")


def find_workers(path: str | Path) -> set[str]:
    """How each process is addressed that may still answer somebody: those of a master, old ones too, or the only
    one. While a master reads its files its socket is closed: so a worker that it names started with the file as it
    is, or is told."""
    if "master" not in Path(path).name:
        return {""}
    listed = ask(path, "show proc", QUICK)
    return {f"@!{number} " for number in re.findall(r"^(\d+)\s+worker\s", listed, re.M)}


def lines_of(text: str) -> dict[str, str]:
    """The keys and values of a map, as its file has them."""
    return dict(it.split(" ", 1) for it in text.splitlines() if " " in it)


def show_map(path: str | Path, worker: str, file: Path) -> dict[str, str]:
    """The lines that a process has of a map; Wrong where it has no such map."""
    shown = ask(path, f"{worker}show map {file}", QUICK)
    if "Unknown map" in shown:
        raise Wrong(f"the HAProxy at {path} has no map {file}")
    return lines_of(re.sub(r"(?m)^0x[0-9a-f]+ ", "", shown))


def set_map(path: str | Path, worker: str, file: Path, wanted: dict[str, str]) -> bool:
    """Gives one process the lines of a map, and answers whether it has them then."""
    there = show_map(path, worker, file)
    for key in there.keys() - wanted.keys():
        ask(path, f"{worker}del map {file} {key}", QUICK)
    for key in (it for it in wanted if there.get(it) != wanted[it]):
        verb = "set" if key in there else "add"
        ask(path, f"{worker}{verb} map {file} {key} {wanted[key]}", QUICK)
    return show_map(path, worker, file) == wanted


def tell(sockets: Iterable[str], file: Path, wanted: dict[str, str]) -> None:
    """Gives a map's lines to each process, old and new ones, and returns once all have them. The first of the sockets
    that is there is asked, again where it is closed: behind a closed one a HAProxy may be about to start with the
    file of before. NotDone where they don't confirm it within PATIENCE seconds."""
    told: set[str] = set()
    until, why = time.monotonic() + PATIENCE, "there is no socket"
    while time.monotonic() < until:
        try:
            path = next(it for it in sockets if Path(it).exists())
            told |= {it for it in find_workers(path) - told if set_map(path, it, file, wanted)}
            if told and (now := find_workers(path)) and now <= told:
                return
            why = "a process has other lines"
        except (Wrong, StopIteration) as error:
            told, why = set(), str(error) or why
        time.sleep(0.05)
    raise NotDone(f"HAProxy doesn't confirm it ({why})")
