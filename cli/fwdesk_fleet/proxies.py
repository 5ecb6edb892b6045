"""The fleets' lines in the proxies: what these start with, and what the running ones know."""
import sys
import time
from collections.abc import Iterator
from pathlib import Path

from fwdesk_ctl import haproxy
from fwdesk_ctl.errors import NotDone
from fwdesk_fleet import places
from fwdesk_fleet.fleets import Fleet, open_folder, put, split_operator

# what a server of a running process is told, since it takes nothing from default-server
KEPT = "weight 0 maxconn 1 pool-max-conn 1 pool-purge-delay 24h"
# an order of HAProxy has room for 16 KiB
PIECE = 8192
# how often a map is told to an edge that is reloaded meanwhile
TRIES = 5
SECONDS = 10  # for one order


def lines_of_maps(all_fleets: list[Fleet]) -> dict[str, list[str]]:
    """Each map's lines, of which one is a key and its value."""
    may = {it.name: dict(map(split_operator, it.operators)) for it in all_fleets}
    users = sorted({user for it in may.values() for user in it})
    own = {user: [name for name, its in may.items() if user in its] for user in users}
    return {
        "names.map": [f"{it.name} {it.name}" for it in all_fleets],
        "hosts.map": [f"{host} {it.name}" for it in all_fleets for host in it.hosts],
        "prefixes.map": [f"{prefix} {it.name}" for it in all_fleets for prefix in it.prefixes],
        "operators.map": [
            f"{user}@{name} {groups}" for name, its in may.items() for user, groups in its.items()
        ],
        "lists.map": [f"{user} " + ",".join(f'"{it}"' for it in own[user]) for user in users],
        "firsts.map": [f"{user} {own[user][0]}" for user in users],
    }


def write_files(all_fleets: list[Fleet], folder: Path) -> None:
    """Writes what the proxies start with into a folder."""
    open_folder(folder)
    for name, lines in lines_of_maps(all_fleets).items():
        put(folder / name, "".join(f"{it}\n" for it in lines))
    servers = "".join(f"    server {it.name} 127.0.0.1:{it.port}\n" for it in all_fleets)
    chosen = "    use-server %[var(txn.fleet)] if { always_true }\n"
    text = f"# written by fwdesk-fleet\nbackend desks from desk\n{chosen}{servers}"
    put(folder / "servers.cfg", text)


def ask(admin: str, order: str) -> str | None:
    """What a running HAProxy answers to an order; None where none runs, since it reads the files when it starts."""
    try:
        return haproxy.ask(admin, order, SECONDS).strip()
    except haproxy.NotRunning:
        return None


def reject(order: str, answer: str) -> NotDone:
    return NotDone(f"HAProxy answers to {order.splitlines()[0]!r}: {answer}")


def tell(admin: str, order: str, wanted: str = "") -> str | None:
    """Gives an order whose answer has these words, or is empty where none are named. NotDone for another answer."""
    answer = ask(admin, order)
    if answer is not None and (wanted not in answer or (answer and not wanted)):
        raise reject(order, answer)
    return answer


def split_lines(lines: list[str]) -> Iterator[str]:
    """Lines in pieces that an order has room for."""
    piece = ""
    for line in lines:
        if piece and len(piece) + len(line) > PIECE:
            yield piece
            piece = ""
        piece += f"{line}\n"
    if piece:
        yield piece


def replace_map(file: Path, lines: list[str]) -> bool:
    """Replaces a map of the running edge in one step. False where it was reloaded meanwhile: the process that came
    knows of no such version."""
    begun = tell(places.EDGE, f"prepare map {file}", "New version created: ")
    if begun is None:
        return True
    version = begun.rpartition(" ")[2]
    added = [f"add map @{version} {file} <<\n{it}" for it in split_lines(lines)]
    for order in (*added, f"commit map @{version} {file}"):
        answer = ask(places.EDGE, order)
        if "Version number" in (answer or ""):
            return False
        if answer:
            raise reject(order, answer)
    return True


def find_processes() -> set[str]:
    """The processes of the running edge. A reload that has begun is waited for: the process that comes may have read
    the maps as they were before."""
    until = time.monotonic() + SECONDS
    while time.monotonic() < until:
        try:
            return haproxy.find_workers(places.EDGE_MASTER)
        except haproxy.NotRunning:
            if not Path(places.EDGE_MASTER).exists() or ask(places.EDGE, "show info") is None:
                break
        time.sleep(0.05)
    return set()


def tell_edge(all_fleets: list[Fleet]) -> None:
    """Replaces each map of the running edge, again where another process has come meanwhile."""
    for _ in range(TRIES):
        before = find_processes()
        tell_maps(all_fleets)
        if find_processes() <= before:
            return
    raise NotDone("the edge was reloaded each time that it was told: try again")


def tell_maps(all_fleets: list[Fleet]) -> None:
    """Replaces each map of the newest process."""
    if "Unknown map" in (ask(places.EDGE, f"show map {places.PROXIES}/names.map") or ""):
        print(
            "the running haproxy isn't the edge of the fleets: systemctl restart haproxy",
            file=sys.stderr,
        )
        return
    for name, lines in lines_of_maps(all_fleets).items():
        if not any(replace_map(places.PROXIES / name, lines) for _ in range(TRIES)):
            raise NotDone(f"the edge was reloaded each time that it was told {name}: try again")


def running_servers() -> dict[str, tuple[int, bool]] | None:
    """The servers that the running HAProxy has, each with its port and whether it is put out of use."""
    answer = ask(places.DESKS, "show servers state desks")
    if answer is None:
        return None
    names, *rows = [it.lstrip("# ").split() for it in answer.splitlines()[1:]]
    servers = [dict(zip(names, row)) for row in rows]
    return {it["srv_name"]: (int(it["srv_port"]), it["srv_admin_state"] != "0") for it in servers}


def add_servers(all_fleets: list[Fleet]) -> None:
    """Gives the running HAProxy the servers that it lacks, and those whose port is another now."""
    there = running_servers()
    if there is None:
        return
    for fleet in all_fleets:
        port, is_out = there.get(fleet.name, (None, True))
        if port not in (None, fleet.port):
            end_server(fleet.name)
        if port != fleet.port:
            order = f"add server desks/{fleet.name} 127.0.0.1:{fleet.port} {KEPT}"
            tell(places.DESKS, order, "New server registered")
            is_out = True
        if is_out:
            tell(places.DESKS, f"enable server desks/{fleet.name}")


def stop_server(name: str) -> None:
    """Has no request begin at a server."""
    tell(places.DESKS, f"set server desks/{name} state maint")


def end_server(name: str) -> None:
    """Deletes a server. One with a connection isn't deleted: the server's end closes it, or this does."""
    stop_server(name)
    tell(places.DESKS, f"shutdown sessions server desks/{name}")
    answer = None
    for _ in range(100):
        answer = ask(places.DESKS, f"del server desks/{name}")
        if answer is None or "deleted" in answer:
            return
        time.sleep(0.1)
    raise NotDone(f"HAProxy doesn't delete server {name}: {answer}")
