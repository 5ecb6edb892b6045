"""The fleets of this machine: each is a server of its own, with a user, a folder, a port,
a program and its lines in the proxies.

    fwdesk-fleet add NAME [--host HOST].. [--prefix PREFIX].. [--operator USER]..
                                               serves it; led by the prefix NAME- where nothing is said
    fwdesk-fleet remove NAME                   serves it no more; its records stay, and `add NAME` serves them again
    fwdesk-fleet list                          name, port, state, program, bytes of records, who leads and
                                               who operates it
    fwdesk-fleet lead NAME [--host HOST].. [--prefix PREFIX]..
                                               leads a host's requests and such devices to it, at once
    fwdesk-fleet unlead NAME [--host HOST].. [--prefix PREFIX]..
    fwdesk-fleet allow NAME USER[:GROUPS]..    operators, lines of haproxy.cfg, that may do all with it, or what these
                                               groups may: ben:look,approve
    fwdesk-fleet forbid NAME USER..
    fwdesk-fleet backup NAME FOLDER            copies its records into a new folder, while it stands still, and verifies
                                               the copy
    fwdesk-fleet upgrade NAME FOLDER [--program PATH]
                                               the same, and then serves it by the installed program
    fwdesk-fleet restore NAME FOLDER           serves the records of a backup, by the program that they were made with
    fwdesk-fleet settle [--files]              makes all as the fleets' files have it; --files: what the proxies start
                                               with alone

Other words for the same: route, unroute (lead, unlead), grant, revoke (allow, forbid), apply (settle).

What holds stands in /etc/fwdesk/fleets/NAME.conf alone. Each call but `list` makes the rest as
these files have it: what the proxies start with, what the running ones know, and which units run. So a call that
was cut short is mended by the next one, and nothing is ever reloaded. A unit that is enabled but was stopped is
left as it is."""
import argparse
import contextlib
import os
import shutil
import sys
from pathlib import Path

from fwdesk_ctl import atomic
from fwdesk_ctl.errors import NotDone, Wrong
from fwdesk_ctl.terminal import guard_output
from fwdesk_fleet import places, proxies, records, units
from fwdesk_fleet.fleets import NAME, OPERATOR, USER, Fleet
from fwdesk_fleet.fleets import add_routes, check, choose_port, find_fleet, open_folder
from fwdesk_fleet.fleets import read_fleets, split_operator

# the field's words for verbs
ALIASES = {
    "lead": "route",
    "unlead": "unroute",
    "allow": "grant",
    "forbid": "revoke",
    "settle": "apply",
}
CHANGES = ("add", "remove", "lead", "unlead", "allow", "forbid")


def settle(files_alone: bool = False) -> None:
    """Makes all as the fleets' files have it. A fleet's desk comes before its lines, and its lines go before its
    desk."""
    all_fleets = read_fleets()
    proxies.write_files(all_fleets, places.PROXIES)
    if files_alone:
        return
    units.begin_units(all_fleets)
    proxies.add_servers(all_fleets)
    proxies.tell_edge(all_fleets)
    gone = sorted(set(proxies.running_servers() or ()) - {it.name for it in all_fleets})
    for name in gone:
        proxies.stop_server(name)
    units.end_units(all_fleets)
    for name in gone:
        proxies.end_server(name)


def find_program() -> str:
    program = shutil.which("fwdesk")
    if not program:
        raise Wrong("fwdesk isn't installed: there is no such program on the PATH")
    return program


def add(asked: argparse.Namespace) -> None:
    check([asked.name], NAME, "name of a fleet (1 to 24 small letters and digits)")
    before = places.FLEETS / f"{asked.name}.removed"
    old = Fleet.read(before) if before.is_file() else None
    fleet = Fleet(asked.name, choose_port(old.port if old else None))
    if fleet.file.exists():
        raise Wrong(f"{fleet.name} is there already")
    own = [] if asked.host else [f"{fleet.name}-"]
    add_routes(fleet, asked.host, asked.prefix or own)
    check(asked.operator, OPERATOR, "operator's name with his groups")
    fleet.operators = sorted({*asked.operator})
    if not fleet.program.exists():
        fleet.keep_program(find_program())
    is_kept = records.make_desk(fleet, bool(old) and not asked.anew)
    fleet.write()
    before.unlink(missing_ok=True)
    settle()
    which = "with the records that were there" if is_kept else "an empty desk"
    print(f"{fleet.name}: port {fleet.port}, {which}")


def remove(asked: argparse.Namespace) -> None:
    fleet = find_fleet(asked.name)
    fleet.file.rename(places.FLEETS / f"{fleet.name}.removed")
    atomic.synced(places.FLEETS)
    settle()
    print(f"{fleet.name} isn't served any more; its records stay in {fleet.folder}")


def lead(asked: argparse.Namespace) -> None:
    fleet = find_fleet(asked.name)
    add_routes(fleet, asked.host, asked.prefix)
    fleet.write()
    settle()


def unlead(asked: argparse.Namespace) -> None:
    fleet = find_fleet(asked.name)
    fleet.hosts = [it for it in fleet.hosts if it not in asked.host]
    fleet.prefixes = [it for it in fleet.prefixes if it not in asked.prefix]
    fleet.write()
    settle()


def set_operators(name: str, named: list[str], granted: list[str]) -> None:
    """Takes these users' lines away, and gives those that are granted."""
    fleet = find_fleet(name)
    users = {split_operator(it)[0] for it in named}
    others = [it for it in fleet.operators if split_operator(it)[0] not in users]
    fleet.operators = sorted({*others, *granted})
    fleet.write()
    settle()


def allow(asked: argparse.Namespace) -> None:
    check(asked.user, OPERATOR, "operator's name with his groups")
    set_operators(asked.name, asked.user, asked.user)


def forbid(asked: argparse.Namespace) -> None:
    check(asked.user, USER, "operator's name")
    set_operators(asked.name, asked.user, [])


def show_list(_: argparse.Namespace) -> None:
    for fleet in read_fleets():
        size = sum(file.lstat().st_size for file in fleet.folder.glob("desk.db*"))
        routes = [*fleet.hosts, *(f"{prefix}*" for prefix in fleet.prefixes)]
        print(
            fleet.name,
            fleet.port,
            units.read_state(fleet),
            fleet.program.resolve().name,
            size,
            ",".join(routes) or "-",
            ",".join(fleet.operators) or "-",
        )


def backup(asked: argparse.Namespace) -> None:
    fleet = find_fleet(asked.name)
    with records.standing_still(fleet):
        records.copy_records(fleet, asked.folder)
    records.verify(asked.folder)


def upgrade(asked: argparse.Namespace) -> None:
    fleet = find_fleet(asked.name)
    program = asked.program or find_program()
    with records.standing_still(fleet):
        records.copy_records(fleet, asked.folder)
        records.verify(asked.folder)
        fleet.keep_program(program)


def restore(asked: argparse.Namespace) -> None:
    fleet = find_fleet(asked.name)
    records.check_trust(asked.folder)
    records.verify(asked.folder)
    with records.standing_still(fleet):
        before = records.put_back(fleet, asked.folder)
        fleet.keep_program((asked.folder / "program").resolve())
    print(f"what was there before is in {before}")


VERBS = {
    "add": add,
    "remove": remove,
    "list": show_list,
    "settle": lambda asked: settle(asked.files),
    "lead": lead,
    "unlead": unlead,
    "allow": allow,
    "forbid": forbid,
    "backup": backup,
    "upgrade": upgrade,
    "restore": restore,
}


def read_command_line() -> argparse.Namespace:
    parser = argparse.ArgumentParser(
        "fwdesk-fleet", description=__doc__, formatter_class=argparse.RawDescriptionHelpFormatter
    )
    parts = parser.add_subparsers(dest="typed", required=True, metavar="VERB")
    own = {}
    for verb in VERBS:
        aliases = [ALIASES[verb]] if verb in ALIASES else []
        own[verb] = parts.add_parser(verb, aliases=aliases)
        own[verb].set_defaults(verb=verb)
    for verb in VERBS.keys() - {"list", "settle"}:
        own[verb].add_argument("name")
    for verb in ("add", "lead", "unlead"):
        own[verb].add_argument("--host", action="append", default=[])
        own[verb].add_argument("--prefix", action="append", default=[])
    for verb in ("allow", "forbid"):
        own[verb].add_argument("user", nargs="+")
    for verb in ("backup", "upgrade", "restore"):
        own[verb].add_argument("folder", type=Path)
    own["add"].add_argument("--operator", action="append", default=[])
    own["add"].add_argument("--anew", action="store_true")
    own["upgrade"].add_argument("--program", type=Path)
    own["settle"].add_argument("--files", action="store_true")
    return parser.parse_args()


def carry_out(asked: argparse.Namespace) -> None:
    """A fleet's records are copied without keeping the other fleets' changes waiting. `settle --files` waits for
    nobody: a start needs it."""
    open_folder(places.FLEETS)
    with contextlib.ExitStack() as locks:
        if "name" in asked:
            name = asked.name if NAME.fullmatch(asked.name) else "none"
            locks.enter_context(atomic.alone(places.FLEETS, None, f".{name}.lock"))
        if asked.verb in CHANGES or (asked.verb == "settle" and not asked.files):
            locks.enter_context(atomic.alone(places.FLEETS, None, "..lock"))
        VERBS[asked.verb](asked)


def main() -> int:
    guard_output()
    asked = read_command_line()
    os.umask(0o077)
    try:
        carry_out(asked)
    except (NotDone, Wrong, OSError) as why:
        print(f"fwdesk-fleet: {why}", file=sys.stderr)
        return 1
    return 0
