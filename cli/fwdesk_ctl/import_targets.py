"""Imports a file of targets: taken whole, or refused. With --check it tells what an import would change.

    fwdesk-ctl import FILE
    fwdesk-ctl import --check FILE [--json]

Its first line is controllerid,name,token,tags. A target that is there gets the new name, token and tags; tags that the
file doesn't have are lost, `retired` too.
--check changes nothing. It tells which devices are new, which are renamed, and which would lose or gain which tags; and
each fault of each line, all of them at once, with status 1. (The server keeps no token, so a new one can't be told.)"""
import argparse
import json
import sys
from collections.abc import Sequence
from pathlib import Path

from fwdesk_ctl import fleet_file
from fwdesk_ctl.client import Desk
from fwdesk_ctl.errors import NotDone, Refused, Wrong
from fwdesk_ctl.fleet_file import LARGEST, FleetFile

MOST = 10_000  # targets of a desk
PATH = "/desk/v1/import"


def options(parser: argparse.ArgumentParser) -> None:
    parser.add_argument("file", metavar="FILE", type=Path)
    parser.add_argument(
        "--check", action="store_true", help="tell what would change, and change nothing"
    )
    parser.add_argument("--json", action="store_true", help="of --check")


def look_with(order: argparse.Namespace) -> str:
    return "fwdesk-ctl targets --count, or the same order again, which imports the same"


def place(text: bytes, record: int) -> int | None:
    """The line of a record: empty lines aren't counted by the desk."""
    lines = [number for number, it in enumerate(text.splitlines(), 1) if it.strip(b"\r\n")]
    return lines[record - 1] if 0 < record <= len(lines) else None


def whole(text: bytes) -> str:
    """What is wrong with a file as a whole."""
    if not text:
        return "it is empty"
    return "its last line doesn't end" if not text.endswith(b"\n") else "it isn't UTF-8"


def changes_of(file: FleetFile, there: Sequence[dict]) -> dict:
    """What an import of a file's good lines would change of the targets that are there."""
    known = {it["controllerId"]: it for it in there}
    told: dict = {it: [] for it in ("new", "renamed", "losesTags", "gainsTags")}
    for row in file.rows:
        name, before = row.controller_id, known.get(row.controller_id)
        if not before:
            told["new"].append(name)
            continue
        if before["name"] != row.name:
            told["renamed"].append({"controllerId": name, "from": before["name"], "to": row.name})
        for key, tags in (
            ("losesTags", set(before["tags"]) - set(row.tags)),
            ("gainsTags", set(row.tags) - set(before["tags"])),
        ):
            told[key] += [{"controllerId": name, "tags": sorted(tags)}] if tags else []
    return told


def lines_of(told: dict) -> list[str]:
    """The changes as lines for people."""
    return [
        *(f"new      {it}" for it in told["new"]),
        *(f"renamed  {it['controllerId']}: {it['from']} -> {it['to']}" for it in told["renamed"]),
        *(f"loses    {it['controllerId']}: {' '.join(it['tags'])}" for it in told["losesTags"]),
        *(f"gains    {it['controllerId']}: {' '.join(it['tags'])}" for it in told["gainsTags"]),
        *(f"wrong    {f'line {line}: ' if line else ''}{words}" for line, words in told["faults"]),
    ]


def summary_of(told: dict, count: int) -> str:
    """The changes in a line."""
    words = (
        ("new", "new"),
        ("renamed", "renamed"),
        ("losesTags", "lose tags"),
        ("gainsTags", "gain tags"),
    )
    return f"{count} devices: {', '.join(f'{len(told[key])} {what}' for key, what in words)}"


def compare(desk: Desk, path: Path) -> tuple[FleetFile, dict]:
    """A file with every fault that an import of it would have, and what the import would change."""
    file = fleet_file.read(path.read_bytes())
    there = desk.every("/rest/v1/targets")
    told = changes_of(file, there)
    if len(there) + len(told["new"]) > MOST:
        many = f"{len(there):,} devices are there and {len(told['new']):,} are new"
        file.faults.insert(0, (0, f"{many}: a desk takes {MOST:,}"))
    return file, told | {"faults": file.faults}


def refuse_faults(path: Path, file: FleetFile) -> None:
    """Raises NotDone where a file has faults."""
    if file.faults:
        count, wrong = len(file.faults), len({line for line, _ in file.faults})
        raise NotDone(
            f"{path} would be refused: {count} fault{'s'[:count != 1]} in {wrong} "
            f"line{'s'[:wrong != 1]}; nothing is changed"
        )


def check(desk: Desk, order: argparse.Namespace) -> None:
    """Tells what an import would change; raises NotDone where the desk would refuse the file."""
    file, told = compare(desk, order.file)
    if order.json:
        listed = [{"line": line, "words": words} for line, words in file.faults]
        print(json.dumps(told | {"devices": len(file.rows), "faults": listed}))
    else:
        print(*lines_of(told), summary_of(told, len(file.rows)), sep="\n")
    refuse_faults(order.file, file)


def run(desk: Desk, order: argparse.Namespace) -> None:
    if order.check:
        return check(desk, order)
    text = order.file.read_bytes()
    if len(text) > LARGEST:
        raise Wrong(
            f"{order.file} has {len(text):,} bytes, and a desk takes {LARGEST:,} at once: import it in parts"
        )
    try:
        print(desk.read("POST", PATH, text)["accepted"])
    except Refused as refusal:
        if refusal.name != "import_line":
            raise
        for line, words in fleet_file.read(text).faults:
            print(f"{order.file}{f', line {line}' if line else ''}: {words}", file=sys.stderr)
        at = place(text, refusal.line or 0)
        raise NotDone(
            f"{order.file}{f', line {at}' if at else ''}: {refusal if at else whole(text)}"
        ) from None
