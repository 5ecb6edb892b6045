"""The devices of a file that a desk doesn't have yet: they are imported, and none that is there is changed."""
import csv
import io
import sys
from collections.abc import Sequence
from pathlib import Path

from fwdesk_ctl import import_targets
from fwdesk_ctl.client import Desk
from fwdesk_ctl.errors import NotDone, Refused
from fwdesk_ctl.fleet_file import HEADER, Row


def differing(told: dict) -> set[str]:
    """The devices that are there with another name or other tags than the file has."""
    return {it["controllerId"] for key in ("renamed", "losesTags", "gainsTags") for it in told[key]}


def find_new(desk: Desk, path: Path) -> tuple[list[Row], str]:
    """The devices of a file that are new, and words for how the file and the desk differ. Raises NotDone, once each fault
    of the file is told, where the desk would refuse it."""
    file, told = import_targets.compare(desk, path)
    for line, words in file.faults:
        print(f"{path}{f', line {line}' if line else ''}: {words}", file=sys.stderr)
    import_targets.refuse_faults(path, file)
    names = set(told["new"])
    new = [it for it in file.rows if it.controller_id in names]
    words = f"{len(new)} new, {len(file.rows) - len(new)} there already"
    if others := differing(told):
        words += f", {len(others)} of these with another name or other tags than {path} has"
        words += f" (fwdesk-ctl import --check {path})"
    return new, words


def text_of(rows: Sequence[Row]) -> bytes:
    """Devices as the desk takes them."""
    out = io.StringIO(newline="")
    table = csv.writer(out, lineterminator="\n")
    table.writerow(HEADER)
    table.writerows([it.controller_id, it.name, it.token, " ".join(it.tags)] for it in rows)
    return out.getvalue().encode()


def add(desk: Desk, path: Path, rows: Sequence[Row]) -> None:
    """Imports devices of a file; raises NotDone with the line of the file where the desk refuses one."""
    if not rows:
        return
    try:
        desk.read("POST", import_targets.PATH, text_of(rows))
    except Refused as refusal:
        # (the first record is the header)
        at = (refusal.line or 0) - 2
        if refusal.name != "import_line" or not 0 <= at < len(rows):
            raise
        raise NotDone(f"{path}, line {rows[at].line}: {refusal}") from None
