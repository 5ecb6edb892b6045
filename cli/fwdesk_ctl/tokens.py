"""Makes a token for each device of a list, and the file to import.

    fwdesk-ctl tokens LIST --out FILE [--tags "TAG TAG"]

LIST has an id in each line, and may have a name behind a comma, and tags behind another; a stroke (-) stands for
standard input. FILE is made new, for its owner alone: the server keeps no token, so it is all that there is of them.
Hand each device its own, import the file (fwdesk-ctl import FILE), and keep it where other secrets are kept."""
import csv
import os
import secrets
import sys

from fwdesk_ctl.bulk import WORD, text_of
from fwdesk_ctl.errors import Wrong

MOST = 10_000


def options(parser):
    parser.add_argument("list", metavar="LIST")
    parser.add_argument("--out", metavar="FILE", required=True)
    parser.add_argument("--tags", default="", help="of those that have none of their own")


def devices(order):
    """The id, name and tags of each line; a fault is told by its line."""
    seen = {}
    for number, row in enumerate(csv.reader(text_of(order.list).splitlines()), 1):
        if not row:
            continue
        name, title, tags = map(str.strip, (row + ["", "", ""])[:3])
        if not all(map(WORD.fullmatch, [name, *(tags or order.tags).split()])):
            raise Wrong(
                f"{order.list}, line {number}: ids and tags are 1 to 64 of A-Z a-z 0-9 . _ -"
            )
        if name in seen:
            raise Wrong(f"{order.list}, line {number}: {name} is there twice")
        seen[name] = title or name, tags or order.tags
    if not 0 < len(seen) <= MOST:
        raise Wrong(f"{order.list} has {len(seen)} devices, and a desk takes 1 to {MOST:,}")
    return seen


def run(_, order):
    rows = devices(order)
    made = os.open(order.out, os.O_WRONLY | os.O_CREAT | os.O_EXCL, 0o600)
    with open(made, "w", encoding="utf-8", newline="") as out:
        table = csv.writer(out, lineterminator="\n")
        table.writerow(["controllerid", "name", "token", "tags"])
        table.writerows(
            [name, title, secrets.token_urlsafe(24), tags] for name, (title, tags) in rows.items()
        )
        out.flush()
        os.fsync(out.fileno())
    print(f"{len(rows)} tokens are in {order.out}: the desk keeps none of them", file=sys.stderr)
