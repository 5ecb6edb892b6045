"""What is done for many targets: their ids, and one call after the other, which may be interrupted and begun again."""
import csv
import re
import sys
import time
from urllib.parse import quote

from fwdesk_ctl.errors import Refused, Unreached, Wrong
from fwdesk_ctl.terminal import make_printable

WORD = re.compile(r"[A-Za-z0-9._-]{1,64}", re.ASCII)


def target(controller_id, *rest):
    """The path of a target, and of what is below it."""
    return "/".join(["/rest/v1/targets", quote(controller_id, safe=""), *map(str, rest)])


def text_of(file):
    """A file's text, or that of standard input where its name is a stroke."""
    if file == "-":
        return sys.stdin.read()
    with open(file, encoding="utf-8-sig", newline="") as it:
        return it.read()


def ids_in(file):
    """The ids of a list: the first value of each line, each id once."""
    rows = [
        (number, row[0].strip())
        for number, row in enumerate(csv.reader(text_of(file).splitlines()), 1)
        if row
    ]
    for number, name in rows:
        if not WORD.fullmatch(name):
            raise Wrong(f"{file}, line {number}: {name!r} is no id: 1 to 64 of A-Z a-z 0-9 . _ -")
    return list(dict.fromkeys(name for _, name in rows))


class Progress:
    """How far it is, on standard error: every two seconds, and at its end."""

    def __init__(self, what, total):
        self.what, self.total, self.done, self.refused, self.told = (
            what,
            total,
            0,
            0,
            time.monotonic(),
        )

    def tell(self):
        refused = f", {self.refused} refused" if self.refused else ""
        print(f"{self.what}: {self.done} of {self.total}{refused}", file=sys.stderr, flush=True)
        self.told = time.monotonic()

    def step(self):
        if time.monotonic() - self.told > 2:
            self.tell()


def each(what, things, name, do):
    """Does something for each. A refusal is told and the others go on; answers how many were refused."""
    progress = Progress(what, len(things))
    try:
        for it in things:
            try:
                do(it)
                progress.done += 1
            except Refused as refusal:
                progress.refused += 1
                print(make_printable(f"{name(it)}: {refusal}"), file=sys.stderr)
            progress.step()
    except (KeyboardInterrupt, Unreached):
        progress.tell()
        print("the same order again goes on with the rest", file=sys.stderr)
        raise
    if things:
        progress.tell()
    return progress.refused
