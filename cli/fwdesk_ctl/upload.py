"""Puts a file into a module, compares its digest, and tells the artifact's number.

    fwdesk-ctl upload FILE --module ID [--name NAME] [--json]

The server compares the SHA-256 that is sent along with what arrived, and keeps nothing where they differ. A file
that is in the module already, whole and by this name, is done too: so what got no answer may be sent again. A
file over 4,194,304 bytes is for firmware-add."""
import hashlib
import json
import re
from pathlib import Path

from fwdesk_ctl.errors import Refused, Wrong

LARGEST = 4_194_304
NO_FILES = (".", "..")  # names that the desk would take, and that no file can have
NAME = re.compile(r"[A-Za-z0-9._-]{1,128}", re.ASCII)


def options(parser):
    parser.add_argument("file", metavar="FILE", type=Path)
    parser.add_argument("--module", metavar="ID", type=int, required=True)
    parser.add_argument("--name", help="the artifact's name (default: that of FILE)")
    parser.add_argument(
        "--json", action="store_true", help="tell the artifact, not its number alone"
    )


def named(name):
    """A name that an artifact may have."""
    if not NAME.fullmatch(name) or name in NO_FILES:
        raise Wrong(
            f"invalid name of an artifact {name!r}: expected 1 to 128 of A-Z a-z 0-9 . _ -, and neither . nor ..; --name gives another"
        )
    return name


def look_with(order):
    return "the same order again, which keeps one file alone"


def path_of(module):
    return f"/rest/v1/softwaremodules/{module}/artifacts"


def put(desk, module, name, contents):
    """The artifact that a module has then: made now, or the same that was there."""
    digest = hashlib.sha256(contents).hexdigest()
    try:
        made = desk.read("POST", path_of(module), contents, filename=name, sha256=digest)
    except Refused as refusal:
        there = desk.every(path_of(module)) if refusal.name in ("exists", "locked") else []
        made = next((it for it in there if it["providedFilename"] == name), None)
        if made is None or made["hashes"]["sha256"] != digest:
            raise
    if (made["hashes"]["sha256"], made["size"]) != (digest, len(contents)):
        raise Refused(200, json.dumps({"error": "digest", "number": 13}))
    return made


def run(desk, order):
    name = named(order.name or order.file.name)
    if (size := order.file.stat().st_size) > LARGEST:
        raise Wrong(
            f"{order.file} has {size:,} bytes, and a desk takes {LARGEST:,}: firmware-add takes larger ones"
        )
    made = put(desk, order.module, name, order.file.read_bytes())
    print(json.dumps(made) if order.json else made["id"])
