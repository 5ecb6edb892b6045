"""Adds a .swu or .raucb of any size for hawkBit's clients, which ask fwdesk-hawkbit (docs/DEVICES.md).

    fwdesk-ctl firmware-add FILE --module ID [--name NAME] [--firmware FOLDER] [--json]

A file over 4,194,304 bytes goes into FOLDER first, whole or not at all, on the machine of fwdesk-hawkbit and by a name
that no other image has there; then the module gets its stub. Any other file is put into the module as it is. What is
cut short fails no device: begin it again."""

import json
import sys
from pathlib import Path

from fwdesk_ctl.atomic import alone, placed
from fwdesk_ctl.errors import NotDone, Wrong
from fwdesk_ctl.firmware.images import image_of, pieces_of, summed
from fwdesk_ctl.upload import named, put


def options(parser):
    parser.add_argument("file", metavar="FILE", type=Path)
    parser.add_argument("--module", metavar="ID", type=int, required=True)
    parser.add_argument("--name", help="the artifact's name (default: that of FILE)")
    parser.add_argument("--firmware", metavar="FOLDER", type=Path, default=Path("/srv/firmware"))
    parser.add_argument(
        "--json", action="store_true", help="tell the artifact, not its number alone"
    )


def artifacts(desk):
    """Each artifact of the desk, with its module."""
    modules = desk.every("/rest/v1/softwaremodules")
    return [
        (it, one)
        for it in modules
        for one in desk.every(f"/rest/v1/softwaremodules/{it['id']}/artifacts")
    ]


def find_objection(desk, order, name, image):
    """What speaks against it, before anything is changed; or None."""
    module = desk.get(f"/rest/v1/softwaremodules/{order.module}")
    alike = [
        (it["id"], one["hashes"]["sha256"])
        for it, one in artifacts(desk)
        if one["providedFilename"] == name
    ]
    if other := [
        it for it, held in alike if held != image.held and (image.is_large or it == order.module)
    ]:
        return f"module {other[0]} has another {name}: give each version a name of its own"
    if (order.module, image.held) in alike:
        return None
    if module["locked"]:
        return f"a set names module {order.module} already, so it takes no further file"
    return None


def place_image(order, name, image):
    """Puts a large file where fwdesk-hawkbit finds it; one that lies there already is compared."""
    lies = order.firmware / name
    if lies.exists():
        if summed(pieces_of(lies)) != image.sums:
            raise NotDone(f"{lies} is another file: give each version a name of its own")
        return
    placed(lies, pieces_of(order.file))
    if summed(pieces_of(lies)) != image.sums:
        raise NotDone(f"{order.file} was changed while it was copied")


def run(desk, order):
    name = named(order.name or order.file.name)
    if not name.endswith((".swu", ".raucb")):
        raise Wrong(
            f"{name} ends neither in .swu nor in .raucb: upload takes a file for other devices"
        )
    image = image_of(order.file)
    if why := find_objection(desk, order, name, image):
        raise NotDone(why)
    if image.is_large:
        if not order.firmware.is_dir():
            raise NotDone(
                f"{order.firmware} is no folder: --firmware names the one of fwdesk-hawkbit"
            )
        with alone(order.firmware):
            place_image(order, name, image)
        print(f"1 of 2: {order.firmware / name}", file=sys.stderr, flush=True)
        print(f"2 of 2: its stub into module {order.module}", file=sys.stderr, flush=True)
    made = put(desk, order.module, name, image.contents)
    print(json.dumps(made) if order.json else made["id"])
