"""Makes a distribution set of modules, and tells its number.

    fwdesk-ctl set NAME VERSION --module ID [--module ID].. [--reuse] [--allow-empty] [--json]

A set locks its modules for good: none takes a further file. So a module without a file is refused here, unless
--allow-empty says that it is meant. With --reuse a set of this name and version that is there already is told in
its place, where it has the same modules."""
import json

from fwdesk_ctl.errors import NotDone

PATH = "/rest/v1/distributionsets"


def options(parser):
    parser.add_argument("name")
    parser.add_argument("version")
    parser.add_argument("--module", metavar="ID", type=int, action="append", required=True)
    parser.add_argument("--reuse", action="store_true")
    parser.add_argument("--allow-empty", action="store_true")
    parser.add_argument("--json", action="store_true", help="tell the set, not its number alone")


def look_with(order):
    return "the same order with --reuse"


def is_empty(desk, module):
    return desk.get(f"/rest/v1/softwaremodules/{module}/artifacts", limit=1)["total"] == 0


def run(desk, order):
    wanted = {
        "name": order.name,
        "version": order.version,
        "modules": [{"id": it} for it in order.module],
    }
    alike = (
        it for it in desk.every(PATH) if all(it[key] == wanted[key] for key in ("name", "version"))
    )
    made = next(alike, None) if order.reuse else None
    if made and made["modules"] != wanted["modules"]:
        raise NotDone(f"set {made['id']} is {order.name} {order.version} of other modules")
    if not made:
        empty = [it for it in order.module if not order.allow_empty and is_empty(desk, it)]
        if empty:
            raise NotDone(
                f"no file is in module {', '.join(map(str, empty))} yet, and a set locks it for good"
            )
        made = desk.post(PATH, [wanted])[0]
    print(json.dumps(made) if order.json else made["id"])
