"""Makes a software module, and tells its number.

    fwdesk-ctl module NAME VERSION [--type os] [--reuse] [--json]

With --reuse a module of this name, type and version that is there already is told in its place, so that a
pipeline may run again. `locked` says that a set names it: then it takes no further file."""
import json

PATH = "/rest/v1/softwaremodules"


def options(parser):
    parser.add_argument("name")
    parser.add_argument("version")
    parser.add_argument("--type", default="os", help="what a device takes it for (default: os)")
    parser.add_argument("--reuse", action="store_true")
    parser.add_argument("--json", action="store_true", help="tell the module, not its number alone")


def look_with(order):
    return "the same order with --reuse"


def found(desk, wanted):
    """The module of this name, type and version, if it is there."""
    alike = (it for it in desk.every(PATH) if all(it[key] == wanted[key] for key in wanted))
    return next(alike, None)


def run(desk, order):
    wanted = {"name": order.name, "type": order.type, "version": order.version}
    made = order.reuse and found(desk, wanted) or desk.post(PATH, [wanted])[0]
    print(json.dumps(made) if order.json else made["id"])
