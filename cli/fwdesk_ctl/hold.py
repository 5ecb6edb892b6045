"""Holds the fleet, releases it, or lists what is held: hold, release, held.

    fwdesk-ctl hold [--reason WORDS] [--kind brake|quiet] [--json]
    fwdesk-ctl release [--kind brake|quiet] [--json]
    fwdesk-ctl held [--json]

While it is held no device is told of a deployment, and what is under way goes on: downloads, reports, cancels. Of the
two kinds each holds by itself, so that the end of quiet hours releases no hold. Who held first stays the one who is
told. It is HAProxy that holds, where fwdesk-brake.socket is enabled (docs/PROXIES.md)."""
import json
import sys

from fwdesk_ctl.errors import NotDone, Refused
from fwdesk_ctl.terminal import make_printable

PATH = "/fwdesk/brake"
METHODS = {"hold": "POST", "release": "DELETE", "held": "GET"}
MEMBERS = {"who", "since", "reason"}


def options(parser):
    parser.add_argument(
        "--reason", metavar="WORDS", default="", help="of hold: why, for all who look"
    )
    parser.add_argument("--kind", choices=("brake", "quiet"), default="brake")
    parser.add_argument("--json", action="store_true")


def sentence(kind, it):
    """Who holds, since when and why, in a line."""
    reason = f": {it['reason']}" if it["reason"] else ""
    return make_printable(f"{kind}: by {it['who']}, since {it['since']}{reason}")


def read_holds(desk, verb, query):
    """Each kind with who holds it, or None."""
    told = desk.read(METHODS[verb], PATH, **query)
    if set(told) != {"brake", "quiet"} or not all(
        it is None or set(it) == MEMBERS for it in told.values()
    ):
        raise desk.foreign(METHODS[verb], PATH, "it tells of no holds")
    return told


def look_with(order):
    return "fwdesk-ctl held"


def run(desk, order):
    query = {
        "hold": {"kind": order.kind, "reason": order.reason},
        "release": {"kind": order.kind},
        "held": {},
    }[order.verb]
    try:
        told = read_holds(desk, order.verb, query)
    except Refused as why:
        if why.status == 404:
            raise NotDone("the proxy has no brake: docs/PROXIES.md says which one has") from None
        raise
    held = [sentence(kind, it) for kind, it in told.items() if it]
    print(
        json.dumps(told) if order.json else "\n".join(held) or "nothing is held",
        file=sys.stdout if order.json or held else sys.stderr,
    )
