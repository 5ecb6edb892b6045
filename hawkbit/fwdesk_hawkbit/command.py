"""The command line.

    fwdesk-hawkbit --devices [--desk URL] [--reads URL] [--firmware FOLDER] [--kept FOLDER] [..]
    fwdesk-hawkbit --manage  [--desk URL] [--door URL] [--firmware FOLDER] [--kept FOLDER] [--key FILE] [--hide] [..]
    fwdesk-hawkbit --lab     [--program PATH] [--port N] [--hide] [--register]
    fwdesk-hawkbit --tokens ID.. --key FILE [--fleet NAME]

--devices  serves swupdate, rauc-hawkbit-updater and other clients of hawkBit's device interface; nginx stands before it
--manage   serves what pipelines call of hawkBit's Management API; HAProxy stands before it, and between it and the desk:
           each call of the desk has the login of who asked
--lab      a new desk with both, for the tests of a device client; the first line says where. Nothing is kept
--tokens   prints these ids with the tokens that they have by the gateway's, as a file to import

A URL is http://HOST:PORT, or the path of a socket, and of one of many fleets SOCKET:/fleets/NAME. With systemd's socket
--listen is left out."""

import argparse
import csv
import re
import sys
from pathlib import Path

from aiohttp import web

from fwdesk_hawkbit import devices, lab, manage, serve
from fwdesk_hawkbit.calls import Gateway
from fwdesk_hawkbit.desk import FLEET, Desk
from fwdesk_hawkbit.kept import Kept
from fwdesk_hawkbit.sums import Artifacts

# the shortest key and gateway token that are taken, in bytes
SHORTEST = 32
LARGEST = 2_000_000_000
HIDING = (
    "fwdesk-hawkbit: --hide: what is deleted is only hidden, and its room in the desk stays taken"
)


def options() -> argparse.ArgumentParser:
    parser = argparse.ArgumentParser(
        "fwdesk-hawkbit", None, __doc__, formatter_class=argparse.RawDescriptionHelpFormatter
    )
    modes = parser.add_mutually_exclusive_group(required=True)
    for name in ("devices", "manage", "lab"):
        modes.add_argument(f"--{name}", action="store_true")
    modes.add_argument("--tokens", nargs="+", metavar="ID")
    add = parser.add_argument
    add("--desk", metavar="URL", default="http://127.0.0.1:8081", help="default: %(default)s")
    add("--reads", metavar="URL", help="the way for what devices may not ask (default: --desk's)")
    add("--door", metavar="URL", help="the way for what devices ask (default: --desk's)")
    add(
        "--connections",
        metavar="N",
        type=int,
        default=8,
        help="to the desk (default: 8); 1 where no HAProxy stands between",
    )
    add("--listen", metavar="PLACE", default="127.0.0.1:8090", help="HOST:PORT, or a socket's path")
    add("--firmware", metavar="FOLDER", type=Path, default=Path("/srv/firmware"))
    add("--kept", metavar="FOLDER", type=Path, help="what is kept (default: in memory alone)")
    add("--key", metavar="FILE", type=Path, help="32 bytes or more, of which tokens are made")
    add(
        "--fleet", metavar="NAME", default="", help="of many fleets the one whose --tokens they are"
    )
    add("--gateway-token", metavar="FILE", type=Path, help="the token that any device may come by")
    add("--register", action="store_true", help="who comes by it and isn't there is made a target")
    add("--polling", metavar="HH:MM:SS", default="00:05:00", help="told in polls that come by here")
    add("--hide", action="store_true", help="a deletion is answered as done, and hides")
    add("--largest", metavar="BYTES", type=int, default=LARGEST, help="of an upload")
    add("--program", metavar="PATH", default="fwdesk", help="of a lab's desk")
    add("--port", metavar="N", type=int, default=0, help="of a lab (default: any that is free)")
    return parser


def read_secret(path: Path, what: str) -> bytes:
    """A key or a token, or an end with the reason."""
    try:
        held = path.read_bytes().strip()
    except OSError as why:
        sys.exit(f"fwdesk-hawkbit: {what} {path}: {why.strerror}")
    if len(held) < SHORTEST:
        sys.exit(f"fwdesk-hawkbit: {what} {path} has under {SHORTEST} bytes")
    return held


def check(order: argparse.Namespace) -> None:
    """What doesn't fit together ends it before anything is served."""
    wrong = None
    if order.gateway_token and not order.key:
        wrong = "--gateway-token needs --key"
    if order.register and not order.gateway_token and not order.lab:
        wrong = "--register needs --gateway-token"
    if order.tokens and not order.key:
        wrong = "--tokens needs --key"
    if order.fleet and not (order.tokens and FLEET.fullmatch(order.fleet)):
        wrong = "--fleet is for --tokens, and has 1 to 24 small letters and digits"
    if order.hide and not (order.manage or order.lab):
        wrong = "--hide is for --manage and --lab"
    if not re.fullmatch(r"[0-9]{2}:[0-5][0-9]:[0-5][0-9]", order.polling, re.ASCII):
        wrong = "--polling is HH:MM:SS"
    if order.connections < 1:
        wrong = "--connections is 1 or more"
    if (order.devices or order.manage) and not order.firmware.is_dir():
        wrong = f"--firmware: there is no folder {order.firmware}"
    if wrong:
        sys.exit(f"fwdesk-hawkbit: {wrong}")


def print_tokens(key: bytes, ids: list[str]) -> None:
    out = csv.writer(sys.stdout, lineterminator="\n")
    out.writerow(("controllerid", "name", "token", "tags"))
    out.writerows((it, it, devices.token_of(key, it), "") for it in ids)


def build_devices(order: argparse.Namespace, key: bytes | None) -> web.Application:
    token = read_secret(order.gateway_token, "the token") if order.gateway_token else None
    service = devices.Service(
        Desk(order.desk, order.connections),
        Desk(order.reads or order.desk, order.connections),
        Artifacts(order.firmware, order.kept and order.kept / "sums"),
        order.polling,
        token.decode() if token else None,
        key,
        order.register,
    )
    return serve.make_devices(service)


def build_manage(order: argparse.Namespace, key: bytes | None) -> web.Application:
    artifacts = Artifacts(order.firmware, order.kept and order.kept / "sums")
    desk = Desk(order.desk, order.connections)
    gateway = Gateway(desk, artifacts, Kept(order.kept), key, order.largest, hides=order.hide)
    gateway.door = Desk(order.door, order.connections) if order.door else None
    return manage.make(gateway)


def main() -> None:
    order = options().parse_args()
    check(order)
    key = read_secret(order.key, "the key") if order.key else None
    if order.hide:
        print(HIDING, file=sys.stderr, flush=True)
    if order.tokens:
        assert key is not None
        print_tokens(devices.key_of(key, order.fleet), order.tokens)
    elif order.lab:
        lab.run(order.program, order.port, order.hide, order.register, order.largest)
    else:
        build = build_devices if order.devices else build_manage
        serve.run(lambda: build(order, key), order.listen)
