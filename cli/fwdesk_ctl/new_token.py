"""Gives a device a new token, and prints it: as when its token has leaked.

    fwdesk-ctl token ID [--out FILE]

The device's name, tags, attributes and actions stay as they are; its old token is refused from then on. The server keeps
no token: what is printed is all that there is of it. With --out it is written into a new file for its owner alone,
before the server is asked, as a line that `import` takes. Begun again it gives another token."""
import argparse
import csv
import os
import secrets
import sys
from pathlib import Path

from fwdesk_ctl import devices
from fwdesk_ctl.client import Desk
from fwdesk_ctl.errors import Unreached
from fwdesk_ctl.fleet_file import HEADER


def options(parser: argparse.ArgumentParser) -> None:
    parser.add_argument("id", metavar="ID")
    parser.add_argument("--out", metavar="FILE", type=Path)


def write(file: Path, device: dict, token: str) -> None:
    """A new file with the device's line, on the disk before the desk is asked."""
    made = os.open(file, os.O_WRONLY | os.O_CREAT | os.O_EXCL, 0o600)
    with open(made, "w", encoding="utf-8", newline="") as out:
        table = csv.writer(out, lineterminator="\n")
        name, tags = device["controllerId"], " ".join(device["tags"])
        table.writerows([HEADER, [name, device["name"], token, tags]])
        out.flush()
        os.fsync(out.fileno())


def run(desk: Desk, order: argparse.Namespace) -> None:
    device, token = devices.find(desk, order.id), secrets.token_urlsafe(24)
    if order.out:
        write(order.out, device, token)
    try:
        devices.put(desk, device, token, device["tags"])
    except Unreached:
        print(
            f"{order.id} may have a token that nobody knows: the same again gives another",
            file=sys.stderr,
        )
        raise
    print(f"it is in {order.out}" if order.out else token, file=sys.stderr if order.out else None)
    if "retired" in device["tags"]:
        print(
            f"{order.id} is tagged retired: fwdesk-ctl untag retired brings it back",
            file=sys.stderr,
        )
