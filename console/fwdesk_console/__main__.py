"""fwdesk-console [--check] [--fleet NAME] [SETTINGS]: watches a desk through HAProxy and remembers what it saw. It gives no orders.

SETTINGS is a TOML file, /etc/fwdesk/console.toml where it is there and none is named. --check reads it and ends.
Of many fleets on one machine each has a console, by --fleet NAME; --lead is the service that leads HAProxy's lines and
questions to them, and reads no file but one that is named."""
import argparse
import asyncio
import logging
import os
import sys
from pathlib import Path

from . import lead, settings
from .service import Service

PLACES = ("/etc/fwdesk/console.toml",)


def find_settings(named: str | None, leads: bool = False) -> str | None:
    """The file that is named, else what systemd hands on, else that of /etc, else none. What leads has none of its own: the
    addresses of webhooks are secrets of the consoles, which it may not read."""
    if named or leads:
        return named
    handed = os.environ.get("CREDENTIALS_DIRECTORY")
    places = ([f"{handed}/console.toml"] if handed else []) + list(PLACES)
    return next((it for it in places if Path(it).exists()), None)


def main() -> None:
    asked = argparse.ArgumentParser(
        prog="fwdesk-console",
        description=__doc__,
        formatter_class=argparse.RawDescriptionHelpFormatter,
    )
    asked.add_argument("settings", nargs="?", metavar="SETTINGS")
    asked.add_argument("--check", action="store_true", help="reads the settings and ends")
    asked.add_argument("--fleet", metavar="NAME", help="the console of one fleet of many")
    asked.add_argument("--lead", action="store_true", help="leads to the consoles of many fleets")
    order = asked.parse_args()
    logging.basicConfig(format="%(levelname)s %(message)s", level=logging.INFO, stream=sys.stderr)
    try:
        told = settings.read(find_settings(order.settings, order.lead))
        if order.fleet is not None:
            told = settings.of_fleet(told, order.fleet)
        if not order.check:
            asyncio.run(lead.serve(told) if order.lead else Service(told).serve())
    except settings.Wrong as error:
        sys.exit(f"fwdesk-console: {error}")


if __name__ == "__main__":
    main()
