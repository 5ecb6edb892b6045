"""Quiet hours: from the first time until the second no device is handed firmware,
by holds that begin and end by themselves.

    fwdesk-ctl quiet HOURS [DAYS] [HOURS [DAYS]].. [--zone ZONE] [--fleet FLEET] [--dry-run [--from TIME]]
    fwdesk-ctl quiet off [--fleet FLEET]
    fwdesk-ctl quiet [--fleet FLEET] [--json]       tells them, and whether it is quiet

    fwdesk-ctl quiet 06:00-22:00 Mon-Fri    for pumps that work by day: firmware is handed out at night and at weekends
    fwdesk-ctl quiet 22:00-06:00            for alarms of houses that sleep: firmware is handed out from 06:00 to 22:00

DAYS are those on which the hours begin: 22:00-06:00 Fri ends on Saturday at 06:00. Without DAYS it is each day. Clocks
are those of this machine's zone, or of --zone. Where they jump over a time, the moment of the jump is taken for it; of
a time that they show twice the first one begins and the last one ends. For root, on HAProxy's machine, whose systemd
keeps them. Their end releases no hold that somebody ordered by `hold`. `release --kind quiet` ends them this time,
`quiet off` for good.
--dry-run only tells when it would be quiet, from now on or from a TIME on."""
import argparse
import datetime
import json
from typing import Any

from fwdesk_ctl import quiet_hours
from fwdesk_ctl import systemd
from fwdesk_ctl.client import Desk
from fwdesk_ctl.quiet_hours import AHEAD, hours_in, stretches
from fwdesk_ctl.time_parsing import DAY, moment_of, now, said, zone_of
from fwdesk_ctl.quiet_hours import settle, settle_all
from fwdesk_ctl.errors import Wrong


def options(parser: argparse.ArgumentParser) -> None:
    parser.add_argument("words", nargs="*", metavar="HOURS [DAYS]")
    parser.add_argument("--zone", metavar="ZONE")
    parser.add_argument("--fleet", metavar="FLEET")
    parser.add_argument("--from", metavar="TIME", dest="since")
    parser.add_argument("--dry-run", action="store_true")
    parser.add_argument("--json", action="store_true")
    parser.add_argument("--settle", action="store_true", help=argparse.SUPPRESS)


def show_rule(rule: dict[str, Any] | None, since: datetime.datetime, as_json: bool) -> None:
    """Prints in a line what a rule says of a moment."""
    told = quiet_hours.told(rule, since) if rule else None
    if as_json:
        print(json.dumps(told))
    elif not told:
        print("no quiet hours: firmware is handed out at any time")
    else:
        is_now = "it is quiet" if told["isQuiet"] else "firmware is handed out"
        until = said(since.fromisoformat(told["until"]), zone_of(told["zone"]))
        hours = f"{told['hours']} ({told['zone']})"
        print(f"quiet, so that no firmware is handed out: {hours}. Now {is_now}, until {until}")


def is_always(found: list[tuple[datetime.datetime, datetime.datetime]]) -> bool:
    """Whether the first stretch of quiet doesn't end within a week."""
    return bool(found) and found[0][1] - found[0][0] > (AHEAD - 1) * DAY


def set_rule(fleet: str, rule: dict[str, Any] | None, since: datetime.datetime) -> None:
    """Keeps the rule of a fleet, or none, and holds or releases as it says."""
    with systemd.book() as book:
        quiet_hours.keep(fleet, rule)
        book.get("quiet", {}).pop(fleet, None)
        settle(book, fleet, rule, since)


def run(_: Desk, asked: argparse.Namespace) -> int | None:
    fleet, since = asked.fleet or "", now()
    if asked.settle:
        return settle_all()
    if not asked.words:
        show_rule(quiet_hours.rules().get(fleet), since, asked.json)
        return None
    zone = zone_of(asked.zone)
    hours = [] if asked.words == ["off"] else hours_in(asked.words)
    if asked.since:
        since = moment_of(asked.since, zone, since)
    found = stretches(hours, zone, since)
    if is_always(found):
        raise Wrong("this would never allow updates; use `hold` instead")
    if asked.dry_run:
        for begin, end in found:
            print(f"quiet from {said(begin, zone)} until {said(end, zone)}")
        return None
    rule = {"words": asked.words, "zone": zone.key} if hours else None
    set_rule(fleet, rule, since)
    show_rule(rule, since, asked.json)
    return None
