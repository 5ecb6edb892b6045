"""Moments as operators write them, by clocks that change twice a year."""
import datetime
import os
import re
import zoneinfo
from pathlib import Path

from fwdesk_ctl.errors import Wrong

UTC, DAY = datetime.timezone.utc, datetime.timedelta(days=1)
CLOCK = re.compile(r"(?:[01]?[0-9]|2[0-3]):[0-5][0-9](?::[0-5][0-9])?", re.ASCII)
FORMS = "03:00, '2026-11-28 03:00' or 2026-11-28T03:00+01:00"


def now():
    return datetime.datetime.now(UTC).replace(microsecond=0)


def machines_zone():
    """The name of this machine's zone, as systemd has it."""
    link = os.path.realpath("/etc/localtime").partition("/zoneinfo/")[2]
    kept = Path("/etc/timezone")
    if not (name := link or kept.exists() and kept.read_text(encoding="utf-8").strip()):
        raise Wrong(
            "this machine doesn't say its time zone: say --zone, as in --zone Europe/Berlin"
        )
    return name


def zone_of(name):
    """The zone of a name, or this machine's."""
    name = name or machines_zone()
    try:
        return zoneinfo.ZoneInfo(name)
    except (OSError, ValueError, zoneinfo.ZoneInfoNotFoundError):
        raise Wrong(
            f"{name} is no time zone, as Europe/Berlin is (Debian's package tzdata has them)"
        ) from None


def readings(local, zone):
    """The moments at which a zone's clocks show a time: none where they jump over it, two where they show it twice."""
    both = {local.replace(tzinfo=zone, fold=it).astimezone(UTC) for it in (0, 1)}
    return sorted(it for it in both if it.astimezone(zone).replace(tzinfo=None) == local)


def jump(local, zone):
    """The moment at which a zone's clocks jump over a time."""
    early, late = sorted(local.replace(tzinfo=zone, fold=it).astimezone(UTC) for it in (0, 1))
    minutes = (
        early + datetime.timedelta(minutes=it)
        for it in range(int((late - early).total_seconds()) // 60 + 1)
    )
    return next(
        it
        for it in minutes
        if it.astimezone(zone).utcoffset() != early.astimezone(zone).utcoffset()
    )


def said(moment, zone):
    """A moment as that zone's clocks show it."""
    local = moment.astimezone(zone)
    return local.strftime("%a %Y-%m-%d %H:%M:%S %Z" if local.second else "%a %Y-%m-%d %H:%M %Z")


def moment_of(text, zone, since):
    """The moment that a text means: the next one where it names no day."""
    local = since.astimezone(zone).replace(tzinfo=None)
    try:
        if CLOCK.fullmatch(text):
            hour, *rest = map(int, text.split(":"))
            meant = datetime.datetime.combine(local, datetime.time(hour, *rest))
            meant += DAY if meant <= local else 0 * DAY
        else:
            meant = datetime.datetime.fromisoformat(text if ":" in text else "")
    except ValueError:
        raise Wrong(f"{text!r} is no time, as {FORMS} are") from None
    if meant.tzinfo:
        return meant.astimezone(UTC)
    found = readings(meant, zone)
    if not found:
        raise Wrong(
            f"{zone}: no clock shows {meant:%H:%M} on {meant:%Y-%m-%d}, "
            f"since they jump to {said(jump(meant, zone), zone)}"
        )
    if len(found) == 2:
        either = " or ".join(it.astimezone(zone).isoformat(timespec="minutes") for it in found)
        raise Wrong(f"{zone}: clocks show {meant:%H:%M} twice on {meant:%Y-%m-%d}: say {either}")
    return found[0]
