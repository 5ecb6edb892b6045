"""Quiet hours (the inverse of a maintenance window): which hours of which days they are, the rule of each fleet, all in
one timer, and the holds that follow from them. These holds are of the second kind, and leave the first one alone."""
import datetime
import re
import subprocess
import time
from dataclasses import dataclass

from fwdesk_ctl import systemd
from fwdesk_ctl.errors import NotDone, Wrong
from fwdesk_ctl.time_parsing import DAY, jump, now, readings, zone_of

DAYS = ("Mon", "Tue", "Wed", "Thu", "Fri", "Sat", "Sun")
HOURS = re.compile(r"([01][0-9]|2[0-3]):([0-5][0-9])-([01][0-9]|2[0-4]):([0-5][0-9])", re.ASCII)
AHEAD = 9  # days that are looked at: a week, and where it begins


@dataclass
class Hours:
    """From a minute of some days to another one, past midnight where that has a lower number than 1440 more."""

    begin: int
    end: int
    days: list


def days_of(text):
    """The numbers of the days in a list as Mon-Fri,Sun."""
    found = set()
    for it in text.split(","):
        ends = [DAYS.index(name.title()) for name in it.split("-") if name.title() in DAYS]
        if len(ends) != it.count("-") + 1 or len(ends) > 2:
            raise Wrong(f"{text!r} is no list of days, as Mon-Fri or Sat,Sun are")
        found |= {(ends[0] + k) % 7 for k in range((ends[-1] - ends[0]) % 7 + 1)}
    return sorted(found)


def hours_in(words):
    """What `06:00-22:00 Mon-Fri 08:00-20:00 Sat` says: hours, and the days on which they begin."""
    found = []
    for word in words:
        if told := HOURS.fullmatch(word):
            hour, minute, last, more = map(int, told.groups())
            begin, end = 60 * hour + minute, 60 * last + more
            if begin == end or end > 1440:
                raise Wrong(
                    f"{word}: hours are as 06:00-22:00 or 22:00-06:00 is, and a whole day 00:00-24:00"
                )
            found.append(Hours(begin, end if end > begin else end + 1440, list(range(7))))
        elif found and len(found[-1].days) == 7:
            found[-1].days = days_of(word)
        else:
            raise Wrong(f"{word!r} is no hours, as 06:00-22:00 are")
    return found


def edge(day, minutes, zone, last):
    """When a day's clock shows a minute: of two times the last or first, and where it jumps over it that moment."""
    local = datetime.datetime.combine(day, datetime.time()) + datetime.timedelta(minutes=minutes)
    found = readings(local, zone)
    return found[-1 if last else 0] if found else jump(local, zone)


def stretches(hours, zone, since):
    """From when until when it is quiet, from the day before a moment on; what overlaps or touches is one."""
    first = since.astimezone(zone).date() - DAY
    days = [first + k * DAY for k in range(AHEAD + 2)]
    found = sorted(
        (edge(day, it.begin, zone, False), edge(day, it.end, zone, True))
        for it in hours
        for day in days
        if day.weekday() in it.days
    )
    merged = found[:1]
    for begin, end in found[1:]:
        if begin > merged[-1][1]:
            merged.append((begin, end))
        else:
            merged[-1] = merged[-1][0], max(end, merged[-1][1])
    return [it for it in merged if it[1] > since]


def calendars(hours, zone):
    """The same for systemd, which counts on: the moments at which a look is needed."""
    for it in hours:
        for minutes in (it.begin, it.end):
            names = ",".join(DAYS[(day + minutes // 1440) % 7] for day in it.days)
            yield f"{names} *-*-* {minutes % 1440 // 60:02}:{minutes % 60:02}:00 {zone}"


TIMER, SERVICE = "fwdesk-quiet.timer", "fwdesk-quiet.service"
# beside each end a look at each quarter of an hour: where clocks change there are ends that systemd passes over
LOOKS = "*:0/15"


def rules():
    """The rules, by their fleet; a machine with one desk has that of no name."""
    return next(systemd.timers(TIMER), {})


def told(rule, since):
    """What a rule says of a moment: whether it is quiet, and until when it stays so."""
    begin, end = stretches(hours_in(rule["words"]), zone_of(rule["zone"]), since)[0]
    until = end if begin <= since else begin
    return {
        "hours": " ".join(rule["words"]),
        "zone": rule["zone"],
        "isQuiet": begin <= since,
        "until": until.isoformat(),
    }


def keep(fleet, rule):
    """Keeps a rule of a fleet in place of the one before, or none."""
    there = rules()
    if rule:
        there[fleet] = rule
    else:
        there.pop(fleet, None)
    if not there:
        systemd.systemctl("disable", "--quiet", SERVICE, must=False)
        systemd.take_away(TIMER)
        return
    times = [
        time
        for it in there.values()
        for time in calendars(hours_in(it["words"]), zone_of(it["zone"]))
    ]
    if wrong := [it for it in times if not systemd.is_time(it)]:
        raise Wrong(f"systemd doesn't know {wrong[0]!r}")
    systemd.place(TIMER, "quiet hours of fwdesk", [*dict.fromkeys(times), LOOKS], SERVICE, there)
    systemd.systemctl("enable", "--quiet", SERVICE)


# a change that is that near is waited for: systemd starts no second look beside this
SOON = datetime.timedelta(seconds=10)


def brake(*words):
    """Has fwdesk-brake do something to holds of the second kind."""
    try:
        ran = subprocess.run(
            ["fwdesk-brake", *words, "--kind", "quiet", "--who", "quiet hours"],
            capture_output=True,
            text=True,
            timeout=120,
        )
    except OSError as error:
        raise NotDone(
            f"fwdesk-brake: {error.strerror}: it is of HAProxy's machine, and so are quiet hours"
        ) from None
    if ran.returncode:
        raise NotDone(f"fwdesk-brake {words[0]}: {(ran.stderr or ran.stdout).strip()}")


def settle(book, fleet, rule, since):
    """Holds where quiet hours have begun, and releases where they have ended, until that is confirmed; once, so that
    somebody may release for one night what they hold. A brake that somebody pulled stays."""
    confirmed, it = book.setdefault("quiet", {}), told(rule, since) if rule else {"isQuiet": False}
    if confirmed.get(fleet) == it["isQuiet"]:
        return
    of_fleet = ["--fleet", fleet] if fleet else []
    confirmed.pop(fleet, None)
    if it["isQuiet"]:
        brake("hold", "--reason", f"{it['hours']} ({it['zone']})", *of_fleet)
    else:
        brake("release", *of_fleet)
    confirmed[fleet] = it["isQuiet"]


def settle_all():
    """What the timer, and a start of HAProxy, have done: the holds are as the rules say."""
    failed, ahead = [], [2 * SOON]
    with systemd.book() as book:
        for fleet, rule in rules().items():
            try:
                settle(book, fleet, rule, now())
            except NotDone as why:
                failed.append(str(why))
            ahead.append(now().fromisoformat(told(rule, now())["until"]) - now())
    if failed:
        raise NotDone("; ".join(failed))
    if min(ahead) < SOON:
        time.sleep(min(ahead).total_seconds())
        settle_all()
