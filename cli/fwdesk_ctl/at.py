"""Scheduled commands. systemd's timers keep them on this machine, the one that keeps the clock:
it has to be on at their time.

    fwdesk-ctl at TIME start|resume|pause|trigger|hold|release .. [--if-missed do|tell] [--zone ZONE] [--dry-run]
    fwdesk-ctl at --list [--ended] [--json]
    fwdesk-ctl at --cancel N

TIME is 03:00 (when a clock next shows it), '2026-11-28 03:00' or 2026-11-28T03:00+01:00, by this machine's zone or by
--zone Europe/Berlin. A time that clocks jump over in that night, or show twice, is refused in words that say what to
write instead. The moment is fixed with the order: where this machine gets another zone afterwards, it stays.
--if-missed says what becomes of an order whose time comes while the machine is off: at the next start it is told that
it wasn't done (tell, which is the default), or it is done, however late. What the server refuses, or what isn't done for
another reason, is an error in the journal (journalctl -u 'fwdesk-at@*') and counts in the metrics. A server that isn't
reached is tried again for 15 minutes. It is for root. The login for a server elsewhere is the line of its host in root's
~/.netrc, and stays there."""
import argparse
import json

from fwdesk_ctl import coming, run_scheduled, schedule, systemd
from fwdesk_ctl.time_parsing import now, said, zone_of
from fwdesk_ctl.schedule import order_of, place, settings
from fwdesk_ctl.errors import NotDone


def options(parser):
    settings(parser)
    for it in ("--list", "--ended", "--json"):
        parser.add_argument(it, action="store_true")
    parser.add_argument("--metrics", action="store_true", help=argparse.SUPPRESS)
    parser.add_argument("--cancel", metavar="N", type=int)
    parser.add_argument("--do", type=int, help=argparse.SUPPRESS)
    parser.add_argument("words", metavar="TIME VERB ..", nargs=argparse.REMAINDER)


def line(it):
    """An order, or what became of it, in a line."""
    when = said(now().fromisoformat(it["at"]), zone_of(it["zone"]))
    if "outcome" in it:
        more = f"{it['outcome']}{it['told'] and ': '}{it['told']}"
    else:
        active = (
            systemd.systemctl("is-active", f"fwdesk-at-{it['order']}.timer", must=False).strip()
            == "active"
        )
        more = f"if missed: {it['ifMissed']}{'' if active else '; its timer is stopped'}"
    return f"{it['order']:>4}  {when}  {it['words']}  ({it['who']}; {more})"


def show(order):
    told = coming.everything()
    lines = (
        [json.dumps(told)] if order.json else map(line, told["ended" if order.ended else "orders"])
    )
    for it in lines:
        print(it)


def cancel(number):
    with systemd.book() as book:
        found = [it for it in schedule.waiting() if it.number == number]
        if not found or book["begun"].get(str(number), {}).get("sent"):
            raise NotDone(f"no order {number} waits: see fwdesk-ctl at --list")
        book["begun"].pop(str(number), None)
        systemd.take_away(found[0].name)


def run(_, asked):
    if asked.do is not None:
        return run_scheduled.run(asked.do)
    if asked.list or asked.ended:
        return show(asked)
    if asked.metrics:
        return print(coming.metrics())
    if asked.cancel is not None:
        return cancel(asked.cancel)
    order = order_of(asked)
    if not asked.dry_run:
        place(order)
    print(f"{order.number or '-':>4}  {said(order.due, zone_of(order.zone))}  {order.said}")
