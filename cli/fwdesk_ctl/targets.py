"""Lists targets, or counts them by state.

    fwdesk-ctl targets [--filter TEXT] [--count | --ids | --json]

A line a target: id, state, tags, name. States: unknown, pending, in_sync, error. The filter is one of the server's:
controllerid, name, tag or attribute.KEY, by == or != with a word in which * stands for anything, joined by ; (and)
and , (or). Devices that are retired are tagged so, and left out by tag!=retired: no call deletes a target."""
import json
from collections import Counter

from fwdesk_ctl.terminal import make_printable


def options(parser):
    parser.add_argument("--filter", metavar="TEXT")
    how = parser.add_mutually_exclusive_group()
    for it in ("--count", "--ids", "--json"):
        how.add_argument(it, action="store_true")


def run(desk, order):
    query = {"q": order.filter} if order.filter else {}
    found = desk.every("/rest/v1/targets", **query)
    if order.json:
        print(json.dumps(found))
    elif order.count:
        counts = Counter(it["updateStatus"] for it in found)
        for state in ("unknown", "pending", "in_sync", "error"):
            print(f"{state:10}{counts[state]:6}")
        print(f"{'total':10}{len(found):6}")
    else:
        for it in found:
            more = (
                ""
                if order.ids
                else f"  {it['updateStatus']:8}  {','.join(it['tags']) or '-'}  {it['name']}"
            )
            print(make_printable(it["controllerId"] + more))
