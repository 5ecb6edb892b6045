"""Lists the devices of a rollout that failed, group by group, with the last words of each, and counts these.

    fwdesk-ctl failed ROLLOUT [--group N] [--ids | --json]

The words are the details of the report that ended the action. With --ids the ids alone are told, a line each, as
`tag` takes them for a second try:

    fwdesk-ctl failed 3 --ids | fwdesk-ctl tag retry-1 --ids -
    fwdesk-ctl plan spring-again --set 2 --filter tag==retry-1 --groups 1 --success 90 --error 10"""
import json
from collections import Counter
from itertools import groupby

from fwdesk_ctl.bulk import target
from fwdesk_ctl.rollout import actions
from fwdesk_ctl.terminal import make_printable


def options(parser):
    parser.add_argument("rollout", metavar="ROLLOUT", type=int)
    parser.add_argument("--group", metavar="N", type=int)
    how = parser.add_mutually_exclusive_group()
    how.add_argument("--ids", action="store_true")
    how.add_argument("--json", action="store_true")


def last_words(desk, row):
    """What a device said as it failed."""
    entries = desk.every(target(row["controllerid"], "actions", row["action"], "status"))
    ended = [
        it["details"]
        for it in entries
        if it["kind"] == "deployment" and it["finished"] == "failure"
    ]
    return " / ".join(ended[-1]) if ended and ended[-1] else "(no words)"


def by_group(desk, order):
    """Each group that has failed members: its number, its size, and these with their words."""
    table = actions(desk, order.rollout, order.group)
    for number, rows in groupby(table, lambda it: int(it["group"])):
        rows = list(rows)
        bad = [it for it in rows if it["state"] == "error"]
        named = [(it["controllerid"], None if order.ids else last_words(desk, it)) for it in bad]
        if named:
            yield number, len(rows), named


def run(desk, order):
    told = []
    for number, size, named in by_group(desk, order):
        counts = Counter(words for _, words in named).most_common()
        if order.ids:
            print(*(make_printable(name) for name, _ in named), sep="\n")
        elif order.json:
            listed = [{"controllerId": name, "words": words} for name, words in named]
            told.append({"group": number, "size": size, "failed": listed, "counts": dict(counts)})
        else:
            print(f"group {number}: {len(named)} of {size} failed")
            for words, count in counts:
                print(make_printable(f"{count:7} {words}"))
            for name, words in named:
                print(make_printable(f"    {name}: {words}"))
    if order.json:
        print(json.dumps(told))
