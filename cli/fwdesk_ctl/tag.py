"""Tags many targets, or takes a tag off them.

    fwdesk-ctl tag|untag TAG (--ids FILE | --filter TEXT)

FILE has an id in each line, or as the first value of it; a stroke (-) stands for standard input. Without a file it
is the targets that match the filter now. What is refused, as an id that the server doesn't know or a seventeenth tag,
is told, the others are tagged all the same, and the status is 1. Progress is on standard error. It may be
interrupted and begun again: a tag may be there already, and may be taken away where it isn't."""
from fwdesk_ctl.bulk import WORD, each, ids_in, target
from fwdesk_ctl.errors import NotDone, Wrong


def options(parser):
    parser.add_argument("tag", metavar="TAG")
    which = parser.add_mutually_exclusive_group(required=True)
    which.add_argument("--ids", metavar="FILE")
    which.add_argument("--filter", metavar="TEXT")


def run(desk, order):
    if not WORD.fullmatch(order.tag):
        raise Wrong(f"{order.tag!r} is no tag: 1 to 64 of A-Z a-z 0-9 . _ -")
    if order.ids:
        names = ids_in(order.ids)
    else:
        names = [it["controllerId"] for it in desk.every("/rest/v1/targets", q=order.filter)]
    method, done = ("POST", "tagged") if order.verb == "tag" else ("DELETE", "untagged")
    refused = each(done, names, str, lambda it: desk.ask(method, target(it, "tags", order.tag)))
    if refused:
        raise NotDone(f"{refused} of {len(names)} are refused")
