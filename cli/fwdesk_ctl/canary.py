"""How a fleet is cut into canaries and the rest: what `ship` and `rollback` have in common."""
import argparse
import sys

from fwdesk_ctl.plan import condition, percent
from fwdesk_ctl.rollout import sizes


def options(parser: argparse.ArgumentParser, canary: str, success: int, error: int) -> None:
    """The cut's options with these defaults; an empty `canary` is one group of all."""
    parser.add_argument(
        "--canary",
        metavar="P,P..",
        type=percents,
        default=canary,
        help=f"percentages of the first groups (default: {canary or 'all in one group'})",
    )
    parser.add_argument("--success", metavar="P", type=percent, default=success)
    parser.add_argument("--error", metavar="P", type=percent, default=error)


def percents(text: str) -> list[int]:
    """The percentages of a list as 1,10; an empty text has none."""
    found = [percent(it.strip()) for it in text.split(",")] if text else []
    if 100 in found:
        raise argparse.ArgumentTypeError("a canary is less than 100 percent: the rest comes last")
    if len(found) > 49:
        raise argparse.ArgumentTypeError("a rollout has at most 50 groups")
    return found


def cut(members: int, canary: list[int]) -> tuple[list[int], list[int]]:
    """The percentages that leave no group empty, the last of 100, and the sizes of their groups. Of a small fleet the
    last canaries are left out; of none there is one group, of size 0."""
    while True:
        chosen = [*canary, 100]
        groups = [{"targetPercentage": it} for it in chosen]
        found = sizes(members, argparse.Namespace(groups=None, group=groups))
        if all(found) or not canary:
            return chosen, found
        canary = canary[:-1]


def plan_of(
    name: str, firmware: int, text: str, members: int, order: argparse.Namespace
) -> tuple[dict, list[int]]:
    """A rollout of a set to the devices that match a text, as the desk takes it, and its groups' sizes."""
    chosen, found = cut(members, order.canary)
    if len(chosen) <= len(order.canary):
        left_out = ",".join(map(str, order.canary[len(chosen) - 1 :]))
        print(f"{members} devices are too few for canary {left_out}: left out", file=sys.stderr)
    plan = {
        "name": name,
        "distributionSetId": firmware,
        "targetFilterQuery": text,
        "groups": [{"targetPercentage": it} for it in chosen],
        "successCondition": condition(order.success),
        "errorCondition": condition(order.error),
    }
    return plan, found
