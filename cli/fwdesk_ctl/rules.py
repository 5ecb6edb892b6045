"""The rules of `follow`: which devices are given which set, and in which groups."""
import argparse
import copy
import re
import shlex

from fwdesk_ctl.bulk import text_of
from fwdesk_ctl.plan import body_of, options, sizes
from fwdesk_ctl.errors import Wrong

NAME = re.compile(r"[A-Za-z0-9._-]{1,60}", re.ASCII)


def rules_in(file):
    """The rules of a file: each is what `plan` is told, of newcomers."""
    parser = argparse.ArgumentParser(
        "fwdesk-ctl follow: a rule", add_help=False, allow_abbrev=False
    )
    options(parser)
    lines = [shlex.split(line, comments=True) for line in text_of(file).splitlines()]
    rules = [parser.parse_args(words) for words in lines if words]
    names = [it.name for it in rules]
    if wrong := [it for it in names if not NAME.fullmatch(it) or names.count(it) > 1]:
        raise Wrong(
            f"{wrong[0]!r}: each rule has a name of its own, of 1 to 60 of A-Z a-z 0-9 . _ -"
        )
    return rules


def body(rule, name, tag, count):
    """The rollout of so many newcomers, in as many of the rule's groups as they fill."""
    own = copy.copy(rule)
    own.name, own.filter, own.groups = name, f"tag=={tag}", rule.groups and min(rule.groups, count)
    while own.group and 0 in sizes(count, own):
        own.group = own.group[1:]
    return body_of(own)
