"""Replies, taken for the server's own only in the form that docs/API.md gives them: anybody may answer at an address."""
import csv
import json
from collections.abc import Callable
from typing import Any

from fwdesk_ctl.errors import ForeignReply

MOST_BYTES = 8 * 1024 * 1024  # of a reply: the longest of the server's, an artifact, has half of it
MOST_ENTRIES = 100_000  # of a list: ten times what the server keeps of anything
# the members that are read, by their types, wherever they are
TYPES: dict[str, type] = {
    **dict.fromkeys(("id", "size", "total", "group", "rollout", "accepted"), int),
    **dict.fromkeys(("bad", "error", "gone", "ok", "success"), int),
    **dict.fromkeys(("distributionSetId", "totalGroups", "totalTargets"), int),
    **dict.fromkeys(("name", "type", "version", "status", "target", "updateStatus"), str),
    **dict.fromkeys(("controllerId", "providedFilename", "targetFilterQuery", "sha256"), str),
    **dict.fromkeys(("execution", "finished", "kind", "who", "since", "reason"), str),
    **dict.fromkeys(("content", "modules", "tags", "details"), list),
    **dict.fromkeys(("hashes",), dict),
    **dict.fromkeys(("locked",), bool),
}
# lists of texts, and objects whose members devices choose
TEXTS, FREE = ("tags", "details"), ("attributes",)


Foreign = Callable[[str], ForeignReply]  # makes the exception of a reason


class Record(dict):
    """An object of a reply. A member that is missing makes the reply foreign."""

    def __init__(self, members: dict[str, Any], foreign: Foreign) -> None:
        super().__init__(members)
        self.foreign = foreign

    def __missing__(self, key: str) -> Any:
        raise self.foreign(f"it has no member {key!r}")


def is_of(value: Any, wanted: type) -> bool:
    """Whether a value of JSON has this type. (A Boolean of Python is an integer too, and none of JSON's.)"""
    return isinstance(value, wanted) and (wanted is bool or not isinstance(value, bool))


def as_record(value: Any, foreign: Foreign) -> Any:
    """The value with each object in it as a Record, whose members have their types."""
    if isinstance(value, list):
        return [as_record(it, foreign) for it in value]
    if not isinstance(value, dict):
        return value
    for key, member in value.items():
        if key in TYPES and not is_of(member, TYPES[key]):
            raise foreign(f"its member {key!r} is no {TYPES[key].__name__}")
        if key in TEXTS and not all(isinstance(it, str) for it in member):
            raise foreign(f"its member {key!r} holds more than texts")
        if key == "content" and not all(isinstance(it, dict) for it in member):
            raise foreign("its content holds more than objects")
    members = {key: it if key in FREE else as_record(it, foreign) for key, it in value.items()}
    return Record(members, foreign)


def read_json(reply: bytes, wanted: type, foreign: Foreign) -> Any:
    """The object, or the list of objects, that a reply is; raises what `foreign` makes for any other text."""
    try:
        value: Any = json.loads(reply)
    except (ValueError, RecursionError):
        raise foreign("it is no JSON") from None
    if not isinstance(value, wanted):
        raise foreign(f"it is no JSON {'object' if wanted is dict else 'array'}")
    if isinstance(value, list) and not all(isinstance(it, dict) for it in value):
        raise foreign("it holds more than objects")
    return as_record(value, foreign)


def read_table(reply: bytes, columns: tuple[str, ...], foreign: Foreign) -> list[dict[str, str]]:
    """The rows of a table of comma-separated values that has these columns; raises what `foreign` makes for any other
    text."""
    try:
        table = csv.DictReader(reply.decode().splitlines(), strict=True)
        rows = list(table)
    except (UnicodeDecodeError, csv.Error):
        raise foreign("it is no table") from None
    if missing := [it for it in columns if it not in (table.fieldnames or ())]:
        raise foreign(f"its table has no column {missing[0]!r}")
    if any(None in row or None in row.values() for row in rows):
        raise foreign("a row of its table is longer or shorter than the first one")
    return rows
