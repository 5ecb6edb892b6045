"""hawkBit's filters (RSQL): read, asked of an object, and written in the desk's words where it has them."""

import operator
import re
from collections.abc import Callable
from dataclasses import dataclass
from typing import Any

TOKEN = re.compile(
    r"""\s*(?:(?P<op>=[a-z]+=|==|!=|>=|<=|>|<)|(?P<sign>[();,])"""
    r"""|(?P<text>"(?:[^"\\]|\\.)*"|'(?:[^'\\]|\\.)*'|[^\s"'();,=!<>~]+))"""
)
ORDERS: dict[str, Callable[[Any, Any], bool]] = {
    ">": operator.gt,
    "=gt=": operator.gt,
    ">=": operator.ge,
    "=ge=": operator.ge,
    "<": operator.lt,
    "=lt=": operator.lt,
    "<=": operator.le,
    "=le=": operator.le,
}
EQUALS = ("==", "!=", "=in=", "=out=")
NOT = ("!=", "=out=")
NUMBER = re.compile(r"-?\d{1,18}(\.\d{1,18})?", re.ASCII)
# parentheses within each other, and the length of a filter in characters
DEEPEST, LONGEST = 16, 4096
# the fields of a target that the desk's filters have, by hawkBit's names
OF_DESK = {"id": "controllerid", "controllerid": "controllerid", "name": "name"}
OF_DESK |= {"tag": "tag", "tag.name": "tag"}


class Wrong(Exception):
    """It is no filter; or one of a field that isn't there, then `field` says which."""

    def __init__(self, why: str, field: str | None = None) -> None:
        super().__init__(why)
        self.field = field


@dataclass(frozen=True)
class Is:
    """One comparison."""

    field: str
    op: str
    values: tuple[str, ...]


@dataclass(frozen=True)
class Joined:
    """Parts of which all (`;`) or any (`,`) hold."""

    joint: str
    parts: "tuple[Filter, ...]"


Filter = Is | Joined


class Reader:
    """What is left of a filter's text while it is read."""

    def __init__(self, text: str) -> None:
        self.rest: list[tuple[str, str]] = []
        self.depth, at = 0, 0
        if len(text) > LONGEST:
            raise Wrong(f"it has over {LONGEST} characters")
        while text[at:].strip():
            found = TOKEN.match(text, at)
            if not found or not found.lastgroup:
                raise Wrong(f"syntax error at {at}")
            self.rest.append((found.lastgroup, found[found.lastgroup]))
            at = found.end()

    def take(self, *wanted: str) -> str | None:
        """The next token, if it is one of these signs or of this kind."""
        if self.rest and (self.rest[0][1] in wanted or self.rest[0][0] in wanted):
            return self.rest.pop(0)[1]
        return None

    def need(self, *wanted: str) -> str:
        got = self.take(*wanted)
        if got is None:
            there = self.rest[0][1] if self.rest else "the end"
            raise Wrong(f"{there} in place of {' or '.join(wanted)}")
        return got

    def several(self, below: Callable[[], Filter], *joints: str) -> Filter:
        parts = [below()]
        while self.take(*joints):
            parts.append(below())
        return parts[0] if len(parts) == 1 else Joined(joints[0], tuple(parts))

    def either(self) -> Filter:
        return self.several(lambda: self.several(self.one, ";", "and"), ",", "or")

    def value(self) -> str:
        it = self.need("text")
        return re.sub(r"\\(.)", r"\1", it[1:-1]) if it[0] in "\"'" else it

    def one(self) -> Filter:
        if self.take("("):
            self.depth += 1
            if self.depth > DEEPEST:
                raise Wrong(f"parentheses are over {DEEPEST} deep")
            inner = self.either()
            self.need(")")
            self.depth -= 1
            return inner
        field, op = self.need("text"), self.need("op")
        if op not in EQUALS and op not in ORDERS:
            raise Wrong(f"unknown operator {op}")
        if op not in ("=in=", "=out="):
            return Is(field, op, (self.value(),))
        self.need("(")
        values = [self.value()]
        while self.take(","):
            values.append(self.value())
        self.need(")")
        return Is(field, op, tuple(values))


def read(text: str) -> Filter:
    """The filter of a text, or Wrong."""
    reader = Reader(text)
    found = reader.either()
    if reader.rest:
        raise Wrong(f"{reader.rest[0][1]} where the filter ends")
    return found


def alike(held: Any, value: str) -> bool:
    """Whether a value is the one of a filter, in which `*` stands for any letters; large and small ones are one."""
    text, (first, *parts) = str(held).lower(), value.lower().split("*")
    if not parts:
        return text == first
    *between, last = parts
    at, end = len(first), len(text) - len(last)
    if at > end or not text.startswith(first) or not text.endswith(last):
        return False
    for it in between:
        if (found := text.find(it, at, end)) < 0:
            return False
        at = found + len(it)
    return True


def ordered(op: str, held: Any, value: str) -> bool:
    """Whether it stands so to the value: as numbers where both are, and else as texts."""
    if NUMBER.fullmatch(str(held)) and NUMBER.fullmatch(value):
        return ORDERS[op](float(held), float(value))
    return ORDERS[op](str(held), value)


def holds(found: Filter, get: Callable[[str], list[Any]]) -> bool:
    """Whether it holds; `get` gives the values of a field, or raises Wrong."""
    if isinstance(found, Joined):
        kept = [holds(it, get) for it in found.parts]
        return all(kept) if found.joint == ";" else any(kept)
    held = [it for it in get(found.field) if it is not None]
    if found.op in EQUALS:
        return any(alike(it, value) for it in held for value in found.values) != (found.op in NOT)
    return any(ordered(found.op, it, found.values[0]) for it in held)


def as_desk(found: Filter) -> str | None:
    """The same in the desk's words, or None. There large and small letters are two: compare whom both find."""
    if isinstance(found, Joined):
        parts = [as_desk(it) for it in found.parts]
        return None if None in parts else found.joint.join(f"({it})" for it in parts)
    low = found.field.lower()
    name = f"attribute.{found.field[10:]}" if low.startswith("attribute.") else OF_DESK.get(low)
    if name is None or found.op in ORDERS:
        return None
    if any(not it or re.search(r'["\x00-\x1f\x7f]', it) for it in found.values):
        return None
    plain = re.compile(r"[A-Za-z0-9._*-]+", re.ASCII)
    shown = [it if plain.fullmatch(it) else f'"{it}"' for it in found.values]
    joint, op = (";", "!=") if found.op in NOT else (",", "==")
    return joint.join(f"{name}{op}{it}" for it in shown)
